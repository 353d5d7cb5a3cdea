//! The proved controller for a board: seven calls over a record, and a buffer that
//! each call is lent; one call with no record, which turns a table's image into its
//! other form; and the parity bit of a byte on the bus.
//!
//! `raw` is the library as C sees it, `Drive`, `convert` and `parity` the safe API over
//! it. The caller turns what happens on the bus and at the heads into calls and does
//! what each call answers; `docs/BOARD.md` has the loop. With the feature `compare`
//! there is also what the programs `fuzz` and `bench` use.

#![no_std]

#[cfg(any(test, feature = "compare"))]
extern crate std;

#[cfg(feature = "compare")]
pub mod baseline;
#[cfg(feature = "compare")]
pub mod compare;
#[cfg(any(test, feature = "compare"))]
pub mod fields;
pub mod parity;
pub mod raw;
#[cfg(test)]
mod tests;

/// Length of the lent buffer: status 0..3, data 4..535.
pub const BUFFER: usize = STATUS + SECTOR_BYTES;

/// Length of its status part.
pub const STATUS: usize = 4;

/// Length of a sector, of the data part and of a table image.
pub const SECTOR_BYTES: usize = 532;

/// The sector of the table, to which a store goes.
pub const TABLE: Sector = Sector(4960);

/// The byte with which a lower goes on.
pub const GO_ON: u8 = 0x55;

/// A sector number. The library gives 0..9791 alone.
#[derive(Clone, Copy, Debug, PartialEq, Eq, Hash, PartialOrd, Ord)]
pub struct Sector(u32);

impl Sector {
    /// Its number.
    pub fn number(self) -> u32 {
        self.0
    }

    /// Where it is: cylinder, head, place on the track.
    pub fn place(self) -> (u32, u32, u32) {
        (self.0 / 64, self.0 / 16 % 4, self.0 % 16)
    }
}

/// What the controller offers to do next.
#[derive(Clone, Copy, Debug, PartialEq, Eq)]
pub enum Offer {
    /// Take a command.
    Command = 0x01,
    /// Read a block.
    Read = 0x02,
    /// Take the data of a write.
    Write = 0x03,
    /// Take the data of a write/verify.
    Verify = 0x04,
    /// Do the write or the write/verify.
    Act = 0x06,
}

impl Offer {
    /// The response byte.
    pub fn byte(self) -> u8 {
        self as u8
    }
}

/// Why a call is refused.
#[derive(Clone, Copy, Debug, PartialEq, Eq, PartialOrd, Ord)]
pub enum Code {
    /// No call returned this record.
    Record = 1,
    /// The lent buffer has another length.
    Buffer = 2,
    /// The call is out of place.
    Place = 3,
    /// There is no such surface answer, or not to a write.
    Answer = 4,
    /// The bytes do not go with the surface answer.
    Bytes = 5,
    /// The image is neither a well-formed one of form A, nor does it begin as form B.
    Form = 6,
    /// The sum of an image of form B is wrong.
    Sum = 7,
    /// An offset, count, entry, cause or zero of an image of form B is wrong.
    Field = 8,
}

impl Code {
    /// Its number.
    pub fn number(self) -> u8 {
        self as u8
    }
}

/// What a call answers.
#[derive(Clone, Copy, Debug, PartialEq, Eq)]
pub enum Answer {
    /// Nothing is to be done until the next event.
    Wait,
    /// Put the response byte on the bus.
    Offer(Offer),
    /// Read this sector, then call `surface`.
    Read(Sector),
    /// Write the data part to this sector, then call `surface`.
    Write(Sector),
    /// Write the bytes of `image` to `TABLE`, then call `surface`: a command has
    /// ended, and finishes with that call.
    Store,
    /// A command is over: the status bytes stand in the buffer.
    Finished,
    /// Nothing was done, and nothing changed.
    Refused(Code),
}

impl Answer {
    /// That of a reply. The library's contracts name no other replies than these.
    fn new(reply: raw::Reply) -> Answer {
        match (reply.kind, reply.value) {
            (0, _) => Answer::Wait,
            (1, 0x01) => Answer::Offer(Offer::Command),
            (1, 0x02) => Answer::Offer(Offer::Read),
            (1, 0x03) => Answer::Offer(Offer::Write),
            (1, 0x04) => Answer::Offer(Offer::Verify),
            (1, 0x06) => Answer::Offer(Offer::Act),
            (2, sector) => Answer::Read(Sector(sector)),
            (3, sector) => Answer::Write(Sector(sector)),
            (4, _) => Answer::Store,
            (5, _) => Answer::Finished,
            (6, 1) => Answer::Refused(Code::Record),
            (6, 2) => Answer::Refused(Code::Buffer),
            (6, 3) => Answer::Refused(Code::Place),
            (6, 4) => Answer::Refused(Code::Answer),
            (6, 5) => Answer::Refused(Code::Bytes),
            (6, 6) => Answer::Refused(Code::Form),
            (6, 7) => Answer::Refused(Code::Sum),
            (6, 8) => Answer::Refused(Code::Field),
            (kind, value) => unreachable!("the library answered {kind} {value}"),
        }
    }
}

/// Returns the bit of odd parity of a byte: 1 if the byte has an even number of ones,
/// else 0. A byte is sent with it. If one comes with another bit, at least one of the
/// nine lines came wrong. `parity::TABLE` has the same bits, for a board that wants no
/// call.
pub fn parity(byte: u8) -> u8 {
    // Any byte may be given, and nothing else is touched.
    unsafe { raw::bv_parity(byte) }
}

/// Turns the image of a table in `from` into the other form in `to`, and leaves `from`.
/// Both have 532 bytes. Form B made of form A has run number 0 and causes 0; form A
/// has neither. It answers wait, or refuses with `Buffer`, `Form`, `Sum` or `Field` and
/// leaves `to`.
pub fn convert(from: &[u8], to: &mut [u8]) -> Answer {
    let (buf, len) = (to.as_mut_ptr(), to.len());
    // Slices are never null, and a `&mut` one does not overlap the other.
    Answer::new(unsafe { raw::bv_convert(from.as_ptr(), from.len(), buf, len) })
}

/// Where an image of form B has its numbers, each with its high byte first.
pub mod form_b {
    /// The first bytes.
    pub const MAGIC: [u8; 4] = [0xF0, 0x78, 0x3C, 0x1E];
    /// The run number, of 4 bytes.
    pub const RUN: usize = 4;
    /// Counts and offsets of the lists, of 2 bytes.
    pub const SPARE_COUNT: usize = 8;
    pub const SPARE_OFFSET: usize = 10;
    pub const BAD_COUNT: usize = 12;
    pub const BAD_OFFSET: usize = 14;
    /// The spare list, with 4 bytes an entry: block and cause. The bad list follows,
    /// with 3.
    pub const SPARES: usize = 16;
    pub const SPARE_BYTES: usize = 4;
    pub const BAD_BYTES: usize = 3;
    /// The sum of all bytes before it, of 2 bytes.
    pub const SUM: usize = 530;
}

/// The cause of a spare entry.
pub mod cause {
    pub const UNKNOWN: u8 = 0;
    pub const CRC: u8 = 1;
    pub const TIMEOUT: u8 = 2;
    pub const NO_SETTLE: u8 = 3;
}

/// How an access went, as `surface` is told.
pub mod surface {
    /// A read brings 532 bytes; a write, or the store, is done.
    pub const GOOD: u8 = 0;
    /// Reads only: 532 bytes came, with a CRC error.
    pub const CRC: u8 = 1;
    /// The sector was not found; brings no bytes.
    pub const TIMEOUT: u8 = 2;
    /// The heads did not settle; brings no bytes.
    pub const NO_SETTLE: u8 = 3;
}

/// A drive's record. It begins as one that was never started.
#[derive(Clone, Debug, PartialEq, Eq)]
pub struct Drive {
    record: raw::Drive,
}

impl Default for Drive {
    fn default() -> Drive {
        Drive::new()
    }
}

impl From<raw::Drive> for Drive {
    /// Any words may stand in the record: the calls refuse what is none.
    fn from(record: raw::Drive) -> Drive {
        Drive { record }
    }
}

// A slice is never null, and a `&mut` slice overlaps neither the record nor the
// bytes, so that the calls get all that the header asks for.
impl Drive {
    /// A drive that was never started.
    pub const fn new() -> Drive {
        Drive {
            record: raw::Drive::NEW,
        }
    }

    /// The record as C has it.
    pub fn record(&self) -> &raw::Drive {
        &self.record
    }

    /// Where the drive is: one of `raw::kind`.
    pub fn phase(&self) -> u8 {
        self.record.words[raw::word::PHASE].to_le_bytes()[0]
    }

    /// Says whether there is a table.
    pub fn has_table(&self) -> bool {
        self.record.words[raw::word::KNOWN] != 0
    }

    /// Says whether the table has changes that are not stored.
    pub fn has_unstored(&self) -> bool {
        self.record.words[raw::word::UNSTORED] != 0
    }

    /// Says whether the place of some block that was moved is not stored. Under the
    /// latch every command for a block then fails.
    pub fn has_unstored_place(&self) -> bool {
        self.record.words[raw::word::UNSTORED_PLACE] != 0
    }

    /// Says whether an answer 3 has ended a command since the last start.
    pub fn is_latched(&self) -> bool {
        self.record.words[raw::word::LATCH] != 0
    }

    /// Returns the table's run number, which goes up with each store that is asked for.
    pub fn run_number(&self) -> u32 {
        let [low, high] = [raw::word::RUN, raw::word::RUN + 1].map(|k| self.record.words[k]);
        u32::from(high) << 16 | u32::from(low)
    }

    /// Makes the record anew, whatever it was and whatever is under way, zeroes the
    /// buffer and asks for the table.
    pub fn start(&mut self, buffer: &mut [u8]) -> Answer {
        let (buf, len) = (buffer.as_mut_ptr(), buffer.len());
        Answer::new(unsafe { raw::bv_start(&mut self.record, buf, len) })
    }

    /// CMD goes high.
    pub fn raise(&mut self, buffer: &mut [u8]) -> Answer {
        let (buf, len) = (buffer.as_mut_ptr(), buffer.len());
        Answer::new(unsafe { raw::bv_raise(&mut self.record, buf, len) })
    }

    /// CMD goes low with this byte on the bus.
    pub fn lower(&mut self, buffer: &mut [u8], byte: u8) -> Answer {
        let (buf, len) = (buffer.as_mut_ptr(), buffer.len());
        Answer::new(unsafe { raw::bv_lower(&mut self.record, buf, len, byte) })
    }

    /// The host sends bytes.
    pub fn feed(&mut self, buffer: &mut [u8], bytes: &[u8]) -> Answer {
        let (buf, len) = (buffer.as_mut_ptr(), buffer.len());
        let (from, n) = (bytes.as_ptr(), bytes.len());
        Answer::new(unsafe { raw::bv_feed(&mut self.record, buf, len, from, n) })
    }

    /// The access that was asked for is over.
    pub fn surface(&mut self, buffer: &mut [u8], answer: u8, bytes: &[u8]) -> Answer {
        let (buf, len) = (buffer.as_mut_ptr(), buffer.len());
        let (from, n) = (bytes.as_ptr(), bytes.len());
        Answer::new(unsafe { raw::bv_surface(&mut self.record, buf, len, answer, from, n) })
    }

    /// The host resets the controller.
    pub fn reset(&mut self, buffer: &mut [u8]) -> Answer {
        let (buf, len) = (buffer.as_mut_ptr(), buffer.len());
        Answer::new(unsafe { raw::bv_reset(&mut self.record, buf, len) })
    }

    /// Writes the table's image of form B into 532 lent bytes, and leaves the record.
    pub fn image(&self, lent: &mut [u8]) -> Answer {
        let (buf, len) = (lent.as_mut_ptr(), lent.len());
        Answer::new(unsafe { raw::bv_image(&self.record, buf, len) })
    }
}
