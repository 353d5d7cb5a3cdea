//! The same call on the library, on the reference and on the baseline.

use std::format;
use std::string::String;
use std::vec;
use std::vec::Vec;

use reference::controller as other;
use reference::drive::{Call, Drive as Other};
use reference::image;

use super::mapping::{alike, record_of, settled};
use crate::baseline;
use crate::fields::Fields;
use crate::{convert, Answer, Code, Drive, BUFFER, SECTOR_BYTES};

/// The longest buffer that is lent.
pub const MOST_LENT: usize = 600;

/// Bytes in front of lent ones and behind them, which no call may touch.
const MARGIN: usize = 16;
const MARK: u8 = 0xA5;

/// What an image call is lent, and what the second buffer of a convert holds.
const LENT: u8 = 0xEE;

/// Lent bytes between two margins.
#[derive(Clone, Debug)]
struct Lent {
    arena: [u8; MARGIN + MOST_LENT + MARGIN],
    length: usize,
}

impl Lent {
    /// Lends these bytes, cut or filled up with zeros.
    fn new(bytes: &[u8], length: usize) -> Lent {
        let mut arena = [MARK; MARGIN + MOST_LENT + MARGIN];
        let lent = &mut arena[MARGIN..MARGIN + length];
        let same = length.min(bytes.len());
        lent[..same].copy_from_slice(&bytes[..same]);
        lent[same..].fill(0);
        Lent { arena, length }
    }

    fn bytes(&self) -> &[u8] {
        &self.arena[MARGIN..MARGIN + self.length]
    }

    fn bytes_mut(&mut self) -> &mut [u8] {
        &mut self.arena[MARGIN..MARGIN + self.length]
    }

    fn margins_stay(&self) -> bool {
        let (front, rest) = self.arena.split_at(MARGIN);
        let all = |bytes: &[u8]| bytes.iter().all(|&byte| byte == MARK);
        all(front) && all(&rest[self.length..])
    }
}

/// The three implementations with the same history.
#[derive(Clone, Debug)]
pub struct Beside {
    library: Drive,
    buffer: Lent,
    reference: Other,
    baseline: baseline::Drive,
    baseline_buffer: [u8; BUFFER],
}

impl Default for Beside {
    fn default() -> Beside {
        Beside::new()
    }
}

impl Beside {
    /// Drives that were never started.
    pub fn new() -> Beside {
        Beside {
            library: Drive::new(),
            buffer: Lent::new(&[0; BUFFER], BUFFER),
            reference: Other::new(),
            baseline: baseline::Drive::new(),
            baseline_buffer: [0; BUFFER],
        }
    }

    /// The numbers in the library's record.
    pub fn record(&self) -> Fields {
        Fields::of(self.library.record())
    }

    /// The buffer as the last call left it.
    pub fn buffer(&self) -> &[u8] {
        self.buffer.bytes()
    }

    /// Whether the phase awaits an access, and the reference's phase.
    pub fn phase(&self) -> other::Phase {
        self.reference.record.phase
    }

    /// Makes a call on all of them and says what is not the same.
    pub fn call(&mut self, lend: Option<usize>, call: &Call) -> Result<Answer, String> {
        let before = self.library.clone();
        let returned = self.reference.lend(lend, call);
        let wanted = told(returned.answer);

        let image = returned.image.unwrap_or_default();
        let answer = match call {
            Call::Image => self.image_call(lend.unwrap_or(SECTOR_BYTES), &image, wanted)?,
            Call::Convert(from) => {
                convert_call(lend.unwrap_or(SECTOR_BYTES), from, &image, wanted)?
            }
            _ => self.lent_call(lend.unwrap_or(BUFFER), call, wanted)?,
        };

        if answer != wanted {
            return Err(format!(
                "the library answers {answer:?}, the reference {wanted:?}"
            ));
        }
        if matches!(answer, Answer::Refused(_)) && self.library != before {
            return Err(String::from("a refused call changed the record"));
        }
        match packing_of(self.record()) {
            None => Err(String::from("the record left is no packing")),
            Some(record) if !alike(&record, &self.reference.record) => Err(format!(
                "the records differ: {record:?}\nand {:?}",
                self.reference.record
            )),
            Some(_) => Ok(answer),
        }
    }

    /// An image call with a buffer of this length, in which the reference left this.
    fn image_call(&self, length: usize, image: &[u8], wanted: Answer) -> Result<Answer, String> {
        let before = self.library.clone();
        let full = [LENT; SECTOR_BYTES];
        let mut lent = Lent::new(&full, length);
        let answer = self.library.image(lent.bytes_mut());
        if !lent.margins_stay() {
            return Err(String::from("bytes around the lent ones were changed"));
        }
        // Of another length than 532 they must be as they were.
        let left = match length {
            SECTOR_BYTES => Lent::new(image, length),
            _ => Lent::new(&full, length),
        };
        if lent.bytes() != left.bytes() {
            return Err(String::from("the image is another"));
        }
        let mut second = Lent::new(&full, length);
        let base = self.baseline.image(second.bytes_mut());
        if base != wanted || second.bytes() != left.bytes() {
            return Err(format!("the baseline answers {base:?}, not {wanted:?}"));
        }
        if self.library != before {
            return Err(String::from("an image call changed the record"));
        }
        Ok(answer)
    }

    /// A call with a buffer of this length.
    fn lent_call(&mut self, length: usize, call: &Call, wanted: Answer) -> Result<Answer, String> {
        let mut lent = match length {
            BUFFER => self.buffer.clone(),
            _ => Lent::new(self.buffer.bytes(), length),
        };
        let before = match length {
            BUFFER => None,
            _ => Some(lent.bytes().to_vec()),
        };
        let mut second = Lent::new(&self.baseline_buffer, length);
        let base = on_baseline(&mut self.baseline, second.bytes_mut(), call);
        let answer = on_library(&mut self.library, lent.bytes_mut(), call);
        if !lent.margins_stay() {
            return Err(String::from("bytes around the buffer were changed"));
        }
        match before {
            Some(before) => {
                if lent.bytes() != before {
                    return Err(String::from("a buffer of another length was changed"));
                }
            }
            None => {
                self.buffer = lent;
                self.baseline_buffer.copy_from_slice(second.bytes());
            }
        }
        if self.buffer.bytes() != self.reference.buffer {
            return Err(String::from("the buffers differ"));
        }
        if base != wanted || self.baseline_buffer[..] != self.reference.buffer[..] {
            return Err(format!("the baseline answers {base:?}, not {wanted:?}"));
        }
        Ok(answer)
    }
}

/// A convert whose second buffer has this length, in which the reference left this.
fn convert_call(length: usize, from: &[u8], left: &[u8], wanted: Answer) -> Result<Answer, String> {
    let full = vec![LENT; length];
    let given = from.to_vec();
    let mut lent = Lent::new(&full, length);
    let answer = convert(&given, lent.bytes_mut());
    if !lent.margins_stay() || given != from {
        return Err(String::from("bytes beside the second buffer were changed"));
    }
    if lent.bytes() != left {
        return Err(String::from("the converted image is another"));
    }
    let mut second = Lent::new(&full, length);
    let base = baseline::convert(from, second.bytes_mut());
    if base != wanted || second.bytes() != left {
        return Err(format!("the baseline answers {base:?}, not {wanted:?}"));
    }
    Ok(answer)
}

/// Converts these bytes into a second buffer of this length on all implementations,
/// and says what is not the same. Gives that buffer too.
pub fn converted(from: &[u8], length: usize) -> Result<(Answer, Vec<u8>), String> {
    let mut left = vec![LENT; length];
    let wanted = told(other::convert(from, &mut left));
    let answer = convert_call(length, from, &left, wanted)?;
    if answer != wanted {
        return Err(format!(
            "the library answers {answer:?}, the reference {wanted:?}"
        ));
    }
    Ok((answer, left))
}

fn on_library(drive: &mut Drive, buffer: &mut [u8], call: &Call) -> Answer {
    match call {
        Call::Start => drive.start(buffer),
        Call::Raise => drive.raise(buffer),
        Call::Lower(byte) => drive.lower(buffer, *byte),
        Call::Feed(bytes) => drive.feed(buffer, bytes),
        Call::Surface(answer, bytes) => drive.surface(buffer, *answer, bytes),
        Call::Reset => drive.reset(buffer),
        Call::Image => drive.image(buffer),
        Call::Convert(from) => convert(from, buffer),
    }
}

fn on_baseline(drive: &mut baseline::Drive, buffer: &mut [u8], call: &Call) -> Answer {
    match call {
        Call::Start => drive.start(buffer),
        Call::Raise => drive.raise(buffer),
        Call::Lower(byte) => drive.lower(buffer, *byte),
        Call::Feed(bytes) => drive.feed(buffer, bytes),
        Call::Surface(answer, bytes) => drive.surface(buffer, *answer, bytes),
        Call::Reset => drive.reset(buffer),
        Call::Image => drive.image(buffer),
        Call::Convert(from) => baseline::convert(from, buffer),
    }
}

fn on_reference(record: &mut other::Record, buffer: &mut [u8], call: &Call) -> other::Answer {
    match call {
        Call::Start => record.start(buffer),
        Call::Raise => record.raise(buffer),
        Call::Lower(byte) => record.lower(buffer, *byte),
        Call::Feed(bytes) => record.feed(buffer, bytes),
        Call::Surface(answer, bytes) => record.surface(buffer, *answer, bytes),
        Call::Reset => record.reset(buffer),
        Call::Image => record.image(buffer),
        Call::Convert(from) => other::convert(from, buffer),
    }
}

/// The reference's answer in this crate's words.
fn told(answer: other::Answer) -> Answer {
    let sector = |sector: reference::geometry::Sector| crate::Sector(sector.number());
    match answer {
        other::Answer::Wait => Answer::Wait,
        other::Answer::Offer(offer) => Answer::Offer(match offer {
            other::Offer::Command => crate::Offer::Command,
            other::Offer::Read => crate::Offer::Read,
            other::Offer::Write => crate::Offer::Write,
            other::Offer::Verify => crate::Offer::Verify,
            other::Offer::Act => crate::Offer::Act,
        }),
        other::Answer::Read(at) => Answer::Read(sector(at)),
        other::Answer::Write(at) => Answer::Write(sector(at)),
        other::Answer::Store => Answer::Store,
        other::Answer::Finished => Answer::Finished,
        other::Answer::Refused(code) => Answer::Refused(match code {
            other::Code::Record => Code::Record,
            other::Code::Buffer => Code::Buffer,
            other::Code::Place => Code::Place,
            other::Code::Answer => Code::Answer,
            other::Code::Bytes => Code::Bytes,
            other::Code::Form => Code::Form,
            other::Code::Sum => Code::Sum,
            other::Code::Field => Code::Field,
        }),
    }
}

/// How a call on a damaged record went.
#[derive(Clone, Copy, Debug, PartialEq, Eq)]
pub enum Fate {
    /// Refused with 1: the phase, the offer or the ending is none.
    NoPhase,
    /// Refused with 1.
    Refused,
    /// Refused with another code.
    OtherCode,
    /// Taken, and what came of it is the same on all.
    Taken,
    /// Taken where document 01 does not say what comes of it.
    Unsettled,
}

impl Fate {
    /// True if code 1 was answered.
    pub fn is_code_1(self) -> bool {
        matches!(self, Fate::NoPhase | Fate::Refused)
    }
}

/// Makes one call on a record that no call returned, and says what is not as it
/// must be.
pub fn damaged(record: &Fields, lent: &[u8], call: &Call) -> Result<Fate, String> {
    let left = Left::by_library(record, lent, call)?;
    let packed = record_of(record);
    if packed.is_none() && *call != Call::Start {
        return match left.answer {
            Answer::Refused(Code::Record) => Ok(Fate::NoPhase),
            answer => Err(format!("no phase, and answered {answer:?}")),
        };
    }
    // Start takes any numbers; the others begin there with a new record.
    let numbers = match packed {
        Some(_) => record,
        None => &Fields::NEW,
    };
    let sure = settled(record, call);
    let reference = Left::by_reference(packed.unwrap_or_default(), lent, call);
    left.agrees(&reference, "reference", sure)?;
    let baseline = Left::by_baseline(numbers, lent, call);
    left.agrees(&baseline, "baseline", sure)?;
    left.fate(sure)
}

/// The record that these numbers are the packing of, if of any: a call that is taken
/// leaves no flag but 0 and 1, and 0 where its phase has nothing.
fn packing_of(numbers: Fields) -> Option<other::Record> {
    let record = record_of(&numbers)?;
    let again = baseline::Drive::unpacked(&numbers).packed();
    (again == numbers).then_some(record)
}

/// What a call left behind.
struct Left {
    answer: Answer,
    /// The record, if the numbers are its packing.
    record: Option<other::Record>,
    lent: Vec<u8>,
}

impl Left {
    /// Calls the library. A refusal must leave everything.
    fn by_library(record: &Fields, lent: &[u8], call: &Call) -> Result<Left, String> {
        let before = Drive::from(record.record());
        let mut drive = before.clone();
        let mut buffer = Lent::new(lent, lent.len());
        let answer = on_library(&mut drive, buffer.bytes_mut(), call);
        if !buffer.margins_stay() {
            return Err(String::from("bytes around the buffer were changed"));
        }
        let unchanged = drive == before && buffer.bytes() == lent;
        if matches!(answer, Answer::Refused(_)) && !unchanged {
            return Err(format!("refused with {answer:?}, and changed"));
        }
        if *call == Call::Image && drive != before {
            return Err(String::from("an image call changed the record"));
        }
        let numbers = Fields::of(drive.record());
        Ok(Left {
            answer,
            // Image leaves what need be no packing.
            record: match call {
                Call::Image => record_of(&numbers),
                _ => packing_of(numbers),
            },
            lent: buffer.bytes().to_vec(),
        })
    }

    fn by_reference(mut record: other::Record, lent: &[u8], call: &Call) -> Left {
        let mut lent = lent.to_vec();
        let answer = told(on_reference(&mut record, &mut lent, call));
        let record = Some(record);
        Left {
            answer,
            record,
            lent,
        }
    }

    fn by_baseline(numbers: &Fields, lent: &[u8], call: &Call) -> Left {
        let mut lent = lent.to_vec();
        let mut drive = baseline::Drive::unpacked(numbers);
        let answer = on_baseline(&mut drive, &mut lent, call);
        let record = record_of(&drive.packed());
        Left {
            answer,
            record,
            lent,
        }
    }

    fn refused(&self) -> bool {
        matches!(self.answer, Answer::Refused(_))
    }

    /// Says in what another implementation differs. Where document 01 is silent
    /// they agree if both take the call.
    fn agrees(&self, other: &Left, name: &str, sure: bool) -> Result<(), String> {
        if !sure && !self.refused() && !other.refused() {
            return Ok(());
        }
        let (answer, wanted) = (self.answer, other.answer);
        if answer != wanted {
            return Err(format!(
                "the library answers {answer:?}, the {name} {wanted:?}"
            ));
        }
        if self.lent != other.lent {
            return Err(format!("the buffer is not that of the {name}"));
        }
        match (&self.record, &other.record) {
            (Some(left), Some(wanted)) if alike(left, wanted) => Ok(()),
            // What is refused is left, and need be no packing.
            (None, _) if self.refused() => Ok(()),
            (left, wanted) => Err(format!(
                "the record is {left:?}\nand that of the {name} {wanted:?}"
            )),
        }
    }

    /// Says how the call went. One that is taken leaves a record that code 1 lets
    /// pass.
    fn fate(&self, sure: bool) -> Result<Fate, String> {
        match (self.answer, &self.record) {
            (Answer::Refused(Code::Record), _) => Ok(Fate::Refused),
            (Answer::Refused(_), _) => Ok(Fate::OtherCode),
            (_, None) => Err(String::from("the record left is no packing")),
            (_, Some(left)) if !left.valid() => {
                Err(format!("a record is left that is refused: {left:?}"))
            }
            _ if sure => Ok(Fate::Taken),
            _ => Ok(Fate::Unsettled),
        }
    }
}

/// The length that a call asks for.
pub fn length_of(call: &Call) -> usize {
    match call {
        Call::Image | Call::Convert(_) => image::LENGTH,
        _ => BUFFER,
    }
}
