//! The same calls as ordinary Rust over a `&mut` record, to measure the library
//! against. It tests in each call what documents 01 and 02 ask each call to test, and
//! is run beside the library by `fuzz`.

mod ending;
mod image;
mod packing;
mod table;

pub use image::convert;

use crate::{Answer, Code, Offer, Sector, BUFFER, GO_ON, SECTOR_BYTES, STATUS, TABLE};
use ending::Ending;
use table::{Cause, Table, DEAD};

const SPARES: usize = 32;
const BADS: usize = 100;
const BLOCKS: u16 = 9728;
const SECTORS: u32 = 9792;
const FIRST_SPARE: u32 = 4928;
const RAM: u32 = 0xFF_FFFE;
const TABLE_IMAGE: u32 = 0xFF_FFFF;
const HEALTH: u32 = 0xFF_FFFD;

/// Rereads of a trial, and the failures among them with which it passes at most.
const REREADS: u8 = 100;
const MOST_FAILURES: u8 = 30;

/// What a command has met.
#[derive(Clone, Copy, Debug, Default)]
struct Seen {
    errors: u8,
    crc: bool,
    timeout: bool,
}

/// A read command before any trial.
#[derive(Clone, Copy, Debug)]
struct Read {
    block: u16,
    sector: u32,
    first: bool,
    left: u8,
    spent: u8,
    threshold: u8,
    good: bool,
    seen: Seen,
}

/// A write command or a write/verify before any trial, which has met nothing yet.
#[derive(Clone, Copy, Debug)]
struct Write {
    block: u16,
    sector: u32,
}

/// The failures that a trial remembers: its own last one, the command's last one
/// before this spare was tried, and the last one on the block's present sector.
#[derive(Clone, Copy, Debug, Default)]
struct Failures {
    last: Cause,
    before: Cause,
    present: Cause,
}

/// The trial of a sector.
#[derive(Clone, Copy, Debug)]
struct Trial {
    block: u16,
    sector: u32,
    spare: bool,
    seen: Seen,
    failures: Failures,
}

/// The rereads of a trial that were answered, and the failures among them.
#[derive(Clone, Copy, Debug, Default)]
struct Rereads {
    made: u8,
    failures: u8,
}

#[derive(Clone, Copy, Debug)]
enum Phase {
    Idle,
    Offered(Offer),
    Command,
    Data,
    Start(u8),
    /// The store before a command finishes, which has ended so and met this.
    Store(Ending, Seen),
    Read(Read),
    /// The one write of a write command.
    Write(Write),
    /// The first write of a write/verify, and its first verify.
    VerifiedWrite(Write),
    FirstVerify(Write),
    TrialWrite(Trial, Rereads),
    TrialRead(Trial, Rereads),
}

/// The record.
#[derive(Clone, Debug)]
pub struct Drive {
    table: Table,
    known: bool,
    changed: bool,
    /// Some block's place is not stored.
    moved: bool,
    latch: bool,
    fresh: bool,
    command: [u8; 6],
    count: usize,
    fed: usize,
    phase: Phase,
}

impl Seen {
    /// Says whether a verify or a reread failed, and keeps what it met. Other bytes
    /// than the data part are a CRC error.
    fn failed(&mut self, buffer: &[u8], answer: u8, bytes: &[u8]) -> bool {
        let same = answer == 0 && bytes == &buffer[STATUS..];
        self.crc |= answer != 2 && !same;
        self.timeout |= answer == 2;
        !same
    }
}

impl Trial {
    /// That of a block's present sector.
    fn present(block: u16, sector: u32, seen: Seen) -> Trial {
        Trial {
            block,
            sector,
            spare: false,
            seen,
            failures: Failures::default(),
        }
    }

    /// That of the sector of a write.
    fn of(write: Write) -> Trial {
        Trial::present(write.block, write.sector, Seen::default())
    }
}

impl Default for Drive {
    fn default() -> Drive {
        Drive::new()
    }
}

fn read_lengths(answer: u8, bytes: &[u8]) -> Result<(), Code> {
    match answer {
        0 | 1 if bytes.len() == SECTOR_BYTES => Ok(()),
        2 | 3 if bytes.is_empty() => Ok(()),
        0..=3 => Err(Code::Bytes),
        _ => Err(Code::Answer),
    }
}

fn write_lengths(answer: u8, bytes: &[u8]) -> Result<(), Code> {
    match answer {
        0 | 2 | 3 if bytes.is_empty() => Ok(()),
        0 | 2 | 3 => Err(Code::Bytes),
        _ => Err(Code::Answer),
    }
}

impl Drive {
    /// A record that was never started.
    pub fn new() -> Drive {
        Drive {
            table: Table::EMPTY,
            known: false,
            changed: false,
            moved: false,
            latch: false,
            fresh: false,
            command: [0; 6],
            count: 0,
            fed: 0,
            phase: Phase::Idle,
        }
    }

    #[inline(never)]
    pub fn start(&mut self, buffer: &mut [u8]) -> Answer {
        if buffer.len() != BUFFER {
            return Answer::Refused(Code::Buffer);
        }
        *self = Drive {
            fresh: true,
            phase: Phase::Start(1),
            ..Drive::new()
        };
        buffer.fill(0);
        Answer::Read(TABLE)
    }

    #[inline(never)]
    pub fn raise(&mut self, buffer: &mut [u8]) -> Answer {
        self.raised(buffer).unwrap_or_else(Answer::Refused)
    }

    #[inline(never)]
    pub fn lower(&mut self, buffer: &mut [u8], byte: u8) -> Answer {
        self.lowered(buffer, byte).unwrap_or_else(Answer::Refused)
    }

    #[inline(never)]
    pub fn feed(&mut self, buffer: &mut [u8], bytes: &[u8]) -> Answer {
        self.taken(buffer, bytes).unwrap_or_else(Answer::Refused)
    }

    #[inline(never)]
    pub fn surface(&mut self, buffer: &mut [u8], answer: u8, bytes: &[u8]) -> Answer {
        self.answered(buffer, answer, bytes)
            .unwrap_or_else(Answer::Refused)
    }

    #[inline(never)]
    pub fn reset(&mut self, buffer: &mut [u8]) -> Answer {
        self.was_reset(buffer).unwrap_or_else(Answer::Refused)
    }

    #[inline(never)]
    pub fn image(&self, lent: &mut [u8]) -> Answer {
        self.imaged(lent).unwrap_or_else(Answer::Refused)
    }

    fn valid(&self) -> bool {
        self.table.valid() && self.count <= 6 && self.fed <= SECTOR_BYTES + 1 && self.valid_phase()
    }

    fn valid_phase(&self) -> bool {
        match &self.phase {
            Phase::Idle | Phase::Offered(_) | Phase::Command | Phase::Data => true,
            Phase::Start(reads) => *reads <= 10,
            Phase::Store(..) => self.known,
            Phase::Read(read) => {
                self.known
                    && read.block < BLOCKS
                    && read.sector < SECTORS
                    && u16::from(read.seen.errors) + u16::from(read.left) <= 255
                    && read.spent <= 89
            }
            Phase::Write(write) | Phase::VerifiedWrite(write) | Phase::FirstVerify(write) => {
                self.known && write.block < BLOCKS && write.sector < SECTORS
            }
            Phase::TrialWrite(trial, rereads) | Phase::TrialRead(trial, rereads) => {
                self.valid_trial(trial)
                    && rereads.made <= REREADS
                    && rereads.failures <= rereads.made
            }
        }
    }

    fn valid_trial(&self, trial: &Trial) -> bool {
        self.known
            && trial.block < BLOCKS
            && trial.sector < SECTORS
            && (!trial.spare || self.table.next_spare() == Some(trial.sector))
    }

    fn accept(&self, lent: &[u8], length: usize) -> Result<(), Code> {
        if !self.valid() {
            return Err(Code::Record);
        }
        if lent.len() != length {
            return Err(Code::Buffer);
        }
        Ok(())
    }

    fn offer(&mut self, offer: Offer) -> Answer {
        self.phase = Phase::Offered(offer);
        Answer::Offer(offer)
    }

    fn raised(&mut self, buffer: &mut [u8]) -> Result<Answer, Code> {
        self.accept(buffer, BUFFER)?;
        match self.phase {
            Phase::Idle => Ok(self.offer(Offer::Command)),
            Phase::Command => {
                let offer = match (self.command[0], self.count) {
                    (0, 6) => Offer::Read,
                    (1, 4..) => Offer::Write,
                    (2, 4..) => Offer::Verify,
                    _ => Offer::Command,
                };
                self.fed = 0;
                Ok(self.offer(offer))
            }
            Phase::Data => {
                buffer[STATUS + self.fed.min(SECTOR_BYTES)..].fill(0);
                Ok(self.offer(Offer::Act))
            }
            _ => Err(Code::Place),
        }
    }

    fn lowered(&mut self, buffer: &mut [u8], byte: u8) -> Result<Answer, Code> {
        self.accept(buffer, BUFFER)?;
        let Phase::Offered(offer) = self.phase else {
            return Err(Code::Place);
        };
        if byte != GO_ON {
            buffer[..STATUS].copy_from_slice(&[0x80, 0, 0, 0]);
            self.phase = Phase::Idle;
            return Ok(Answer::Finished);
        }
        Ok(match offer {
            Offer::Command => {
                self.count = 0;
                self.phase = Phase::Command;
                Answer::Wait
            }
            Offer::Write | Offer::Verify => {
                self.fed = 0;
                self.phase = Phase::Data;
                Answer::Wait
            }
            Offer::Read | Offer::Act => self.act(buffer, offer),
        })
    }

    fn act(&mut self, buffer: &mut [u8], offer: Offer) -> Answer {
        let reads = offer == Offer::Read;
        let [_, high, middle, low, ..] = self.command;
        let number = u32::from_be_bytes([0, high, middle, low]);
        let is_block = number < u32::from(BLOCKS);
        if !reads && self.fed > SECTOR_BYTES {
            return match is_block {
                true => self.end(buffer, Seen::default(), Ending::Overrun),
                false => self.over(buffer, Ending::Overrun),
            };
        }
        match number {
            RAM => return self.over(buffer, Ending::Good),
            _ if is_block => {}
            TABLE_IMAGE | HEALTH if reads => {}
            _ => return self.over(buffer, Ending::NoNumber),
        }
        match reads {
            _ if self.known => {}
            true => return self.over(buffer, Ending::NoTableOnRead),
            false => return self.over(buffer, Ending::NoTableOnWrite),
        }
        // The others are blocks, whose numbers fit.
        match number {
            TABLE_IMAGE => image::write_form_a(&self.table, &mut buffer[STATUS..]),
            HEALTH => self.write_health(&mut buffer[STATUS..]),
            _ if reads => return self.begin_read(number as u16),
            _ if self.latch => return self.end(buffer, Seen::default(), Ending::Latched),
            _ => return self.begin_write(number as u16),
        }
        self.over(buffer, Ending::Good)
    }

    fn begin_read(&mut self, block: u16) -> Answer {
        let [.., rereads, threshold] = self.command;
        let sector = self.table.sector(block);
        self.phase = Phase::Read(Read {
            block,
            sector,
            first: true,
            left: rereads,
            spent: 0,
            threshold,
            good: false,
            seen: Seen::default(),
        });
        Answer::Read(Sector(sector))
    }

    fn begin_write(&mut self, block: u16) -> Answer {
        let sector = self.table.sector(block);
        if self.table.bad_at(block).is_some() {
            return self.try_sector(Trial::present(block, sector, Seen::default()));
        }
        let write = Write { block, sector };
        self.phase = match self.command[0] {
            2 => Phase::VerifiedWrite(write),
            _ => Phase::Write(write),
        };
        Answer::Write(Sector(sector))
    }

    fn taken(&mut self, buffer: &mut [u8], bytes: &[u8]) -> Result<Answer, Code> {
        self.accept(buffer, BUFFER)?;
        match self.phase {
            Phase::Command => {
                let kept = bytes.len().min(6 - self.count);
                self.command[self.count..self.count + kept].copy_from_slice(&bytes[..kept]);
                self.count += kept;
            }
            Phase::Data => {
                let from = self.fed.min(SECTOR_BYTES);
                let kept = bytes.len().min(SECTOR_BYTES - from);
                buffer[STATUS + from..STATUS + from + kept].copy_from_slice(&bytes[..kept]);
                self.fed = self.fed.saturating_add(bytes.len()).min(SECTOR_BYTES + 1);
            }
            _ => return Err(Code::Place),
        }
        Ok(Answer::Wait)
    }

    fn was_reset(&mut self, buffer: &[u8]) -> Result<Answer, Code> {
        self.accept(buffer, BUFFER)?;
        match self.phase {
            Phase::Idle | Phase::Offered(_) | Phase::Command | Phase::Data => {
                self.fresh = true;
                self.phase = Phase::Idle;
                Ok(Answer::Wait)
            }
            _ => Err(Code::Place),
        }
    }

    fn imaged(&self, lent: &mut [u8]) -> Result<Answer, Code> {
        self.accept(lent, SECTOR_BYTES)?;
        if !self.known {
            return Err(Code::Place);
        }
        image::write_form_b(&self.table, lent);
        Ok(Answer::Wait)
    }

    fn answered(&mut self, buffer: &mut [u8], answer: u8, bytes: &[u8]) -> Result<Answer, Code> {
        self.accept(buffer, BUFFER)?;
        Ok(match self.phase {
            Phase::Start(reads) => {
                read_lengths(answer, bytes)?;
                self.start_read(reads, answer, bytes)
            }
            Phase::Store(ending, seen) => {
                write_lengths(answer, bytes)?;
                self.stored(buffer, ending, seen, answer)
            }
            Phase::Read(read) => {
                read_lengths(answer, bytes)?;
                self.command_read(buffer, read, answer, bytes)
            }
            Phase::Write(write) | Phase::VerifiedWrite(write) => {
                write_lengths(answer, bytes)?;
                self.written(buffer, Trial::of(write), answer)
            }
            Phase::TrialWrite(trial, _) => {
                write_lengths(answer, bytes)?;
                self.written(buffer, trial, answer)
            }
            Phase::FirstVerify(write) => {
                read_lengths(answer, bytes)?;
                self.first_verify(buffer, write, answer, bytes)
            }
            Phase::TrialRead(trial, before) => {
                read_lengths(answer, bytes)?;
                self.reread(buffer, trial, before, answer, bytes)
            }
            _ => return Err(Code::Place),
        })
    }

    /// Asks for a read of a sector in this phase.
    fn ask(&mut self, sector: u32, phase: Phase) -> Answer {
        self.phase = phase;
        Answer::Read(Sector(sector))
    }

    fn start_read(&mut self, reads: u8, answer: u8, bytes: &[u8]) -> Answer {
        if answer == 3 || answer == 0 && self.load(bytes) || reads >= 10 {
            self.phase = Phase::Idle;
            return Answer::Wait;
        }
        self.phase = Phase::Start(reads + 1);
        Answer::Read(TABLE)
    }

    /// Takes the table of an image if it is well formed.
    fn load(&mut self, bytes: &[u8]) -> bool {
        let read = image::read(bytes);
        let formed = read.is_ok();
        if let Ok(table) = read {
            self.table = table;
            self.known = true;
        }
        formed
    }

    fn command_read(
        &mut self,
        buffer: &mut [u8],
        mut read: Read,
        answer: u8,
        bytes: &[u8],
    ) -> Answer {
        match answer {
            3 => return self.no_settle(buffer, read.seen),
            2 => read.seen.timeout = true,
            _ => {
                if !read.good {
                    buffer[STATUS..].copy_from_slice(bytes);
                }
                read.seen.crc |= answer == 1;
            }
        }
        let good = answer == 0;
        if read.first {
            if good {
                return self.end(buffer, read.seen, Ending::Good);
            }
            read.first = false;
        } else if read.left > 0 {
            read.left -= 1;
            read.seen.errors += u8::from(!good);
            read.good |= good;
            if read.left == 0 && read.good {
                return self.was_read(buffer, read);
            }
        } else if good {
            return self.was_read(buffer, read);
        } else {
            read.spent += if answer == 2 { 9 } else { 1 };
            if read.spent >= 90 {
                return self.never_read(buffer, read);
            }
        }
        self.phase = Phase::Read(read);
        Answer::Read(Sector(read.sector))
    }

    fn never_read(&mut self, buffer: &mut [u8], read: Read) -> Answer {
        let mut ending = Ending::Failed;
        if self.table.bad_at(read.block).is_none() {
            if self.table.nbads < BADS {
                self.table.push_bad(read.block);
                self.changed = true;
            } else {
                ending = Ending::BadFull;
            }
        }
        self.end(buffer, read.seen, ending)
    }

    fn was_read(&mut self, buffer: &mut [u8], read: Read) -> Answer {
        if read.seen.errors < read.threshold {
            return self.end(buffer, read.seen, Ending::Good);
        }
        if self.latch {
            return self.end(buffer, read.seen, Ending::Latched);
        }
        self.try_sector(Trial::present(read.block, read.sector, read.seen))
    }

    fn try_sector(&mut self, trial: Trial) -> Answer {
        self.phase = Phase::TrialWrite(trial, Rereads::default());
        Answer::Write(Sector(trial.sector))
    }

    /// A write was answered: a timeout goes straight to the next unused spare.
    fn written(&mut self, buffer: &mut [u8], mut trial: Trial, answer: u8) -> Answer {
        match answer {
            0 => self.write_done(buffer, trial),
            2 => {
                trial.seen.timeout = true;
                self.next_trial(buffer, trial, Cause::Timeout)
            }
            _ => self.no_settle(buffer, trial.seen),
        }
    }

    fn write_done(&mut self, buffer: &mut [u8], trial: Trial) -> Answer {
        match self.phase {
            Phase::VerifiedWrite(write) => self.ask(write.sector, Phase::FirstVerify(write)),
            Phase::TrialWrite(trial, rereads) => {
                self.ask(trial.sector, Phase::TrialRead(trial, rereads))
            }
            _ => self.end(buffer, trial.seen, Ending::Good),
        }
    }

    fn first_verify(
        &mut self,
        buffer: &mut [u8],
        write: Write,
        answer: u8,
        bytes: &[u8],
    ) -> Answer {
        let mut trial = Trial::of(write);
        match answer {
            3 => self.no_settle(buffer, trial.seen),
            _ if trial.seen.failed(buffer, answer, bytes) => self.try_sector(trial),
            _ => self.end(buffer, trial.seen, Ending::Good),
        }
    }

    fn reread(
        &mut self,
        buffer: &mut [u8],
        mut trial: Trial,
        before: Rereads,
        answer: u8,
        bytes: &[u8],
    ) -> Answer {
        if answer == 3 {
            return self.no_settle(buffer, trial.seen);
        }
        let failed = trial.seen.failed(buffer, answer, bytes);
        if failed {
            trial.failures.last = match answer {
                2 => Cause::Timeout,
                _ => Cause::Crc,
            };
        }
        let rereads = Rereads {
            made: before.made + 1,
            failures: before.failures + u8::from(failed),
        };
        if rereads.made < REREADS {
            self.ask(trial.sector, Phase::TrialRead(trial, rereads))
        } else if rereads.failures <= MOST_FAILURES {
            self.passed(buffer, trial)
        } else {
            self.next_trial(buffer, trial, trial.failures.last)
        }
    }

    /// This sector is no good by this last failure: a spare dies, and the next unused
    /// one is tried.
    fn next_trial(&mut self, buffer: &mut [u8], trial: Trial, last: Cause) -> Answer {
        let mut failures = Failures {
            last: Cause::Unknown,
            before: last,
            present: last,
        };
        if trial.spare {
            self.push_spare(DEAD, last);
            failures.present = trial.failures.present;
        }
        match self.table.next_spare() {
            Some(sector) => self.try_sector(Trial {
                sector,
                spare: true,
                failures,
                ..trial
            }),
            None => self.end(buffer, trial.seen, Ending::NoSpare),
        }
    }

    fn push_spare(&mut self, entry: u16, cause: Cause) {
        self.table.push_spare(entry, cause);
        self.changed = true;
    }

    fn passed(&mut self, buffer: &mut [u8], trial: Trial) -> Answer {
        let mut ending = Ending::Good;
        if trial.spare {
            if let Some(old) = self.table.spare_of(trial.block) {
                self.table.kill(old, trial.failures.present);
            }
            self.push_spare(trial.block, trial.failures.before);
            self.moved = true;
            ending = Ending::Moved;
        }
        if let Some(at) = self.table.bad_at(trial.block) {
            self.table.remove_bad(at);
            self.changed = true;
        }
        self.end(buffer, trial.seen, ending)
    }

    fn no_settle(&mut self, buffer: &mut [u8], seen: Seen) -> Answer {
        if let Phase::TrialWrite(Trial { spare: true, .. }, _)
        | Phase::TrialRead(Trial { spare: true, .. }, _) = self.phase
        {
            self.push_spare(DEAD, Cause::NoSettle);
        }
        self.latch = true;
        self.end(buffer, seen, Ending::Latched)
    }

    /// Ends a command for a block: unstored changes are stored first. Under the latch
    /// they are not, and it fails while some block's place is unstored.
    fn end(&mut self, buffer: &mut [u8], seen: Seen, ending: Ending) -> Answer {
        if self.known && self.changed && !self.latch {
            self.table.run = self.table.run.saturating_add(1);
            self.phase = Phase::Store(ending, seen);
            return Answer::Store;
        }
        let mut status = ending.status(seen);
        status[0] |= u8::from(self.latch && self.moved);
        self.finish(buffer, status)
    }

    /// Ends a command that is for no block, or has no table: it stores nothing.
    fn over(&mut self, buffer: &mut [u8], ending: Ending) -> Answer {
        self.finish(buffer, ending.status(Seen::default()))
    }

    /// Finishes a command whose store was answered. It fails unless that is done.
    fn stored(&mut self, buffer: &mut [u8], ending: Ending, mut seen: Seen, answer: u8) -> Answer {
        let failed = match answer {
            0 => {
                (self.changed, self.moved) = (false, false);
                0
            }
            2 => {
                seen.timeout = true;
                0x01
            }
            _ => {
                self.latch = true;
                0x11
            }
        };
        let mut status = ending.status(seen);
        status[0] |= failed;
        self.finish(buffer, status)
    }

    fn finish(&mut self, buffer: &mut [u8], mut status: [u8; STATUS]) -> Answer {
        status[2] |= u8::from(self.fresh) << 7;
        self.fresh = false;
        buffer[..STATUS].copy_from_slice(&status);
        self.phase = Phase::Idle;
        Answer::Finished
    }

    /// Writes the health block into 532 bytes.
    fn write_health(&self, block: &mut [u8]) {
        block.fill(0);
        // Both counts fit in a byte: code 1 tested them.
        block[0] = (SPARES - self.table.nspares) as u8;
        block[1] = self.table.nbads as u8;
        block[2] = u8::from(self.latch);
        block[3] = u8::from(self.changed);
    }
}
