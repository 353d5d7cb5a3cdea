//! The controller: its record and the eight calls (document 01, "Calls",
//! "Acting on a command" and "Codes"; document 02, requests 6 and 7).
//!
//! `record` has the record and the test of code 1, `acting` what a command does
//! once it is acted on, `trial` its writes and the trials of sectors, `convert` the
//! call without a record, `ending` the store before a finish and the finish. Here are
//! the other calls: what each refuses, in the order of the codes, and the handshake.

mod acting;
mod convert;
mod ending;
mod near;
mod record;
#[cfg(test)]
mod tests;
mod trial;

pub use convert::convert;
pub use record::{
    Awaited, Awaits, Failures, Job, Offer, Phase, Place, Reading, Record, Rereads, Stage, Step,
    Trial,
};

use crate::coverage::met;
use crate::geometry::{Sector, SECTOR_BYTES, TABLE};
use crate::image::{self, Fault, Form, Table, TOP_RUN};

/// Length of the lent buffer: status 0..3, data 4..535.
pub const BUFFER: usize = STATUS + SECTOR_BYTES;

/// Length of its status part.
pub const STATUS: usize = 4;

/// Command bytes that are kept.
pub const MOST_COMMAND: usize = 6;

/// Where the count of data bytes stops.
pub const MOST_DATA: usize = SECTOR_BYTES + 1;

/// Reads of 4960 that a start makes at most.
pub const MOST_START_READS: u32 = 10;

/// Rereads that a trial makes.
pub const TRIAL_REREADS: u32 = 100;

/// Failures among them with which a trial passes, at most.
pub const TRIAL_FAILURES: u32 = 30;

/// The byte with which a lower goes on.
pub const GO_ON: u8 = 0x55;

/// The status that a wrong handshake byte gives.
const BROKEN_OFF: [u8; STATUS] = [0x80, 0, 0, 0];

/// What a call answers.
#[derive(Clone, Copy, Debug, PartialEq, Eq)]
pub enum Answer {
    Wait,
    Offer(Offer),
    Read(Sector),
    Write(Sector),
    Store,
    Finished,
    Refused(Code),
}

/// Why a call is refused.
#[derive(Clone, Copy, Debug, PartialEq, Eq, PartialOrd, Ord)]
pub enum Code {
    /// No call returned this record.
    Record = 1,
    /// The lent buffer has another length.
    Buffer = 2,
    /// The call is out of place.
    Place = 3,
    /// There is no such surface answer, or not to a write.
    Answer = 4,
    /// The bytes do not go with the surface answer.
    Bytes = 5,
    /// The image is neither a well-formed one of form A, nor does it begin as form B.
    Form = 6,
    /// The sum of form B is wrong.
    Sum = 7,
    /// An offset, a count, an entry, a cause or a zero of form B is wrong.
    Field = 8,
}

impl Code {
    /// Its number.
    pub fn number(self) -> u8 {
        self as u8
    }
}

impl From<Fault> for Code {
    fn from(fault: Fault) -> Code {
        match fault {
            Fault::Form => Code::Form,
            Fault::Sum => Code::Sum,
            Fault::Field(_) => Code::Field,
        }
    }
}

/// How the surface answered a read.
#[derive(Clone, Copy, Debug)]
enum ReadOutcome<'a> {
    Good(&'a [u8]),
    Crc(&'a [u8]),
    Timeout,
    NoSettle,
}

/// How the surface answered a write.
#[derive(Clone, Copy, Debug)]
enum WriteOutcome {
    Done,
    Timeout,
    NoSettle,
}

/// The data part of a buffer.
fn data(buffer: &[u8]) -> &[u8] {
    &buffer[STATUS..]
}

fn data_mut(buffer: &mut [u8]) -> &mut [u8] {
    &mut buffer[STATUS..]
}

impl Record {
    /// Makes the record anew, whatever it was, and asks for the table.
    pub fn start(&mut self, buffer: &mut [u8]) -> Answer {
        if buffer.len() != BUFFER {
            return self.refuse("start", Code::Buffer);
        }
        met(&format!("start.from.{}", self.phase.full_name()));
        self.met_dropped();
        *self = Record {
            fresh: true,
            phase: Phase::Starting { reads: 1 },
            ..Record::new()
        };
        buffer.fill(0);
        Answer::Read(TABLE)
    }

    /// CMD goes high.
    pub fn raise(&mut self, buffer: &mut [u8]) -> Answer {
        let done = self.raised(buffer);
        self.answer("raise", done)
    }

    /// CMD goes low with this byte on the bus.
    pub fn lower(&mut self, buffer: &mut [u8], byte: u8) -> Answer {
        let done = self.lowered(buffer, byte);
        self.answer("lower", done)
    }

    /// The host sends bytes.
    pub fn feed(&mut self, buffer: &mut [u8], bytes: &[u8]) -> Answer {
        let done = self.fed(buffer, bytes);
        self.answer("feed", done)
    }

    /// The surface answers the access that is awaited.
    pub fn surface(&mut self, buffer: &mut [u8], answer: u8, bytes: &[u8]) -> Answer {
        let phase = self.phase;
        let done = self.answered(buffer, answer, bytes);
        match done {
            Err(Code::Answer) => {
                let which = if answer == 1 { "one" } else { "above" };
                met(&format!("refused.4.{}.{which}", phase.name()));
            }
            Err(Code::Bytes) => {
                let which = match bytes.len() {
                    0 => "none",
                    1..=531 => "few",
                    532 => "sector",
                    _ => "many",
                };
                met(&format!("refused.5.{}.{answer}.{which}", phase.name()));
            }
            _ => {}
        }
        self.answer("surface", done)
    }

    /// The host resets the controller.
    pub fn reset(&mut self, buffer: &mut [u8]) -> Answer {
        let done = self.was_reset(buffer);
        self.answer("reset", done)
    }

    /// Writes the table into 532 lent bytes.
    pub fn image(&self, lent: &mut [u8]) -> Answer {
        let done = self.imaged(lent);
        self.answer("image", done)
    }

    fn answer(&self, call: &str, done: Result<Answer, Code>) -> Answer {
        done.unwrap_or_else(|code| self.refuse(call, code))
    }

    /// The answer to a refused call, which changed nothing.
    fn refuse(&self, call: &str, code: Code) -> Answer {
        match code {
            Code::Buffer => met(&format!("refused.2.{call}")),
            Code::Place => met(&format!("refused.3.{call}.{}", self.phase.name())),
            // Codes 4 and 5 are counted with more detail; 1 is for tests only. The
            // others are of no call with a record.
            Code::Record | Code::Answer | Code::Bytes => {}
            Code::Form | Code::Sum | Code::Field => {}
        }
        Answer::Refused(code)
    }

    /// Codes 1 and 2.
    fn accept(&self, lent: &[u8], length: usize) -> Result<(), Code> {
        if !self.valid() {
            return Err(Code::Record);
        }
        if lent.len() != length {
            return Err(Code::Buffer);
        }
        Ok(())
    }

    fn raised(&mut self, buffer: &mut [u8]) -> Result<Answer, Code> {
        self.accept(buffer, BUFFER)?;
        match self.phase {
            Phase::Idle => {
                met(match (self.known, self.changed, self.latch) {
                    (false, _, _) => "raise.idle.no-table",
                    (true, true, true) => "raise.idle.changed-under-latch",
                    (true, true, false) => "raise.idle.changed",
                    (true, false, true) => "raise.idle.latch",
                    (true, false, false) => "raise.idle.unchanged",
                });
                Ok(self.offer(Offer::Command))
            }
            Phase::Command => {
                let next = self.command_offer();
                met(&self.raise_name(next));
                if next == Offer::Command {
                    self.command.clear();
                }
                Ok(self.offer(next))
            }
            Phase::Data => {
                met(&self.data_name());
                self.zero_rest(buffer);
                Ok(self.offer(Offer::Act))
            }
            _ => Err(Code::Place),
        }
    }

    fn raise_name(&self, next: Offer) -> String {
        let count = self.command.len();
        match (next, self.command.first()) {
            (Offer::Command, None) => String::from("raise.command.none"),
            (Offer::Command, Some(opcode @ 0..=2)) => {
                format!("raise.command.{opcode:02x}.only-{count}")
            }
            (Offer::Command, Some(_)) => String::from("raise.command.unknown"),
            _ => format!("raise.command.offer-{:02x}.of-{count}", next.byte()),
        }
    }

    fn data_name(&self) -> String {
        let count = match self.data_count {
            0 => "none",
            1..SECTOR_BYTES => "some",
            SECTOR_BYTES => "532",
            _ => "533",
        };
        format!("raise.data.{}.{count}", self.number_name())
    }

    /// The part behind the bytes that were fed becomes zeros (document 02, request 1).
    fn zero_rest(&self, buffer: &mut [u8]) {
        let part = data_mut(buffer);
        // At 533 there is no rest either.
        let fed = self.data_count.min(part.len());
        part[fed..].fill(0);
    }

    /// What a raise after command bytes offers.
    fn command_offer(&self) -> Offer {
        let count = self.command.len();
        match self.command.first() {
            Some(0x00) if count >= 6 => Offer::Read,
            Some(0x01) if count >= 4 => Offer::Write,
            Some(0x02) if count >= 4 => Offer::Verify,
            _ => Offer::Command,
        }
    }

    fn offer(&mut self, offer: Offer) -> Answer {
        self.phase = Phase::Offered(offer);
        Answer::Offer(offer)
    }

    fn lowered(&mut self, buffer: &mut [u8], byte: u8) -> Result<Answer, Code> {
        self.accept(buffer, BUFFER)?;
        let Phase::Offered(offer) = self.phase else {
            return Err(Code::Place);
        };
        let how = if byte == GO_ON { "go-on" } else { "wrong" };
        met(&format!("lower.{how}.{:02x}", offer.byte()));
        if byte != GO_ON {
            self.met_no_store("wrong-byte");
            buffer[..STATUS].copy_from_slice(&BROKEN_OFF);
            self.rest();
            return Ok(Answer::Finished);
        }
        Ok(match offer {
            Offer::Command => {
                self.command.clear();
                self.phase = Phase::Command;
                Answer::Wait
            }
            Offer::Write | Offer::Verify => {
                self.data_count = 0;
                self.phase = Phase::Data;
                Answer::Wait
            }
            Offer::Read | Offer::Act => self.act(buffer, offer),
        })
    }

    fn fed(&mut self, buffer: &mut [u8], bytes: &[u8]) -> Result<Answer, Code> {
        self.accept(buffer, BUFFER)?;
        match self.phase {
            Phase::Command => {
                let room = MOST_COMMAND - self.command.len();
                met(match bytes.len() {
                    0 => "feed.command.nothing",
                    more if more > room => "feed.command.ignored",
                    _ => "feed.command.kept",
                });
                self.command.extend(bytes.iter().take(room));
            }
            Phase::Data => {
                let part = data_mut(buffer);
                // At 533 there is no room either.
                let from = self.data_count.min(part.len());
                let kept = bytes.len().min(part.len() - from);
                part[from..from + kept].copy_from_slice(&bytes[..kept]);
                let before = self.data_count;
                self.data_count = (before + bytes.len()).min(MOST_DATA);
                met(match (bytes.len(), before, self.data_count) {
                    (0, _, _) => "feed.data.nothing",
                    (_, MOST_DATA, _) => "feed.data.after-533",
                    (_, SECTOR_BYTES, _) => "feed.data.after-532",
                    (_, _, MOST_DATA) => "feed.data.past-532",
                    (_, _, SECTOR_BYTES) => "feed.data.up-to-532",
                    _ => "feed.data.kept",
                });
            }
            _ => return Err(Code::Place),
        }
        Ok(Answer::Wait)
    }

    fn was_reset(&mut self, buffer: &[u8]) -> Result<Answer, Code> {
        self.accept(buffer, BUFFER)?;
        if self.phase.awaited().is_some() {
            return Err(Code::Place);
        }
        met(&format!("reset.{}", self.phase.full_name()));
        self.fresh = true;
        self.rest();
        Ok(Answer::Wait)
    }

    fn imaged(&self, lent: &mut [u8]) -> Result<Answer, Code> {
        self.accept(lent, image::LENGTH)?;
        if !self.known {
            return Err(Code::Place);
        }
        met(&format!("image.{}", self.phase.name()));
        lent.copy_from_slice(&self.stored_image());
        Ok(Answer::Wait)
    }

    fn answered(&mut self, buffer: &mut [u8], answer: u8, bytes: &[u8]) -> Result<Answer, Code> {
        self.accept(buffer, BUFFER)?;
        Ok(match self.phase {
            Phase::Idle | Phase::Offered(_) | Phase::Command | Phase::Data => {
                return Err(Code::Place)
            }
            Phase::Starting { reads } => {
                let outcome = read_outcome(answer, bytes)?;
                self.start_read(reads, outcome)
            }
            Phase::Storing { status } => {
                let outcome = write_outcome(answer, bytes)?;
                self.stored(buffer, status, outcome)
            }
            Phase::Reading(job, reading) => {
                let outcome = read_outcome(answer, bytes)?;
                self.command_read(buffer, job, reading, outcome)
            }
            Phase::Writing { job, .. } => {
                let outcome = write_outcome(answer, bytes)?;
                self.plain_write(buffer, job, outcome)
            }
            Phase::Verifying { job, sector, step } => match step {
                Step::Write => {
                    let outcome = write_outcome(answer, bytes)?;
                    self.verified_write(buffer, job, sector, outcome)
                }
                Step::Verify => {
                    let outcome = read_outcome(answer, bytes)?;
                    self.first_verify(buffer, job, sector, outcome)
                }
            },
            Phase::Trying(job, trial) => return self.tried(buffer, job, trial, answer, bytes),
        })
    }

    /// An access of a trial was answered.
    fn tried(
        &mut self,
        buffer: &mut [u8],
        job: Job,
        trial: Trial,
        answer: u8,
        bytes: &[u8],
    ) -> Result<Answer, Code> {
        Ok(match trial.awaits {
            Awaits::Write => {
                let outcome = write_outcome(answer, bytes)?;
                self.trial_write(buffer, job, trial.place, outcome)
            }
            Awaits::Reread(before) => {
                let outcome = read_outcome(answer, bytes)?;
                self.trial_reread(buffer, job, trial.place, before, outcome)
            }
        })
    }

    /// One of the start's reads was answered.
    fn start_read(&mut self, reads: u32, outcome: ReadOutcome) -> Answer {
        let table = match outcome {
            ReadOutcome::Good(bytes) => {
                let found = image::read(bytes);
                met(&format!("start.good.{}", found_word(&found)));
                found.ok().map(|(form, table)| {
                    met(start_name(form, &table));
                    table
                })
            }
            ReadOutcome::Crc(bytes) => {
                met(match image::read(bytes) {
                    Ok((Form::A, _)) => "start.crc.form-a",
                    Ok((Form::B, _)) => "start.crc.form-b",
                    Err(_) => "start.crc.malformed",
                });
                None
            }
            ReadOutcome::Timeout => {
                met("start.timeout");
                None
            }
            ReadOutcome::NoSettle => {
                met("start.no-settle");
                self.rest();
                return Answer::Wait;
            }
        };
        if let Some(table) = table {
            if reads >= MOST_START_READS {
                met("start.tenth-read-good");
            }
            self.take_table(&table);
            self.rest();
            return Answer::Wait;
        }
        if reads >= MOST_START_READS {
            met("start.ten-reads-spent");
            self.rest();
            return Answer::Wait;
        }
        self.phase = Phase::Starting { reads: reads + 1 };
        Answer::Read(TABLE)
    }

    /// Idle, with nothing left of a command.
    fn rest(&mut self) {
        self.command.clear();
        self.data_count = 0;
        self.phase = Phase::Idle;
    }
}

/// Gives a word for what an image is, for the coverage names.
fn found_word(found: &Result<(Form, Table), Fault>) -> String {
    match found {
        Ok((Form::A, _)) => String::from("form-a"),
        Ok((Form::B, _)) => String::from("form-b"),
        Err(Fault::Form) => String::from("form"),
        Err(Fault::Sum) => String::from("sum"),
        Err(Fault::Field(clause)) => format!("field.{}", clause.name()),
    }
}

/// Gives the coverage name of a table that a start takes.
fn start_name(form: Form, table: &Table) -> &'static str {
    match (form, table.run()) {
        (Form::A, _) => "start.run-number.of-form-a",
        (Form::B, 0) => "start.run-number.0",
        (Form::B, TOP_RUN) => "start.run-number.at-its-top",
        (Form::B, _) => "start.run-number.more",
    }
}

/// Codes 4 and 5 for a read.
fn read_outcome(answer: u8, bytes: &[u8]) -> Result<ReadOutcome<'_>, Code> {
    let (outcome, length) = match answer {
        0 => (ReadOutcome::Good(bytes), SECTOR_BYTES),
        1 => (ReadOutcome::Crc(bytes), SECTOR_BYTES),
        2 => (ReadOutcome::Timeout, 0),
        3 => (ReadOutcome::NoSettle, 0),
        _ => return Err(Code::Answer),
    };
    if bytes.len() != length {
        return Err(Code::Bytes);
    }
    Ok(outcome)
}

/// Codes 4 and 5 for a write.
fn write_outcome(answer: u8, bytes: &[u8]) -> Result<WriteOutcome, Code> {
    let outcome = match answer {
        0 => WriteOutcome::Done,
        2 => WriteOutcome::Timeout,
        3 => WriteOutcome::NoSettle,
        _ => return Err(Code::Answer),
    };
    if !bytes.is_empty() {
        return Err(Code::Bytes);
    }
    Ok(outcome)
}
