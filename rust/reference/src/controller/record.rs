//! The record, its phases, and the test of code 1.
//!
//! Numbers in a record are plain ones, since a record that no call returned may
//! hold any; `valid` is the test of code 1, and behind it they are in range.

use super::{MOST_COMMAND, MOST_DATA, MOST_START_READS, STATUS, TRIAL_REREADS};
use crate::geometry::{home, spare, Block, Sector, SECTOR_BYTES, SPARES};
use crate::image::{form_a, form_b, Cause, Entry, Spare, Table, LENGTH, MOST_SPARES};

/// What the controller offers to do next.
#[derive(Clone, Copy, Debug, PartialEq, Eq, Hash)]
pub enum Offer {
    /// Take a command.
    Command,
    /// Read a block.
    Read,
    /// Take the data of a write.
    Write,
    /// Take the data of a write/verify.
    Verify,
    /// Do the write or the write/verify.
    Act,
}

impl Offer {
    /// The response byte.
    pub fn byte(self) -> u8 {
        match self {
            Offer::Command => 0x01,
            Offer::Read => 0x02,
            Offer::Write => 0x03,
            Offer::Verify => 0x04,
            Offer::Act => 0x06,
        }
    }
}

/// What the controller is doing. CMD is high while an offer is made, and low
/// elsewhere.
#[derive(Clone, Copy, Debug, PartialEq, Eq, Hash)]
pub enum Phase {
    Idle,
    /// An offer was made.
    Offered(Offer),
    /// Command bytes are taken.
    Command,
    /// Data bytes are taken.
    Data,
    /// A read of the start is awaited, the last of this many asked for.
    Starting {
        reads: u32,
    },
    /// The store at the end of a command is awaited; these status bytes stand for
    /// its ending so far (document 02, request 7).
    Storing {
        status: [u8; STATUS],
    },
    /// A read of a read command is awaited.
    Reading(Job, Reading),
    /// The one write of a write command is awaited.
    Writing {
        job: Job,
        sector: u32,
    },
    /// The first write of a write/verify is awaited, or its first verify.
    Verifying {
        job: Job,
        sector: u32,
        step: Step,
    },
    /// An access of a trial is awaited.
    Trying(Job, Trial),
}

/// A command with an access under way, and what it has met.
#[derive(Clone, Copy, Debug, PartialEq, Eq, Hash)]
pub struct Job {
    pub block: u32,
    /// Any CRC error.
    pub crc: bool,
    /// Any timeout.
    pub timeout: bool,
    /// E: the failures among the R rereads.
    pub errors: u32,
    pub failures: Failures,
}

/// The failures that a command remembers, since entries may get their causes from
/// them (document 02, request 6).
#[derive(Clone, Copy, Debug, PartialEq, Eq, Hash)]
pub struct Failures {
    /// The last one, wherever it was.
    pub last: Cause,
    /// The last one on the block's present sector, once that was left.
    pub present: Cause,
    /// The last one before the spare under trial was tried.
    pub before: Cause,
}

impl Failures {
    /// None so far.
    pub const NONE: Failures = Failures {
        last: Cause::Unknown,
        present: Cause::Unknown,
        before: Cause::Unknown,
    };
}

impl Job {
    /// Begins a command for this block, which has met nothing.
    pub fn new(block: u32) -> Job {
        Job {
            block,
            crc: false,
            timeout: false,
            errors: 0,
            failures: Failures::NONE,
        }
    }

    /// Takes a CRC error into account.
    pub(super) fn meet_crc(&mut self) {
        self.crc = true;
        self.failures.last = Cause::Crc;
    }

    /// Takes a timeout into account.
    pub(super) fn meet_timeout(&mut self) {
        self.timeout = true;
        self.failures.last = Cause::Timeout;
    }
}

/// Where a read command stands before any trial.
#[derive(Clone, Copy, Debug, PartialEq, Eq, Hash)]
pub struct Reading {
    pub sector: u32,
    /// T.
    pub threshold: u8,
    pub stage: Stage,
}

/// Which of its reads is awaited.
#[derive(Clone, Copy, Debug, PartialEq, Eq, Hash)]
pub enum Stage {
    /// The first; this many rereads would follow.
    First { rereads: u32 },
    /// One of the R rereads; this many more follow. Good is whether the block
    /// was read already.
    Again { more: u32, good: bool },
    /// A further one; this much of the 90 is spent.
    Further { spent: u32 },
}

/// Which access of a write/verify is awaited, before any trial.
#[derive(Clone, Copy, Debug, PartialEq, Eq, Hash)]
pub enum Step {
    Write,
    Verify,
}

/// Where the trial of a sector stands (document 02, request 4).
#[derive(Clone, Copy, Debug, PartialEq, Eq, Hash)]
pub struct Trial {
    pub place: Place,
    pub awaits: Awaits,
}

/// The sector of a trial.
#[derive(Clone, Copy, Debug, PartialEq, Eq, Hash)]
pub enum Place {
    /// The block's present sector.
    Present(u32),
    /// This spare, the next unused one.
    Spare(usize),
}

/// Which access of a trial is awaited.
#[derive(Clone, Copy, Debug, PartialEq, Eq, Hash)]
pub enum Awaits {
    /// Its one write.
    Write,
    /// A reread, after these.
    Reread(Rereads),
}

/// The rereads of a trial that were answered.
#[derive(Clone, Copy, Debug, Default, PartialEq, Eq, Hash)]
pub struct Rereads {
    pub made: u32,
    /// The failures among them.
    pub failures: u32,
}

/// What kind of access is awaited.
#[derive(Clone, Copy, Debug, PartialEq, Eq, Hash)]
pub enum Awaited {
    Read,
    Write,
}

impl Awaits {
    /// Whether code 1 stays silent: at most 100 rereads, and no more failures
    /// than rereads made.
    fn valid(self) -> bool {
        match self {
            Awaits::Write => true,
            Awaits::Reread(Rereads { made, failures }) => made <= TRIAL_REREADS && failures <= made,
        }
    }
}

impl Phase {
    /// What is awaited from the surface, if anything.
    pub fn awaited(self) -> Option<Awaited> {
        match self {
            Phase::Idle | Phase::Offered(_) | Phase::Command | Phase::Data => None,
            Phase::Starting { .. } | Phase::Reading(..) => Some(Awaited::Read),
            Phase::Storing { .. } | Phase::Writing { .. } => Some(Awaited::Write),
            Phase::Verifying { step, .. } => Some(match step {
                Step::Write => Awaited::Write,
                Step::Verify => Awaited::Read,
            }),
            Phase::Trying(_, trial) => Some(match trial.awaits {
                Awaits::Write => Awaited::Write,
                Awaits::Reread(_) => Awaited::Read,
            }),
        }
    }

    /// Gives a word for it that tells the offers apart, for the coverage names.
    pub fn full_name(self) -> String {
        match self {
            Phase::Offered(offer) => format!("offer-{:02x}", offer.byte()),
            phase => String::from(phase.name()),
        }
    }

    /// A word for it, for the coverage names.
    pub fn name(self) -> &'static str {
        match self {
            Phase::Idle => "idle",
            Phase::Offered(_) => "offer",
            Phase::Command => "command",
            Phase::Data => "data",
            Phase::Starting { .. } => "starting",
            Phase::Storing { .. } => "storing",
            Phase::Reading(_, reading) => match reading.stage {
                Stage::First { .. } => "first-read",
                Stage::Again { .. } => "reread",
                Stage::Further { .. } => "further-read",
            },
            Phase::Writing { .. } => "plain-write",
            Phase::Verifying { step, .. } => match step {
                Step::Write => "verified-write",
                Step::Verify => "first-verify",
            },
            Phase::Trying(_, trial) => match (trial.place, trial.awaits) {
                (Place::Present(_), Awaits::Write) => "present-write",
                (Place::Present(_), Awaits::Reread(_)) => "present-reread",
                (Place::Spare(_), Awaits::Write) => "spare-write",
                (Place::Spare(_), Awaits::Reread(_)) => "spare-reread",
            },
        }
    }
}

/// The drive's record.
#[derive(Clone, Debug, PartialEq, Eq, Hash)]
pub struct Record {
    /// The run number: the stores asked for, up to its top.
    pub run: u32,
    /// The spare list: blocks and FFFFFE.
    pub spares: Vec<u32>,
    /// The causes of its entries; those beyond its end are of no entry.
    pub causes: [u8; MOST_SPARES],
    /// The bad list.
    pub bads: Vec<u32>,
    /// There is a table.
    pub known: bool,
    /// The table was changed since its last store or the start.
    pub changed: bool,
    /// Some block's place is unstored: it was listed at a spare since the last store
    /// or the start (document 02, request 7).
    pub placed: bool,
    /// Writes are shut off after answer 3.
    pub latch: bool,
    /// Status 3 bit 7 is due.
    pub fresh: bool,
    /// The command bytes that were kept.
    pub command: Vec<u8>,
    /// The data bytes that were counted.
    pub data_count: usize,
    pub phase: Phase,
}

impl Default for Record {
    fn default() -> Record {
        Record::new()
    }
}

impl Record {
    /// A record that was never started.
    pub fn new() -> Record {
        Record {
            run: 0,
            spares: vec![],
            causes: [0; MOST_SPARES],
            bads: vec![],
            known: false,
            changed: false,
            placed: false,
            latch: false,
            fresh: false,
            command: vec![],
            data_count: 0,
            phase: Phase::Idle,
        }
    }

    /// Whether code 1 stays silent.
    pub fn valid(&self) -> bool {
        self.table().is_some()
            && self.command.len() <= MOST_COMMAND
            && self.data_count <= MOST_DATA
            && self.valid_phase()
    }

    fn valid_phase(&self) -> bool {
        match self.phase {
            Phase::Idle | Phase::Offered(_) | Phase::Command | Phase::Data => true,
            Phase::Starting { reads } => reads <= MOST_START_READS,
            Phase::Storing { .. } => self.known,
            Phase::Reading(job, reading) => {
                let (left, spent) = match reading.stage {
                    Stage::First { rereads } => (u64::from(rereads), 0),
                    // The awaited one is left too.
                    Stage::Again { more, .. } => (u64::from(more) + 1, 0),
                    Stage::Further { spent } => (0, spent),
                };
                self.known
                    && is_block(job.block)
                    && is_sector(reading.sector)
                    && u64::from(job.errors) + left <= 255
                    && spent <= 89
            }
            Phase::Writing { job, sector } | Phase::Verifying { job, sector, .. } => {
                self.valid_job(job) && is_sector(sector)
            }
            Phase::Trying(job, trial) => {
                let placed = match trial.place {
                    Place::Present(sector) => is_sector(sector),
                    Place::Spare(k) => self.next_spare() == Some(k),
                };
                self.valid_job(job) && placed && trial.awaits.valid()
            }
        }
    }

    fn valid_job(&self, job: Job) -> bool {
        self.known && is_block(job.block) && job.errors <= 255
    }

    /// Makes the table of the lists, if they are well formed and no entry has a cause
    /// above 3.
    pub fn table(&self) -> Option<Table> {
        if self.spares.len() > MOST_SPARES {
            return None;
        }
        let entries = self.spares.iter().zip(self.causes);
        let spares: Option<Vec<Entry>> = entries
            .map(|(&number, cause)| {
                let spare = Spare::new(number)?;
                let cause = Cause::new(cause)?;
                Some(Entry { spare, cause })
            })
            .collect();
        let bads: Option<Vec<Block>> = self.bads.iter().map(|&entry| Block::new(entry)).collect();
        Table::new(self.run, spares?, bads?)
    }

    /// Takes the run number, the lists and the causes of a table that was read.
    pub(super) fn take_table(&mut self, table: &Table) {
        self.run = table.run();
        self.spares.clear();
        self.causes = [0; MOST_SPARES];
        for entry in table.spares() {
            self.enter_spare(entry.spare.number(), entry.cause);
        }
        self.bads = table.bads().iter().map(|bad| bad.number()).collect();
        self.known = true;
    }

    /// Makes the entry of the next unused spare.
    pub(super) fn enter_spare(&mut self, number: u32, cause: Cause) {
        self.causes[self.spares.len()] = cause.number();
        self.spares.push(number);
    }

    /// Writes the table in form A, which FFFFFF shows.
    pub(super) fn shown_image(&self) -> [u8; LENGTH] {
        form_a::write(&self.tested_table())
    }

    /// Writes the table in form B, which the image call and every store give.
    pub fn stored_image(&self) -> [u8; LENGTH] {
        form_b::write(&self.tested_table())
    }

    /// Makes the table of a record that code 1 let through.
    fn tested_table(&self) -> Table {
        self.table().expect("code 1 tested the lists")
    }

    /// The health block: unused spares, bad entries, latch, unstored mark, then
    /// zeros (document 02, request 3). A dead spare is a used one.
    pub(super) fn health(&self) -> [u8; SECTOR_BYTES] {
        let mut block = [0; SECTOR_BYTES];
        // Code 1 tested the lists, so both counts fit in a byte.
        block[0] = (SPARES - self.spares.len()) as u8;
        block[1] = self.bads.len() as u8;
        block[2] = u8::from(self.latch);
        block[3] = u8::from(self.changed);
        block
    }

    /// The next unused spare.
    pub fn next_spare(&self) -> Option<usize> {
        (self.spares.len() < SPARES).then_some(self.spares.len())
    }

    /// The spare to which a block was moved.
    pub fn spare_of(&self, block: u32) -> Option<usize> {
        self.spares.iter().position(|&entry| entry == block)
    }

    /// Whether a block stands in the bad list.
    pub fn is_bad(&self, block: u32) -> bool {
        self.bads.contains(&block)
    }

    /// The sector of a block: its spare if listed, else its home.
    pub fn sector(&self, block: Block) -> Sector {
        self.spare_of(block.number())
            .and_then(spare)
            .unwrap_or(home(block))
    }
}

fn is_block(number: u32) -> bool {
    Block::new(number).is_some()
}

fn is_sector(number: u32) -> bool {
    Sector::new(number).is_some()
}
