//! Acting on a command: the checks before any access, and the reads of a read
//! command.

use super::{
    data_mut, Answer, Job, Offer, Phase, Place, ReadOutcome, Reading, Record, Stage, Step, STATUS,
};
use crate::coverage::met;
use crate::geometry::{Block, Sector, SECTOR_BYTES, SPARES};
use crate::image::{Cause, DEAD, MOST_BADS};

/// The number that reads and writes the buffer.
pub const RAM: u32 = 0xFF_FFFE;

/// The number that reads the table.
pub const TABLE_IMAGE: u32 = 0xFF_FFFF;

/// The number that reads the health block (document 02, request 3).
pub const HEALTH: u32 = 0xFF_FFFD;

/// What the further reads may cost.
const BUDGET: u32 = 90;

/// What a timeout among them costs.
const TIMEOUT_COST: u32 = 9;

/// Bits of status 1.
pub(super) mod one {
    pub const ABORTED: u8 = 1 << 6;
    pub const NO_SETTLE: u8 = 1 << 4;
    pub const CRC: u8 = 1 << 3;
    pub const TIMEOUT: u8 = 1 << 2;
    pub const FAILED: u8 = 1 << 0;
}

/// Bits of status 2.
pub(super) mod two {
    pub const NO_SPARE: u8 = 1 << 6;
    pub const BADS_FULL: u8 = 1 << 4;
    pub const NO_TABLE: u8 = 1 << 3;
    pub const MOVED: u8 = 1 << 2;
}

/// Bits of status 3.
pub(super) mod three {
    pub const FRESH: u8 = 1 << 7;
    pub const NUMBER: u8 = 1 << 6;
}

/// The three commands.
#[derive(Clone, Copy, Debug, PartialEq, Eq)]
enum Command {
    Read,
    Write,
    Verify,
}

impl Command {
    fn name(self) -> &'static str {
        match self {
            Command::Read => "read",
            Command::Write => "write",
            Command::Verify => "verify",
        }
    }
}

/// A command as its bytes have it.
#[derive(Clone, Copy, Debug)]
struct Order {
    command: Command,
    number: u32,
    /// R and T of a read.
    rereads: u8,
    threshold: u8,
}

impl Order {
    /// The command bytes that stand behind an offer. Bytes that were not fed
    /// read as 0; no call leaves such a record.
    fn new(offer: Offer, bytes: &[u8]) -> Order {
        let byte = |place: usize| bytes.get(place).copied().unwrap_or(0);
        Order {
            command: match (offer, byte(0)) {
                (Offer::Read, _) => Command::Read,
                (_, 0x02) => Command::Verify,
                _ => Command::Write,
            },
            number: u32::from_be_bytes([0, byte(1), byte(2), byte(3)]),
            rereads: byte(4),
            threshold: byte(5),
        }
    }

    fn writes(self) -> bool {
        self.command != Command::Read
    }

    /// What its number stands for.
    fn target(self) -> Target {
        match self.number {
            RAM => Target::Ram,
            TABLE_IMAGE if !self.writes() => Target::TableImage,
            HEALTH if !self.writes() => Target::Health,
            number => Block::new(number).map_or(Target::Nothing, Target::Block),
        }
    }
}

/// What the number of a command stands for.
#[derive(Clone, Copy, Debug)]
enum Target {
    Block(Block),
    /// The buffer.
    Ram,
    /// The image of the table, which is only read.
    TableImage,
    /// The health block, which is only read.
    Health,
    /// The number is invalid.
    Nothing,
}

impl Record {
    /// The host went on after offer 02 or 06: the first rule that applies.
    pub(super) fn act(&mut self, buffer: &mut [u8], offer: Offer) -> Answer {
        let order = Order::new(offer, &self.command);
        if order.writes() && self.data_count > SECTOR_BYTES {
            return self.too_much(buffer, order);
        }
        match order.target() {
            Target::Nothing => {
                met(&invalid_name(order));
                let status = [one::FAILED, 0, three::NUMBER, 0];
                self.finish_other(buffer, "invalid", status)
            }
            Target::Ram => {
                met(&self.ram_name(order));
                self.finish_other(buffer, "fffffe", [0; STATUS])
            }
            target if !self.known => {
                met(&no_table_name(order, target));
                let aborted = if order.writes() { one::ABORTED } else { 0 };
                self.finish(buffer, [one::FAILED | aborted, two::NO_TABLE, 0, 0])
            }
            Target::TableImage => {
                self.met_table_image();
                data_mut(buffer).copy_from_slice(&self.shown_image());
                self.finish_other(buffer, "ffffff", [0; STATUS])
            }
            Target::Health => {
                self.met_health();
                data_mut(buffer).copy_from_slice(&self.health());
                self.finish_other(buffer, "fffffd", [0; STATUS])
            }
            Target::Block(_) if order.writes() && self.latch => {
                met(&self.latch_name(order));
                self.end(buffer, [one::NO_SETTLE | one::FAILED, 0, 0, 0])
            }
            Target::Block(block) => self.begin(order, block),
        }
    }

    /// Ends a command with more than 532 data bytes.
    fn too_much(&mut self, buffer: &mut [u8], order: Order) -> Answer {
        let kind = order.command.name();
        met(&format!("act.too-much.{kind}.{}", self.number_name()));
        let status = [one::ABORTED | one::FAILED, 0, 0, 0];
        match order.target() {
            Target::Block(_) => self.end(buffer, status),
            _ => self.finish_other(buffer, "too-much", status),
        }
    }

    /// A word for the number of a write and what stands in its way, for the
    /// coverage names.
    pub(super) fn number_name(&self) -> &'static str {
        let number = Order::new(Offer::Act, &self.command).number;
        match Block::new(number) {
            Some(_) if !self.known => "no-table",
            Some(_) if self.latch => "latch",
            Some(_) => "block",
            None if number == RAM => "fffffe",
            None => "invalid",
        }
    }

    fn ram_name(&self, order: Order) -> String {
        let state = match (self.known, self.latch) {
            (false, _) => "no-table",
            (true, true) => "latch",
            (true, false) => "plain",
        };
        format!("act.fffffe.{}.{state}", order.command.name())
    }

    fn latch_name(&self, order: Order) -> String {
        let listed = self.is_bad(order.number);
        let what = if listed { "listed" } else { "plain" };
        format!("act.latch.{}.{what}", order.command.name())
    }

    /// Counts what a table image leaves out.
    fn met_table_image(&self) {
        met("act.ffffff");
        if self.run > 0 {
            met("act.ffffff.run-number-dropped");
        }
        if self.causes[..self.spares.len()]
            .iter()
            .any(|&cause| cause > 0)
        {
            met("act.ffffff.causes-dropped");
        }
    }

    /// Counts what a health block shows.
    fn met_health(&self) {
        met(match (self.changed, self.latch) {
            (false, false) => "act.fffffd.unchanged",
            (true, false) => "act.fffffd.changed",
            (false, true) => "act.fffffd.latch",
            (true, true) => "act.fffffd.changed-under-latch",
        });
        met(match self.spares.len() {
            0 => "act.fffffd.spares.none",
            SPARES => "act.fffffd.spares.full",
            _ => "act.fffffd.spares.some",
        });
        if self.spares.contains(&DEAD) {
            met("act.fffffd.spares.dead");
        }
        met(match self.bads.len() {
            0 => "act.fffffd.bads.none",
            MOST_BADS => "act.fffffd.bads.full",
            _ => "act.fffffd.bads.some",
        });
    }

    /// Asks for the first access of a command.
    fn begin(&mut self, order: Order, block: Block) -> Answer {
        let number = block.number();
        let sector = self.sector(block);
        let listed = self.is_bad(number);
        met(&self.begin_name(order));
        let job = Job::new(number);
        let at = sector.number();
        match order.command {
            Command::Read => {
                let rereads = u32::from(order.rereads);
                let reading = Reading {
                    sector: at,
                    threshold: order.threshold,
                    stage: Stage::First { rereads },
                };
                self.read_again(job, reading)
            }
            Command::Write | Command::Verify if listed => {
                met(&format!("trial.begins.listed.{}", order.command.name()));
                self.try_sector(job, Place::Present(at))
            }
            Command::Write => {
                self.phase = Phase::Writing { job, sector: at };
                Answer::Write(sector)
            }
            Command::Verify => {
                let (sector, step) = (at, Step::Write);
                self.phase = Phase::Verifying { job, sector, step };
                Answer::Write(in_range(at))
            }
        }
    }

    fn begin_name(&self, order: Order) -> String {
        let stands = match self.spare_of(order.number) {
            Some(_) => "spare",
            None => "home",
        };
        let listed = match self.is_bad(order.number) {
            true => "listed",
            false => "unlisted",
        };
        format!("act.{}.{stands}.{listed}", order.command.name())
    }

    /// Asks for the next read of a read command.
    fn read_again(&mut self, job: Job, reading: Reading) -> Answer {
        self.phase = Phase::Reading(job, reading);
        Answer::Read(in_range(reading.sector))
    }

    /// One of the reads before any trial was answered.
    pub(super) fn command_read(
        &mut self,
        buffer: &mut [u8],
        mut job: Job,
        reading: Reading,
        outcome: ReadOutcome,
    ) -> Answer {
        let stage = reading.stage;
        let had_good = matches!(stage, Stage::Again { good: true, .. });
        met(&read_name(stage, outcome));
        let good = match outcome {
            ReadOutcome::NoSettle => return self.no_settle(buffer, job),
            ReadOutcome::Good(bytes) => {
                if !had_good {
                    data_mut(buffer).copy_from_slice(bytes);
                }
                true
            }
            ReadOutcome::Crc(bytes) => {
                if !had_good {
                    data_mut(buffer).copy_from_slice(bytes);
                }
                job.meet_crc();
                false
            }
            ReadOutcome::Timeout => {
                job.meet_timeout();
                false
            }
        };
        let next = match stage {
            Stage::First { .. } if good => {
                met(match reading.threshold {
                    0 => "read.first-good.threshold-0",
                    _ => "read.first-good.threshold-more",
                });
                return self.finish_job(buffer, job, 0, 0);
            }
            Stage::First { rereads: 0 } => Stage::Further { spent: 0 },
            Stage::First { rereads } => Stage::Again {
                more: rereads - 1,
                good: false,
            },
            Stage::Again { more, .. } => {
                if !good {
                    job.errors += 1;
                }
                match (more, had_good || good) {
                    (0, true) => return self.was_read(buffer, job, reading),
                    (0, false) => Stage::Further { spent: 0 },
                    (_, good) => Stage::Again {
                        more: more - 1,
                        good,
                    },
                }
            }
            Stage::Further { .. } if good => return self.was_read(buffer, job, reading),
            Stage::Further { spent } => {
                let cost = match outcome {
                    ReadOutcome::Timeout => TIMEOUT_COST,
                    _ => 1,
                };
                let spent = spent + cost;
                if spent >= BUDGET {
                    met(match spent {
                        BUDGET => "read.spent.exactly-90",
                        _ => "read.spent.past-90",
                    });
                    return self.never_read(buffer, job);
                }
                Stage::Further { spent }
            }
        };
        self.read_again(
            job,
            Reading {
                stage: next,
                ..reading
            },
        )
    }

    /// No read at all was good.
    fn never_read(&mut self, buffer: &mut [u8], job: Job) -> Answer {
        let mut two = 0;
        if self.is_bad(job.block) {
            met("read.failed.listed-already");
        } else if self.bads.len() >= MOST_BADS {
            met("read.failed.list-full");
            two = two::BADS_FULL;
        } else {
            met(match self.latch {
                false => "read.failed.entered",
                true => "read.failed.entered-under-latch",
            });
            self.bads.push(job.block);
            self.changed = true;
        }
        self.finish_job(buffer, job, one::FAILED, two)
    }

    /// All rereads are made and some read was good.
    fn was_read(&mut self, buffer: &mut [u8], job: Job, reading: Reading) -> Answer {
        let late = match reading.stage {
            Stage::Further { .. } => "further",
            _ => "reread",
        };
        if job.errors < u32::from(reading.threshold) {
            met(&format!("read.late-good.{late}.below-threshold"));
            return self.finish_job(buffer, job, 0, 0);
        }
        if self.latch {
            met(&format!("read.late-good.{late}.latch"));
            return self.finish_job(buffer, job, one::NO_SETTLE | one::FAILED, 0);
        }
        met(&format!("trial.begins.read.{late}"));
        self.try_sector(job, Place::Present(reading.sector))
    }

    /// Answer 3 to an access of a command.
    pub(super) fn no_settle(&mut self, buffer: &mut [u8], job: Job) -> Answer {
        let stands = match self.spare_of(job.block) {
            Some(_) => "spare",
            None => "home",
        };
        met(&format!("no-settle.{stands}.in-{}", self.phase.name()));
        if let Some(k) = self.spare_under_trial() {
            if k + 1 == SPARES {
                met("no-settle.last-spare-dies");
            }
            met(&format!("dead.by-no-settle.in-{}", self.phase.name()));
            self.kill_next_spare(Cause::NoSettle);
        }
        met(match self.latch {
            false => "no-settle.latch-made",
            true => "no-settle.latch-held",
        });
        self.latch = true;
        self.finish_job(buffer, job, one::NO_SETTLE | one::FAILED, 0)
    }
}

fn invalid_name(order: Order) -> String {
    let what = match order.number {
        TABLE_IMAGE => "ffffff",
        HEALTH => "fffffd",
        0xFF_FFFC => "fffffc",
        0x00_FFFE => "00fffe",
        9728 => "9728",
        _ => "other",
    };
    format!("act.invalid.{}.{what}", order.command.name())
}

fn no_table_name(order: Order, target: Target) -> String {
    let what = match target {
        Target::TableImage => "ffffff",
        Target::Health => "fffffd",
        _ => order.command.name(),
    };
    format!("act.no-table.{what}")
}

fn read_name(stage: Stage, outcome: ReadOutcome) -> String {
    let stage = match stage {
        Stage::First { .. } => "first",
        Stage::Again { good: false, .. } => "reread",
        Stage::Again { good: true, .. } => "reread-after-good",
        Stage::Further { .. } => "further",
    };
    let outcome = match outcome {
        ReadOutcome::Good(_) => "good",
        ReadOutcome::Crc(_) => "crc",
        ReadOutcome::Timeout => "timeout",
        ReadOutcome::NoSettle => "no-settle",
    };
    format!("read.{stage}.{outcome}")
}

/// The sector of a number that code 1 tested.
pub(super) fn in_range(number: u32) -> Sector {
    Sector::new(number).expect("code 1 tested the sector")
}
