//! The baseline's record from the library's numbers and back, for the comparison
//! on records that no call returned.

use super::ending::Ending;
use super::table::{Cause, Table};
use super::{Drive, Failures, Phase, Read, Rereads, Seen, Trial, Write};
use crate::fields::{Fields, Flags, Stage};
use crate::raw::kind;
use crate::Offer;

impl Drive {
    /// Makes the record of these numbers, whose phase, offer and ending must be some.
    pub fn unpacked(numbers: &Fields) -> Drive {
        let flags = numbers.flags;
        Drive {
            table: Table {
                spares: numbers.spares,
                causes: numbers.causes,
                bads: numbers.bads,
                nspares: numbers.nspares.into(),
                nbads: numbers.nbads.into(),
                run: numbers.run,
            },
            known: flags.known != 0,
            changed: flags.changed != 0,
            moved: flags.moved != 0,
            latch: flags.latch != 0,
            fresh: flags.fresh != 0,
            command: numbers.command,
            count: numbers.count.into(),
            fed: numbers.fed.into(),
            phase: phase(&numbers.stage),
        }
    }

    /// Gives the numbers of the record.
    pub fn packed(&self) -> Fields {
        let table = &self.table;
        Fields {
            spares: table.spares,
            causes: table.causes,
            bads: table.bads,
            nspares: table.nspares as u16,
            nbads: table.nbads as u16,
            run: table.run,
            count: self.count as u16,
            fed: self.fed as u16,
            stage: stage(&self.phase),
            flags: Flags {
                known: self.known.into(),
                changed: self.changed.into(),
                moved: self.moved.into(),
                latch: self.latch.into(),
                fresh: self.fresh.into(),
            },
            command: self.command,
        }
    }
}

fn phase(stage: &Stage) -> Phase {
    match stage.kind {
        kind::IDLE => Phase::Idle,
        kind::OFFER => Phase::Offered(offer(stage.detail)),
        kind::COMMAND => Phase::Command,
        kind::DATA => Phase::Data,
        kind::START => Phase::Start(stage.detail),
        kind::STORE => Phase::Store(ending(stage.detail), seen(stage)),
        kind::READ => Phase::Read(Read {
            block: stage.block,
            sector: stage.sector.into(),
            first: stage.first != 0,
            left: stage.left,
            spent: stage.spent,
            threshold: stage.threshold,
            good: stage.good != 0,
            seen: seen(stage),
        }),
        kind::WRITE if stage.first == 0 => Phase::Write(write(stage)),
        kind::WRITE => Phase::VerifiedWrite(write(stage)),
        kind::VERIFY => Phase::FirstVerify(write(stage)),
        kind::TRIAL_WRITE => Phase::TrialWrite(trial(stage), rereads(stage)),
        kind::TRIAL_READ => Phase::TrialRead(trial(stage), rereads(stage)),
        other => unreachable!("{other} is no phase"),
    }
}

fn offer(byte: u8) -> Offer {
    match byte {
        0x01 => Offer::Command,
        0x02 => Offer::Read,
        0x03 => Offer::Write,
        0x04 => Offer::Verify,
        0x06 => Offer::Act,
        other => unreachable!("{other} is no offer"),
    }
}

fn ending(number: u8) -> Ending {
    match Ending::ALL.get(usize::from(number)) {
        Some(ending) => *ending,
        None => unreachable!("{number} is no ending"),
    }
}

fn write(stage: &Stage) -> Write {
    Write {
        block: stage.block,
        sector: stage.sector.into(),
    }
}

fn trial(stage: &Stage) -> Trial {
    Trial {
        block: stage.block,
        sector: stage.sector.into(),
        spare: stage.spare != 0,
        seen: seen(stage),
        failures: failures(stage.remembered),
    }
}

fn failures(word: u16) -> Failures {
    Failures {
        last: cause(word),
        before: cause(word / 4),
        present: cause(word / 16),
    }
}

/// Returns the cause of the two lowest bits.
fn cause(word: u16) -> Cause {
    match word % 4 {
        0 => Cause::Unknown,
        1 => Cause::Crc,
        2 => Cause::Timeout,
        _ => Cause::NoSettle,
    }
}

fn rereads(stage: &Stage) -> Rereads {
    Rereads {
        made: stage.detail,
        failures: stage.spent,
    }
}

fn seen(stage: &Stage) -> Seen {
    Seen {
        errors: stage.errors,
        crc: stage.crc != 0,
        timeout: stage.timeout != 0,
    }
}

fn stage(phase: &Phase) -> Stage {
    let at = |kind| Stage {
        kind,
        ..Stage::default()
    };
    match phase {
        Phase::Idle => at(kind::IDLE),
        Phase::Offered(offer) => Stage {
            detail: offer.byte(),
            ..at(kind::OFFER)
        },
        Phase::Command => at(kind::COMMAND),
        Phase::Data => at(kind::DATA),
        Phase::Start(reads) => Stage {
            detail: *reads,
            ..at(kind::START)
        },
        Phase::Store(ending, seen) => Stage {
            kind: kind::STORE,
            detail: *ending as u8,
            ..of_seen(seen)
        },
        Phase::Read(read) => of_read(read),
        Phase::Write(write) => of_write(kind::WRITE, false, write),
        Phase::VerifiedWrite(write) => of_write(kind::WRITE, true, write),
        Phase::FirstVerify(write) => of_write(kind::VERIFY, true, write),
        Phase::TrialWrite(trial, rereads) => of_trial(kind::TRIAL_WRITE, trial, rereads),
        Phase::TrialRead(trial, rereads) => of_trial(kind::TRIAL_READ, trial, rereads),
    }
}

fn of_read(read: &Read) -> Stage {
    Stage {
        kind: kind::READ,
        block: read.block,
        sector: read.sector as u16,
        first: read.first.into(),
        left: read.left,
        spent: read.spent,
        threshold: read.threshold,
        good: read.good.into(),
        ..of_seen(&read.seen)
    }
}

fn of_write(kind: u8, verified: bool, write: &Write) -> Stage {
    Stage {
        kind,
        block: write.block,
        sector: write.sector as u16,
        first: verified.into(),
        ..Stage::default()
    }
}

fn of_trial(kind: u8, trial: &Trial, rereads: &Rereads) -> Stage {
    Stage {
        kind,
        detail: rereads.made,
        block: trial.block,
        sector: trial.sector as u16,
        spent: rereads.failures,
        spare: trial.spare.into(),
        remembered: of_failures(&trial.failures),
        ..of_seen(&trial.seen)
    }
}

fn of_failures(failures: &Failures) -> u16 {
    failures.last as u16 + 4 * failures.before as u16 + 16 * failures.present as u16
}

fn of_seen(seen: &Seen) -> Stage {
    Stage {
        errors: seen.errors,
        crc: seen.crc.into(),
        timeout: seen.timeout.into(),
        ..Stage::default()
    }
}
