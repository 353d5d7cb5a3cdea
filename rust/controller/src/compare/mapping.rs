//! From the numbers in the library's record to the reference's record.

use std::vec;
use std::vec::Vec;

use reference::controller::{
    Awaits, Failures, Job, Offer, Phase, Place, Reading, Record, Rereads, Stage, Step, Trial,
    TRIAL_REREADS,
};
use reference::drive::Call;
use reference::image::{Cause, DEAD};

use crate::fields::{self, Fields};
use crate::raw::kind;
use crate::{GO_ON, STATUS};

/// The first spare's sector, and how many there are.
const FIRST_SPARE: u32 = 4928;
const SPARES: u32 = 32;

/// The record that these numbers are unpacked to, unless the phase, the offer or the
/// ending is none, which code 1 refuses.
///
/// What the reference's record cannot hold becomes something that its own test
/// refuses for the same clause of code 1.
pub fn record_of(numbers: &Fields) -> Option<Record> {
    let flags = numbers.flags;
    Some(Record {
        run: numbers.run,
        // Above 3 the reference refuses them all.
        causes: numbers
            .causes
            .map(|cause| u8::try_from(cause).unwrap_or(u8::MAX)),
        spares: list(numbers.spare_list(), fields::SPARES, |entry| match entry {
            fields::DEAD => DEAD,
            block => u32::from(block),
        }),
        bads: list(numbers.bad_list(), fields::BADS, u32::from),
        known: flag(flags.known),
        changed: flag(flags.changed),
        placed: flag(flags.moved),
        latch: flag(flags.latch),
        fresh: flag(flags.fresh),
        command: list(
            numbers.command.get(..numbers.count.into()),
            numbers.command.len(),
            |byte| byte,
        ),
        data_count: numbers.fed.into(),
        phase: phase(&numbers.stage)?,
    })
}

/// The entries in use. A count beyond the places makes a list that is too long.
fn list<S: Copy, T: Copy + Default>(
    used: Option<&[S]>,
    places: usize,
    entry: impl Fn(S) -> T,
) -> Vec<T> {
    match used {
        Some(used) => used.iter().copied().map(entry).collect(),
        None => vec![T::default(); places + 1],
    }
}

fn flag(number: u16) -> bool {
    number != 0
}

fn offer(byte: u8) -> Option<Offer> {
    [
        Offer::Command,
        Offer::Read,
        Offer::Write,
        Offer::Verify,
        Offer::Act,
    ]
    .into_iter()
    .find(|offer| offer.byte() == byte)
}

fn phase(stage: &fields::Stage) -> Option<Phase> {
    Some(match stage.kind {
        kind::IDLE => Phase::Idle,
        kind::OFFER => Phase::Offered(offer(stage.detail)?),
        kind::COMMAND => Phase::Command,
        kind::DATA => Phase::Data,
        kind::START => Phase::Starting {
            reads: u32::from(stage.detail),
        },
        kind::STORE => Phase::Storing {
            status: ended(stage)?,
        },
        kind::READ => Phase::Reading(job(stage), reading(stage)),
        kind::WRITE if !flag(stage.first) => Phase::Writing {
            job: clean_job(stage),
            sector: stage.sector.into(),
        },
        kind::WRITE => verifying(stage, Step::Write),
        kind::VERIFY => verifying(stage, Step::Verify),
        kind::TRIAL_WRITE | kind::TRIAL_READ => Phase::Trying(job(stage), trial(stage)),
        _ => return None,
    })
}

/// What the endings set of status 1, 2 and 3, each at its number.
const ENDINGS: [[u8; 3]; 10] = [
    [0x00, 0x00, 0x00],
    [0x00, 0x04, 0x00],
    [0x01, 0x00, 0x00],
    [0x41, 0x00, 0x00],
    [0x01, 0x00, 0x40],
    [0x01, 0x08, 0x00],
    [0x41, 0x08, 0x00],
    [0x11, 0x00, 0x00],
    [0x01, 0x10, 0x00],
    [0x01, 0x40, 0x00],
];

/// Returns the status of a command that waits for its store: the reference has it in
/// place of the ending and what was met.
fn ended(stage: &fields::Stage) -> Option<[u8; STATUS]> {
    let [one, two, three] = *ENDINGS.get(usize::from(stage.detail))?;
    let met = u8::from(flag(stage.crc)) << 3 | u8::from(flag(stage.timeout)) << 2;
    Some([one | met, two, three, stage.errors])
}

/// Returns the job of a write command before any trial, which has met nothing yet.
fn clean_job(stage: &fields::Stage) -> Job {
    Job::new(stage.block.into())
}

fn verifying(stage: &fields::Stage, step: Step) -> Phase {
    Phase::Verifying {
        job: clean_job(stage),
        sector: stage.sector.into(),
        step,
    }
}

fn job(stage: &fields::Stage) -> Job {
    Job {
        crc: flag(stage.crc),
        timeout: flag(stage.timeout),
        errors: u32::from(stage.errors),
        failures: match stage.kind {
            kind::TRIAL_WRITE | kind::TRIAL_READ => failures(stage.remembered),
            _ => Failures::NONE,
        },
        ..Job::new(stage.block.into())
    }
}

fn failures(word: u16) -> Failures {
    Failures {
        last: cause(word),
        before: cause(word / 4),
        present: cause(word / 16),
    }
}

/// Returns the cause of the two lowest bits.
fn cause(word: u16) -> Cause {
    Cause::new((word % 4) as u8).expect("there are four causes")
}

fn reading(stage: &fields::Stage) -> Reading {
    let good = flag(stage.good);
    let spent = u32::from(stage.spent);
    let left = u32::from(stage.left);
    Reading {
        sector: stage.sector.into(),
        threshold: stage.threshold,
        stage: match (flag(stage.first), left) {
            // The reference has no cost beside rereads: too high a one is put
            // where it has.
            _ if spent > 89 => Stage::Further { spent },
            (true, _) => Stage::First { rereads: left },
            (false, 0) => Stage::Further { spent },
            (false, _) => Stage::Again {
                more: left - 1,
                good,
            },
        },
    }
}

fn trial(stage: &fields::Stage) -> Trial {
    let spares = FIRST_SPARE..FIRST_SPARE + SPARES;
    let rereads = Rereads {
        made: u32::from(stage.detail),
        failures: u32::from(stage.spent),
    };
    let refused = rereads.made > TRIAL_REREADS || rereads.failures > rereads.made;
    Trial {
        place: match (flag(stage.spare), u32::from(stage.sector)) {
            (false, sector) => Place::Present(sector),
            (true, sector) if spares.contains(&sector) => {
                Place::Spare((sector - FIRST_SPARE) as usize)
            }
            // No spare at all is not the next unused one either.
            (true, _) => Place::Spare(usize::MAX),
        },
        awaits: match stage.kind {
            // The reference has no rereads beside the write: such as are refused
            // are put where it has.
            kind::TRIAL_WRITE if !refused => Awaits::Write,
            _ => Awaits::Reread(rereads),
        },
    }
}

/// Whether two records, the first being the library's, are the same to every later
/// call: command bytes and the data count are told apart only where a command is on
/// its way, failures only in trials.
pub fn alike(one: &Record, other: &Record) -> bool {
    let (phase, failures) = parted(one.phase);
    let (other_phase, other_failures) = parted(other.phase);
    let command = matches!(phase, Phase::Command | Phase::Data)
        || matches!(phase, Phase::Offered(offer) if offer != Offer::Command);
    let data = matches!(phase, Phase::Data | Phase::Offered(Offer::Act));
    phase == other_phase
        && remember_alike(failures, other_failures)
        && (one.run, one.causes) == (other.run, other.causes)
        && one.spares == other.spares
        && one.bads == other.bads
        && (one.known, one.changed, one.placed) == (other.known, other.changed, other.placed)
        && (one.latch, one.fresh) == (other.latch, other.fresh)
        && (!command || one.command == other.command)
        && (!data || one.data_count == other.data_count)
}

/// Parts a phase from the failures that its trial remembers; other phases remember
/// none in the library.
fn parted(phase: Phase) -> (Phase, Failures) {
    let without = |job: Job| Job {
        failures: Failures::NONE,
        ..job
    };
    match phase {
        Phase::Trying(job, trial) => (Phase::Trying(without(job), trial), job.failures),
        Phase::Reading(job, reading) => (Phase::Reading(without(job), reading), Failures::NONE),
        other => (other, Failures::NONE),
    }
}

/// Whether two trials remember the same. The library's has no last failure until one
/// of its own rereads fails, the reference's then still has one from before. No call
/// shows it: a sector is given up only after a failure of its own.
fn remember_alike(library: Failures, other: Failures) -> bool {
    let last = library.last == other.last || library.last == Cause::Unknown;
    last && (library.before, library.present) == (other.before, other.present)
}

/// Whether the two implementations must do the same at a call on a valid record.
/// Where document 01 is silent, as no call returns such a record, they may differ:
/// in going on with command bytes or counts that do not go with the offer, at a
/// read's answer with marks that do not go with its stage, at a trial's write
/// with rereads before it, and at the verify of a block in the bad list, whose
/// writes begin with a trial.
pub fn settled(numbers: &Fields, call: &Call) -> bool {
    let (stage, opcode, count) = (&numbers.stage, numbers.command[0], numbers.count);
    match (call, stage.kind, stage.detail) {
        // Offer 01 drops the bytes, and offers 02, 03 and 04 begin the data count.
        (Call::Lower(GO_ON), kind::OFFER, 0x01) => count == 0,
        (Call::Lower(GO_ON), kind::OFFER, 0x02) => opcode == 0 && count == 6 && numbers.fed == 0,
        (Call::Lower(GO_ON), kind::OFFER, 0x06) => matches!(opcode, 1 | 2) && count >= 4,
        (Call::Lower(GO_ON), kind::OFFER, _) => numbers.fed == 0,
        (Call::Surface(..), kind::READ, _) if flag(stage.first) => {
            stage.good == 0 && stage.spent == 0
        }
        (Call::Surface(..), kind::READ, _) if stage.left > 0 => stage.spent == 0,
        (Call::Surface(..), kind::READ, _) => stage.good == 0,
        (Call::Surface(0, _), kind::TRIAL_WRITE, rereads) => (rereads, stage.spent) == (0, 0),
        (Call::Surface(0, _), kind::VERIFY, _) => match numbers.bad_list() {
            Some(bads) => !bads.contains(&stage.block),
            None => true,
        },
        _ => true,
    }
}

#[cfg(test)]
mod tests {
    use super::*;

    #[test]
    fn a_new_record() {
        assert_eq!(record_of(&Fields::NEW), Some(Record::new()));
    }

    #[test]
    fn phases_offers_and_endings_that_are_none() {
        let at = |kind, detail| Fields {
            stage: fields::Stage {
                kind,
                detail,
                ..fields::Stage::default()
            },
            ..Fields::NEW
        };
        for kind in 0..=255 {
            let none = record_of(&at(kind, 1)).is_none();
            assert_eq!(none, kind > kind::TRIAL_READ, "{kind}");
        }
        for byte in 0..=255 {
            let none = record_of(&at(kind::OFFER, byte)).is_none();
            assert_eq!(none, !matches!(byte, 1..=4 | 6), "{byte}");
            let none = record_of(&at(kind::STORE, byte)).is_none();
            assert_eq!(none, byte > 9, "{byte}");
        }
    }

    #[test]
    fn a_flag_that_is_not_0_is_true() {
        for number in [1, 2, 256, u16::MAX] {
            let mut drive = Fields::NEW;
            (drive.flags.latch, drive.flags.moved) = (number, number);
            assert!(record_of(&drive).is_some_and(|record| record.latch && record.placed));
        }
    }

    #[test]
    fn endings_wait_as_status_bytes() {
        let mut drive = Fields::NEW;
        drive.stage.kind = kind::STORE;
        let mut all = Vec::new();
        for detail in 0..10 {
            for (crc, timeout, errors) in [(0, 0, 0), (1, 0, 2), (0, 2, 255)] {
                drive.stage.detail = detail;
                (drive.stage.crc, drive.stage.timeout) = (crc, timeout);
                drive.stage.errors = errors;
                let phase = record_of(&drive).expect("an ending").phase;
                assert!(!all.contains(&phase), "{detail}");
                all.push(phase);
            }
        }
        let status = [0x08, 0x04, 0, 2];
        assert_eq!(all[4], Phase::Storing { status });
    }

    #[test]
    fn failures_are_those_of_a_trial() {
        let at = |kind, remembered| {
            let mut drive = Fields::NEW;
            drive.stage.kind = kind;
            drive.stage.remembered = remembered;
            record_of(&drive).expect("a phase")
        };
        let wanted = Failures {
            last: Cause::Crc,
            before: Cause::Timeout,
            present: Cause::NoSettle,
        };
        for kind in [kind::TRIAL_WRITE, kind::TRIAL_READ] {
            let told = at(kind, 1 + 4 * 2 + 16 * 3);
            assert_eq!(parted(told.phase).1, wanted);
            // Higher bits are none.
            assert_eq!(at(kind, 0xFFC0), at(kind, 0));
            for (one, other, same) in [
                (1, 1, true),
                (0, 1, true),
                (1, 0, false),
                (1, 2, false),
                (4, 5, true),
                (4, 9, false),
                (16, 33, false),
            ] {
                assert_eq!(alike(&at(kind, one), &at(kind, other)), same);
            }
        }
        for kind in kind::IDLE..kind::TRIAL_WRITE {
            if kind != kind::OFFER {
                assert_eq!(at(kind, 0xFFFF), at(kind, 0), "{kind}");
            }
        }
    }

    #[test]
    fn a_read_remembers_nothing() {
        let mut drive = Fields::NEW;
        drive.stage.kind = kind::READ;
        let one = record_of(&drive).expect("a phase");
        let mut other = one.clone();
        let Phase::Reading(job, _) = &mut other.phase else {
            panic!("no read");
        };
        job.failures.last = Cause::Crc;
        assert!(alike(&one, &other));
    }

    #[test]
    fn run_numbers_and_causes_are_told_apart() {
        let new = Record::new();
        let changed = |change: fn(&mut Record)| {
            let mut record = Record::new();
            change(&mut record);
            record
        };
        assert!(alike(&new, &new));
        for change in [
            (|record| record.run = 65_536) as fn(&mut Record),
            |record| record.causes[0] = 1,
            |record| record.causes[31] = 1,
        ] {
            assert!(!alike(&new, &changed(change)));
        }
    }

    #[test]
    fn what_the_reference_cannot_hold_it_refuses() {
        let mut drive = Fields::NEW;
        drive.flags.known = 1;
        let valid = |drive: &Fields| record_of(drive).is_some_and(|record| record.valid());
        assert!(valid(&drive));
        for count in [33, 1 << 8, u16::MAX] {
            assert!(!valid(&Fields {
                nspares: count,
                ..drive
            }));
        }
        assert!(!valid(&Fields {
            nbads: 101,
            ..drive
        }));
        for (cause, passes) in [(3, true), (4, false), (256, false), (u16::MAX, false)] {
            let mut one = Fields {
                nspares: 1,
                ..drive
            };
            one.causes[0] = cause;
            assert_eq!(valid(&one), passes, "{cause}");
            one.nspares = 0;
            assert!(valid(&one), "{cause}");
        }
        assert!(!valid(&Fields { count: 7, ..drive }));
        assert!(!valid(&Fields { fed: 534, ..drive }));
        drive.stage.kind = kind::READ;
        drive.stage.first = 1;
        drive.stage.spent = 89;
        assert!(valid(&drive));
        drive.stage.spent = 90;
        assert!(!valid(&drive));
        for kind in [kind::TRIAL_WRITE, kind::TRIAL_READ] {
            drive.stage = fields::Stage {
                kind,
                spare: 1,
                sector: 4928,
                ..fields::Stage::default()
            };
            assert!(valid(&drive));
            for sector in [0, 4927, 4929, 4959, 4960, u16::MAX] {
                drive.stage.sector = sector;
                assert!(!valid(&drive), "{sector}");
            }
            drive.stage.sector = 4928;
            for (rereads, failures, passes) in [
                (100, 100, true),
                (101, 0, false),
                (255, 0, false),
                (0, 1, false),
                (99, 100, false),
            ] {
                (drive.stage.detail, drive.stage.spent) = (rereads, failures);
                assert_eq!(valid(&drive), passes, "{rereads} {failures}");
            }
        }
    }
}
