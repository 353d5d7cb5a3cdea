//! Hand-computed cases from document 01, and from requests 1, 3, 4, 6 and 7 of document
//! 02.

mod form_b;
mod health;
mod short_data;
mod stores;
mod trials;

use super::*;
use crate::drive::{Call, Drive};
use crate::image::Cause;
use crate::images::draft::Draft;
use crate::rng::Rng;

const DEAD: u32 = 0xFF_FFFE;

const GOOD: [u8; 532] = [0xA5; 532];

fn said(drive: &mut Drive, call: Call) -> Answer {
    drive.call(&call).answer
}

fn surface(drive: &mut Drive, answer: u8, bytes: &[u8]) -> Answer {
    said(drive, Call::Surface(answer, bytes.to_vec()))
}

/// A drive that was started with these lists.
fn started(spares: &[u32], bads: &[u32]) -> Drive {
    let mut drive = Drive::new();
    assert_eq!(said(&mut drive, Call::Start), Answer::Read(TABLE));
    let image = Draft::new(spares, bads).bytes();
    assert_eq!(surface(&mut drive, 0, &image), Answer::Wait);
    drive
}

/// The same after its first finish, so that status 3 bit 7 is shown.
fn worn(spares: &[u32], bads: &[u32]) -> Drive {
    let mut drive = started(spares, bads);
    assert_eq!(command(&mut drive, 0xFF_FFFE, 0, 0), Answer::Finished);
    assert_eq!(drive.status(), [0, 0, 0x80, 0]);
    drive
}

/// Raise, lower, feed, raise, lower: up to the first access.
fn fed(drive: &mut Drive, bytes: &[u8]) -> Answer {
    assert_eq!(said(drive, Call::Raise), Answer::Offer(Offer::Command));
    assert_eq!(said(drive, Call::Lower(0x55)), Answer::Wait);
    assert_eq!(said(drive, Call::Feed(bytes.to_vec())), Answer::Wait);
    said(drive, Call::Raise);
    said(drive, Call::Lower(0x55))
}

/// A read up to its first access.
fn command(drive: &mut Drive, number: u32, rereads: u8, threshold: u8) -> Answer {
    let [_, high, middle, low] = number.to_be_bytes();
    fed(drive, &[0, high, middle, low, rereads, threshold])
}

/// A write or a write/verify up to its first access.
fn write(drive: &mut Drive, opcode: u8, number: u32, data: &[u8]) -> Answer {
    let [_, high, middle, low] = number.to_be_bytes();
    assert_eq!(fed(drive, &[opcode, high, middle, low]), Answer::Wait);
    assert_eq!(said(drive, Call::Feed(data.to_vec())), Answer::Wait);
    assert_eq!(said(drive, Call::Raise), Answer::Offer(Offer::Act));
    said(drive, Call::Lower(0x55))
}

/// Reads with these answers: g good, c CRC error, t timeout, n no settle.
fn reads(drive: &mut Drive, answers: &str) -> Answer {
    let mut last = Answer::Wait;
    for answer in answers.chars() {
        last = match answer {
            'g' => surface(drive, 0, &GOOD),
            'c' => surface(drive, 1, &[0xC0; 532]),
            't' => surface(drive, 2, &[]),
            _ => surface(drive, 3, &[]),
        };
    }
    last
}

/// The store at the end of a command, which is awaited, is done, and the command
/// finishes.
#[track_caller]
fn store_done(drive: &mut Drive) {
    assert_eq!(surface(drive, 0, &[]), Answer::Finished);
}

fn sector(number: u32) -> Sector {
    Sector::new(number).expect("a sector")
}

fn read_of(number: u32) -> Answer {
    Answer::Read(sector(number))
}

fn write_of(number: u32) -> Answer {
    Answer::Write(sector(number))
}

#[test]
fn sectors_of_blocks() {
    for (block, at) in [(0, 0), (4927, 4927), (4928, 4992), (9727, 9791)] {
        let mut drive = worn(&[], &[]);
        assert_eq!(command(&mut drive, block, 0, 1), read_of(at));
        assert_eq!(reads(&mut drive, "g"), Answer::Finished);
        assert_eq!(drive.status(), [0; 4]);
        assert_eq!(drive.data(), GOOD);
    }
    let mut drive = worn(&[], &[]);
    assert_eq!(command(&mut drive, 9728, 0, 1), Answer::Finished);
    assert_eq!(drive.status(), [0x01, 0, 0x40, 0]);
}

#[test]
fn crc_then_good() {
    let mut drive = worn(&[], &[]);
    assert_eq!(command(&mut drive, 5, 0, 1), read_of(5));
    assert_eq!(reads(&mut drive, "c"), read_of(5));
    assert_eq!(drive.data(), [0xC0; 532]);
    assert_eq!(reads(&mut drive, "g"), Answer::Finished);
    assert_eq!(drive.status(), [0x08, 0, 0, 0]);
    assert_eq!(drive.data(), GOOD);
}

#[test]
fn two_good_rereads() {
    let mut drive = worn(&[], &[]);
    command(&mut drive, 5, 2, 1);
    assert_eq!(reads(&mut drive, "cg"), read_of(5));
    assert_eq!(reads(&mut drive, "g"), Answer::Finished);
    assert_eq!(drive.status(), [0x08, 0, 0, 0]);
}

#[test]
fn one_of_two_rereads_good() {
    let mut drive = worn(&[], &[]);
    command(&mut drive, 5, 2, 1);
    assert_eq!(reads(&mut drive, "ccg"), write_of(5));
    assert_eq!(surface(&mut drive, 0, &[]), read_of(5));
    assert_eq!(reads(&mut drive, &"g".repeat(99)), read_of(5));
    assert_eq!(reads(&mut drive, "g"), Answer::Finished);
    assert_eq!(drive.status(), [0x08, 0, 0, 1]);
    assert!(!drive.record.changed);
}

#[test]
fn eleven_timeouts() {
    let mut drive = worn(&[], &[]);
    command(&mut drive, 5, 0, 1);
    assert_eq!(reads(&mut drive, "tttttttttt"), read_of(5));
    assert_eq!(reads(&mut drive, "t"), Answer::Store);
    assert_eq!(drive.record.bads, [5]);
    assert!(drive.record.changed);
    store_done(&mut drive);
    assert_eq!(drive.status(), [0x05, 0, 0, 0]);
}

#[test]
fn crc_nine_timeouts_nine_crc() {
    let mut drive = worn(&[], &[]);
    command(&mut drive, 5, 0, 1);
    assert_eq!(reads(&mut drive, "ctttttttttcccccccc"), read_of(5));
    assert_eq!(reads(&mut drive, "c"), Answer::Store);
    store_done(&mut drive);
    assert_eq!(drive.status(), [0x0D, 0, 0, 0]);
}

#[test]
fn counts_of_the_image() {
    let blocks = |count: u32| (0..count).collect::<Vec<u32>>();
    let read = |spares: u32, bads: u32| {
        let mut drive = Drive::new();
        said(&mut drive, Call::Start);
        let image = Draft::new(&blocks(spares), &blocks(bads)).bytes();
        surface(&mut drive, 0, &image);
        drive.record.known
    };
    assert!(read(32, 0));
    assert!(!read(33, 0));
    assert!(read(0, 100));
    assert!(!read(0, 101));
}

#[test]
fn a_first_failure_is_not_counted() {
    let mut drive = worn(&[], &[]);
    command(&mut drive, 5, 1, 1);
    assert_eq!(reads(&mut drive, "tg"), Answer::Finished);
    assert_eq!(drive.status(), [0x04, 0, 0, 0]);
}

#[test]
fn the_first_good_bytes_stay() {
    let mut drive = worn(&[], &[]);
    command(&mut drive, 5, 3, 9);
    reads(&mut drive, "cg");
    assert_eq!(drive.data(), GOOD);
    assert_eq!(surface(&mut drive, 0, &[1; 532]), read_of(5));
    assert_eq!(surface(&mut drive, 1, &[2; 532]), Answer::Finished);
    assert_eq!(drive.data(), GOOD);
    assert_eq!(drive.status(), [0x08, 0, 0, 1]);
}

#[test]
fn acting_in_order() {
    let long = [0x11; 533];
    // Too much, with everything else wrong as well.
    for number in [5, DEAD, 0xFF_FFFF, 9728] {
        let mut drive = Drive::new();
        assert_eq!(write(&mut drive, 1, number, &long), Answer::Finished);
        assert_eq!(drive.status(), [0x41, 0, 0, 0], "{number}");
    }
    // A number of no block, with no table.
    for number in [9728, 0x00_FFFE, 0xFF_FFFD, 0xFF_FFFF] {
        let mut drive = Drive::new();
        assert_eq!(write(&mut drive, 2, number, &GOOD), Answer::Finished);
        assert_eq!(drive.status(), [0x01, 0, 0x40, 0], "{number}");
    }
    // FFFFFE with no table; then no table.
    let mut drive = Drive::new();
    write(&mut drive, 1, DEAD, &GOOD);
    assert_eq!(drive.status(), [0; 4]);
    assert_eq!(drive.data(), GOOD);
    for number in [5, 0xFF_FFFD, 0xFF_FFFF] {
        command(&mut drive, number, 0, 0);
        assert_eq!(drive.status(), [0x01, 0x08, 0, 0], "{number}");
        assert_eq!(drive.data(), GOOD);
    }
    for opcode in [1, 2] {
        write(&mut drive, opcode, 5, &GOOD);
        assert_eq!(drive.status(), [0x41, 0x08, 0, 0]);
    }
    // The table's image.
    let mut drive = worn(&[7, DEAD], &[9]);
    assert_eq!(command(&mut drive, 0xFF_FFFF, 0, 0), Answer::Finished);
    assert_eq!(drive.status(), [0; 4]);
    assert_eq!(drive.data(), Draft::new(&[7, DEAD], &[9]).bytes());
}

#[test]
fn the_latch() {
    let mut drive = worn(&[], &[6]);
    command(&mut drive, 5, 2, 1);
    assert_eq!(reads(&mut drive, "cn"), Answer::Finished);
    assert_eq!(drive.status(), [0x19, 0, 0, 0]);
    for (opcode, block) in [(1, 5), (2, 5), (1, 6), (2, 6)] {
        assert_eq!(write(&mut drive, opcode, block, &GOOD), Answer::Finished);
        assert_eq!(drive.status(), [0x11, 0, 0, 0]);
    }
    // A read goes on, but at its threshold there is no trial.
    command(&mut drive, 5, 0, 0);
    assert_eq!(reads(&mut drive, "tg"), Answer::Finished);
    assert_eq!(drive.status(), [0x15, 0, 0, 0]);
    // A bad entry is made and marked, but there is no store.
    command(&mut drive, 5, 0, 0);
    reads(&mut drive, "ttttttttttt");
    assert_eq!(drive.record.bads, [6, 5]);
    assert!(drive.record.changed);
    assert_eq!(said(&mut drive, Call::Raise), Answer::Offer(Offer::Command));
    said(&mut drive, Call::Start);
    assert!(!drive.record.latch);
}

#[test]
fn wrong_handshake_bytes() {
    let mut drive = started(&[], &[]);
    said(&mut drive, Call::Raise);
    assert_eq!(said(&mut drive, Call::Lower(0x54)), Answer::Finished);
    assert_eq!(drive.status(), [0x80, 0, 0, 0]);
    // It neither shows nor clears bit 7, and a reset makes it due again.
    command(&mut drive, DEAD, 0, 0);
    assert_eq!(drive.status(), [0, 0, 0x80, 0]);
    command(&mut drive, DEAD, 0, 0);
    assert_eq!(drive.status(), [0; 4]);
    assert_eq!(said(&mut drive, Call::Reset), Answer::Wait);
    command(&mut drive, 9728, 0, 0);
    assert_eq!(drive.status(), [0x01, 0, 0xC0, 0]);
}

#[test]
fn counts_left_over_reach_no_later_command() {
    let mut drive = worn(&[], &[]);
    fed(&mut drive, &[1, 0, 0, 5]);
    said(&mut drive, Call::Feed(vec![1; 533]));
    said(&mut drive, Call::Raise);
    said(&mut drive, Call::Lower(0));
    assert_eq!(command(&mut drive, 5, 0, 0), read_of(5));
    reads(&mut drive, "g");
    assert_eq!(drive.status(), [0; 4]);
    assert_eq!(write(&mut drive, 1, 5, &[2; 3]), write_of(5));
    assert_eq!(drive.data()[..4], [2, 2, 2, 0]);
}

#[test]
fn the_start() {
    // Ten reads in all, each failure of its own kind.
    let mut drive = Drive::new();
    let image = Draft::new(&[], &[]).bytes();
    assert_eq!(said(&mut drive, Call::Start), Answer::Read(TABLE));
    for _ in 0..3 {
        assert_eq!(surface(&mut drive, 0, &[0; 532]), Answer::Read(TABLE));
        assert_eq!(surface(&mut drive, 1, &image), Answer::Read(TABLE));
        assert_eq!(surface(&mut drive, 2, &[]), Answer::Read(TABLE));
    }
    let mut tenth = drive.clone();
    assert_eq!(surface(&mut drive, 2, &[]), Answer::Wait);
    assert!(!drive.record.known);
    assert_eq!(surface(&mut tenth, 0, &image), Answer::Wait);
    assert!(tenth.record.known);
    // Answer 3 ends it, without a latch.
    let mut drive = Drive::new();
    said(&mut drive, Call::Start);
    assert_eq!(surface(&mut drive, 3, &[]), Answer::Wait);
    assert!(!drive.record.known && !drive.record.latch);
    assert_eq!(drive.buffer, vec![0; 536]);
}

// Code 1.

/// The calls that test a record.
fn calls() -> Vec<Call> {
    vec![
        Call::Raise,
        Call::Lower(0x55),
        Call::Feed(vec![1]),
        Call::Surface(2, vec![]),
        Call::Surface(9, vec![7]),
        Call::Reset,
        Call::Image,
    ]
}

/// The record is refused by every call but start, with all unchanged.
#[track_caller]
fn outside(record: &Record) {
    assert!(!record.valid());
    for call in calls() {
        for lend in [None, Some(3)] {
            let mut drive = Drive {
                record: record.clone(),
                buffer: vec![3; 536],
            };
            let before = drive.clone();
            let returned = drive.lend(lend, &call);
            assert_eq!(returned.answer, Answer::Refused(Code::Record), "{call:?}");
            assert_eq!(drive, before);
            if let Some(image) = returned.image {
                assert_eq!(image, vec![0xEE; 532]);
            }
        }
    }
    let mut drive = Drive {
        record: record.clone(),
        buffer: vec![3; 536],
    };
    assert_eq!(said(&mut drive, Call::Start), Answer::Read(TABLE));
    assert!(drive.record.valid());
}

/// Code 1 stays silent in every call, and what they leave is valid too.
#[track_caller]
fn inside(record: &Record) {
    assert!(record.valid());
    for call in calls() {
        let mut drive = Drive {
            record: record.clone(),
            buffer: vec![3; 536],
        };
        let returned = drive.call(&call);
        assert_ne!(returned.answer, Answer::Refused(Code::Record), "{call:?}");
        assert!(drive.record.valid(), "{call:?}");
    }
}

fn known() -> Record {
    Record {
        known: true,
        ..Record::new()
    }
}

fn with(phase: Phase) -> Record {
    Record { phase, ..known() }
}

const JOB: Job = Job {
    block: 5,
    crc: false,
    timeout: false,
    errors: 0,
    failures: Failures::NONE,
};

fn reading(job: Job, stage: Stage) -> Record {
    let reading = Reading {
        sector: 5,
        threshold: 1,
        stage,
    };
    with(Phase::Reading(job, reading))
}

fn trying(job: Job, place: Place, awaits: Awaits) -> Record {
    with(Phase::Trying(job, Trial { place, awaits }))
}

fn verifying(job: Job, sector: u32, step: Step) -> Record {
    with(Phase::Verifying { job, sector, step })
}

/// The write of a trial, its first reread, and its last.
const AWAITS: [Awaits; 3] = [
    Awaits::Write,
    Awaits::Reread(Rereads {
        made: 0,
        failures: 0,
    }),
    Awaits::Reread(Rereads {
        made: 99,
        failures: 99,
    }),
];

const STEPS: [Step; 2] = [Step::Write, Step::Verify];

/// Each phase of a command's access, a store's too.
fn accesses() -> Vec<Record> {
    let mut records = vec![
        with(Phase::Storing { status: [0; 4] }),
        reading(JOB, Stage::First { rereads: 0 }),
        reading(
            JOB,
            Stage::Again {
                more: 0,
                good: false,
            },
        ),
        reading(JOB, Stage::Further { spent: 0 }),
        with(Phase::Writing {
            job: JOB,
            sector: 5,
        }),
    ];
    records.extend(STEPS.map(|step| verifying(JOB, 5, step)));
    for place in [Place::Present(5), Place::Spare(0)] {
        records.extend(AWAITS.map(|awaits| trying(JOB, place, awaits)));
    }
    records
}

/// The lists, in records with a table and without.
#[test]
fn damaged_lists() {
    for known in [false, true] {
        let lists = |spares: &[u32], bads: &[u32]| Record {
            spares: spares.to_vec(),
            bads: bads.to_vec(),
            known,
            ..Record::new()
        };
        let blocks = |count: u32| (0..count).collect::<Vec<u32>>();
        inside(&lists(&blocks(32), &blocks(100)));
        outside(&lists(&blocks(33), &[]));
        outside(&lists(&[DEAD; 33], &[]));
        outside(&lists(&[], &blocks(101)));
        inside(&lists(&[DEAD; 32], &[]));
        inside(&lists(&[9727], &[9727]));
        outside(&lists(&[9728], &[]));
        outside(&lists(&[], &[9728]));
        outside(&lists(&[], &[DEAD]));
        outside(&lists(&[DEAD - 1], &[]));
        outside(&lists(&[DEAD + 1], &[]));
        outside(&lists(&[u32::MAX], &[]));
        outside(&lists(&[], &[u32::MAX]));
        outside(&lists(&[1, DEAD, 1], &[]));
        outside(&lists(&[], &[1, 2, 1]));
        inside(&lists(&[1, DEAD, DEAD, 2], &[2, 1]));
    }
}

#[test]
fn damaged_counts() {
    let phases = [
        Phase::Idle,
        Phase::Command,
        Phase::Data,
        Phase::Offered(Offer::Act),
        Phase::Storing { status: [0; 4] },
    ];
    for phase in phases {
        let counted = |command: usize, data_count: usize| Record {
            command: vec![1; command],
            data_count,
            ..with(phase)
        };
        inside(&counted(6, 533));
        outside(&counted(7, 0));
        outside(&counted(0, 534));
        outside(&counted(100, 533));
        outside(&counted(6, usize::MAX));
    }
}

#[test]
fn damaged_rereads() {
    let job = |errors| Job { errors, ..JOB };
    let first = |errors, rereads| reading(job(errors), Stage::First { rereads });
    inside(&first(0, 255));
    outside(&first(0, 256));
    outside(&first(1, 255));
    inside(&first(255, 0));
    outside(&first(256, 0));
    outside(&first(u32::MAX, u32::MAX));
    // The awaited reread is one that is left.
    for good in [false, true] {
        let again = |errors, more| reading(job(errors), Stage::Again { more, good });
        inside(&again(0, 254));
        outside(&again(0, 255));
        inside(&again(100, 154));
        outside(&again(100, 155));
        inside(&again(254, 0));
        outside(&again(255, 0));
        outside(&again(1, u32::MAX));
    }
    let further = |errors, spent| reading(job(errors), Stage::Further { spent });
    inside(&further(255, 0));
    outside(&further(256, 0));
    inside(&further(255, 89));
    outside(&further(0, 90));
    outside(&further(0, u32::MAX));
    for (errors, test) in [(255, inside as fn(&Record)), (256, outside)] {
        let job = job(errors);
        test(&with(Phase::Writing { job, sector: 5 }));
        for step in STEPS {
            test(&verifying(job, 5, step));
        }
        for awaits in AWAITS {
            test(&trying(job, Place::Present(5), awaits));
        }
    }
}

#[test]
fn accesses_with_no_table() {
    for record in accesses() {
        inside(&record);
        outside(&Record {
            known: false,
            ..record
        });
    }
    let mut start = with(Phase::Starting { reads: 1 });
    inside(&start);
    start.known = false;
    inside(&start);
}

#[test]
fn damaged_start_reads() {
    let starting = |reads| Record {
        phase: Phase::Starting { reads },
        ..Record::new()
    };
    inside(&starting(0));
    inside(&starting(1));
    inside(&starting(10));
    outside(&starting(11));
    outside(&starting(u32::MAX));
}

#[test]
fn damaged_trials() {
    for place in [Place::Present(5), Place::Spare(0)] {
        let rereads = |made, failures| {
            let awaits = Awaits::Reread(Rereads { made, failures });
            trying(JOB, place, awaits)
        };
        inside(&rereads(0, 0));
        outside(&rereads(0, 1));
        inside(&rereads(31, 31));
        outside(&rereads(31, 32));
        inside(&rereads(99, 99));
        outside(&rereads(99, 100));
        inside(&rereads(100, 0));
        inside(&rereads(100, 100));
        outside(&rereads(100, 101));
        outside(&rereads(101, 0));
        outside(&rereads(101, 101));
        outside(&rereads(u32::MAX, 0));
        outside(&rereads(u32::MAX, u32::MAX));
        outside(&rereads(0, u32::MAX));
    }
}

#[test]
fn damaged_sectors_and_blocks() {
    for (sector, block, fits) in [
        (9791, 9727, true),
        (0, 0, true),
        (4960, 5, true),
        (9792, 5, false),
        (5, 9728, false),
        (u32::MAX, 5, false),
        (5, DEAD, false),
    ] {
        let job = Job { block, ..JOB };
        let test = if fits { inside } else { outside };
        for stage in [
            Stage::First { rereads: 1 },
            Stage::Again {
                more: 1,
                good: false,
            },
            Stage::Further { spent: 1 },
        ] {
            let reading = Reading {
                sector,
                threshold: 1,
                stage,
            };
            test(&with(Phase::Reading(job, reading)));
        }
        test(&with(Phase::Writing { job, sector }));
        for step in STEPS {
            test(&verifying(job, sector, step));
        }
        for awaits in AWAITS {
            test(&trying(job, Place::Present(sector), awaits));
        }
    }
}

#[test]
fn damaged_spares_under_trial() {
    for awaits in AWAITS {
        let trial = |used: usize, k: usize| Record {
            spares: vec![DEAD; used],
            ..trying(JOB, Place::Spare(k), awaits)
        };
        inside(&trial(0, 0));
        outside(&trial(0, 1));
        inside(&trial(7, 7));
        outside(&trial(7, 6));
        outside(&trial(7, 8));
        inside(&trial(31, 31));
        outside(&trial(31, 32));
        outside(&trial(32, 31));
        outside(&trial(32, 32));
        outside(&trial(0, usize::MAX));
    }
}

#[test]
fn the_order_of_the_codes() {
    let mut damaged = with(Phase::Idle);
    damaged.data_count = 534;
    let refused = |record: &Record, lend, call: Call| {
        let mut drive = Drive {
            record: record.clone(),
            buffer: vec![0; 536],
        };
        match drive.lend(lend, &call).answer {
            Answer::Refused(code) => code.number(),
            _ => 0,
        }
    };
    let read = reading(JOB, Stage::First { rereads: 0 });
    let bad = Call::Surface(9, vec![1]);
    assert_eq!(refused(&damaged, Some(1), bad.clone()), 1);
    assert_eq!(refused(&known(), Some(1), bad.clone()), 2);
    assert_eq!(refused(&known(), None, bad.clone()), 3);
    assert_eq!(refused(&read, None, bad), 4);
    assert_eq!(refused(&read, None, Call::Surface(0, vec![1])), 5);
    assert_eq!(refused(&read, None, Call::Surface(0, vec![1; 532])), 0);
    // Answer 1 to a write is 4, whatever bytes come.
    let write = trying(JOB, Place::Present(5), Awaits::Write);
    for count in [0, 1, 532] {
        assert_eq!(refused(&write, None, Call::Surface(1, vec![0; count])), 4);
    }
    assert_eq!(refused(&write, None, Call::Surface(0, vec![0; 532])), 5);
    // Start knows only 2.
    assert_eq!(refused(&damaged, Some(1), Call::Start), 2);
    assert_eq!(refused(&damaged, None, Call::Start), 0);
    // Image: 1, 2, 3.
    assert_eq!(refused(&damaged, Some(536), Call::Image), 1);
    assert_eq!(refused(&Record::new(), Some(536), Call::Image), 2);
    assert_eq!(refused(&Record::new(), None, Call::Image), 3);
    assert_eq!(refused(&known(), None, Call::Image), 0);
}

fn any_cause(rng: &mut Rng) -> Cause {
    Cause::new(rng.below(4) as u8).expect("a cause")
}

/// A record with all its parts near their bounds.
fn any_record(rng: &mut Rng) -> Record {
    let block = |rng: &mut Rng| rng.pick(&[0, 5, 6, 9727, 9728, DEAD]);
    let job = Job {
        block: rng.pick(&[0, 5, 6, 9727, 9727, 9728]),
        crc: rng.one_in(2),
        timeout: rng.one_in(2),
        errors: rng.pick(&[0, 1, 100, 254, 255, 256]),
        failures: Failures {
            last: any_cause(rng),
            present: any_cause(rng),
            before: any_cause(rng),
        },
    };
    let sector = rng.pick(&[0, 5, 4928, 4960, 9791, 9792]);
    let stage = match rng.below(3) {
        0 => Stage::First {
            rereads: rng.pick(&[0, 1, 254, 255, 256]),
        },
        1 => Stage::Again {
            more: rng.pick(&[0, 1, 154, 254, 255]),
            good: rng.one_in(2),
        },
        _ => Stage::Further {
            spent: rng.pick(&[0, 80, 81, 82, 89, 90]),
        },
    };
    let spares: Vec<u32> = match rng.below(4) {
        0 => vec![DEAD; rng.pick(&[31, 32, 33])],
        1 => (0..rng.below(33)).collect(),
        _ => (0..rng.below(3)).map(|_| block(rng)).collect(),
    };
    let place = match rng.below(2) {
        0 => Place::Present(sector),
        _ => Place::Spare(spares.len() + rng.pick(&[0, 0, 0, 1])),
    };
    let awaits = match rng.below(3) {
        0 => Awaits::Write,
        _ => Awaits::Reread(Rereads {
            made: rng.pick(&[0, 1, 98, 99, 100, 101]),
            failures: rng.pick(&[0, 0, 1, 29, 30, 31, 99, 100, 101]),
        }),
    };
    let phase = match rng.below(10) {
        0 => Phase::Idle,
        1 => Phase::Command,
        2 => Phase::Data,
        3 => Phase::Offered(rng.pick(&[
            Offer::Command,
            Offer::Read,
            Offer::Write,
            Offer::Verify,
            Offer::Act,
        ])),
        4 => Phase::Starting {
            reads: rng.pick(&[0, 1, 9, 10, 11]),
        },
        5 => Phase::Storing {
            status: rng.pick(&[[0; 4], [0x41, 0, 0, 0], [0x0C, 0x04, 0, 255], [0xFF; 4]]),
        },
        6 => Phase::Reading(
            job,
            Reading {
                sector,
                threshold: rng.pick(&[0, 1, 255]),
                stage,
            },
        ),
        7 => Phase::Writing { job, sector },
        8 => Phase::Verifying {
            job,
            sector,
            step: rng.pick(&STEPS),
        },
        _ => Phase::Trying(job, Trial { place, awaits }),
    };
    let mut causes = [0; 32];
    causes.fill_with(|| rng.below(4) as u8);
    if rng.one_in(4) {
        causes[rng.place(32)] = rng.pick(&[4, 255]);
    }
    Record {
        run: rng.pick(&[0, 1, u32::MAX - 1, u32::MAX]),
        spares,
        causes,
        bads: match rng.below(3) {
            0 => (0..rng.pick(&[99, 100, 101])).collect(),
            _ => (0..rng.below(3)).map(|_| block(rng)).collect(),
        },
        known: !rng.one_in(4),
        changed: rng.one_in(2),
        placed: rng.one_in(2),
        latch: rng.one_in(3),
        fresh: rng.one_in(2),
        command: (0..rng.place(8))
            .map(|_| rng.pick(&[0, 1, 2, 5, 255]))
            .collect(),
        data_count: rng.pick(&[0, 1, 531, 532, 533, 534]),
        phase,
    }
}

/// A start makes all anew, whatever record and buffer it is given.
#[test]
fn a_start_from_any_record() {
    let mut rng = Rng::new(78);
    let mut first = Drive::new();
    assert_eq!(said(&mut first, Call::Start), Answer::Read(TABLE));
    for _ in 0..1000 {
        let mut drive = Drive {
            record: any_record(&mut rng),
            buffer: vec![rng.byte(); 536],
        };
        assert_eq!(said(&mut drive, Call::Start), Answer::Read(TABLE));
        assert_eq!(drive, first);
    }
}

/// Whatever the record: a damaged one is refused, another one goes on to a
/// record that is not damaged, and nothing panics.
#[test]
fn any_record_at_all() {
    let mut rng = Rng::new(77);
    let mut taken = 0;
    for _ in 0..5000 {
        let mut drive = Drive {
            record: any_record(&mut rng),
            buffer: vec![rng.byte(); 536],
        };
        let valid = drive.record.valid();
        for _ in 0..6 {
            let bytes = vec![rng.byte(); rng.pick(&[0, 0, 1, 6, 532, 532, 533])];
            let call = match rng.below(9) {
                0 => Call::Raise,
                1 => Call::Lower(rng.pick(&[0x55, 0x55, 0])),
                2 => Call::Feed(bytes),
                3..=6 => Call::Surface(rng.pick(&[0, 0, 1, 2, 3, 4]), bytes),
                7 => Call::Reset,
                _ => Call::Image,
            };
            let before = drive.clone();
            let answer = said(&mut drive, call);
            match answer {
                Answer::Refused(code) => {
                    assert_eq!(drive, before);
                    assert_eq!(code == Code::Record, !valid);
                }
                _ => {
                    assert!(valid);
                    assert!(drive.record.valid(), "{before:?}");
                    taken += 1;
                }
            }
        }
    }
    assert!(taken > 1500, "{taken}");
}
