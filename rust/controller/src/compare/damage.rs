//! Records that no call returned: each number on both sides of each bound.

use std::vec::Vec;

use reference::rng::Rng;

use crate::fields::{Fields, Flags, Stage, DEAD};
use crate::raw::kind;

/// A record of any kind with every number in or near its bounds, and then up to
/// three fields changed.
pub fn record(rng: &mut Rng) -> Fields {
    let mut drive = sound(rng);
    for _ in 0..rng.pick(&[0, 0, 1, 1, 1, 2, 3]) {
        field(&mut drive, rng);
    }
    drive
}

/// Another record with up to three fields changed.
pub fn of(drive: &Fields, rng: &mut Rng) -> Fields {
    let mut drive = *drive;
    for _ in 0..rng.pick(&[1, 1, 1, 2, 3]) {
        field(&mut drive, rng);
    }
    drive
}

/// A record that code 1 lets pass, more often than not.
fn sound(rng: &mut Rng) -> Fields {
    let mut drive = Fields::NEW;
    drive.nspares = rng.pick(&[0, 0, 1, 5, 10, 31, 32]);
    drive.nbads = rng.pick(&[0, 0, 1, 5, 10, 99, 100]);
    // No list is long enough to come back to its first block; with a step of 512
    // that takes one more at each round of 19.
    let (first, step) = (rng.below(9728), rng.pick(&[1, 7, 512, 4097]));
    let block = |place: usize| {
        let place = place as u32;
        let round = if step == 512 { place / 19 } else { 0 };
        ((first + place * step + round) % 9728) as u16
    };
    for (place, spare) in drive.spares.iter_mut().enumerate() {
        *spare = block(place);
        if rng.one_in(6) {
            *spare = DEAD;
        }
    }
    for (place, bad) in drive.bads.iter_mut().enumerate() {
        *bad = block(place + 3);
    }
    for cause in &mut drive.causes {
        *cause = rng.below(4) as u16;
    }
    drive.run = rng.pick(&RUNS);
    drive.count = rng.pick(&[0, 3, 4, 5, 6, 6]);
    drive.fed = rng.pick(&[0, 0, 1, 531, 532, 533]);
    let mark = |rng: &mut Rng| u16::from(rng.one_in(2));
    drive.flags = Flags {
        known: u16::from(!rng.one_in(6)),
        changed: mark(rng),
        moved: mark(rng),
        latch: u16::from(rng.one_in(4)),
        fresh: mark(rng),
    };
    drive.command = command(block(0), rng);
    drive.stage = stage(&drive, rng);
    drive
}

/// Run numbers of interest.
const RUNS: [u32; 6] = [0, 1, 65_535, 65_536, u32::MAX - 1, u32::MAX];

/// The bytes of a command for this block, or for a number of interest.
fn command(block: u16, rng: &mut Rng) -> [u8; 6] {
    let block = u32::from(block);
    let number = rng.pick(&[17, 9727, 9728, 0xFF_FFFD, 0xFF_FFFE, 0xFF_FFFF, block]);
    let [_, high, middle, low] = number.to_be_bytes();
    let opcode = rng.below(4) as u8;
    [opcode, high, middle, low, rng.byte(), rng.byte()]
}

fn stage(drive: &Fields, rng: &mut Rng) -> Stage {
    let mut stage = Stage {
        kind: rng.below(11) as u8,
        ..Stage::default()
    };
    numbers(&mut stage, rng);
    let mark = |rng: &mut Rng| u16::from(rng.one_in(2));
    if stage.kind >= kind::READ {
        stage.block = rng.pick(&[0, 17, 4927, 4928, 9727, 9728]);
        stage.sector = sector(drive, rng);
    }
    if matches!(
        stage.kind,
        kind::STORE | kind::READ | kind::TRIAL_WRITE | kind::TRIAL_READ
    ) {
        stage.errors = rng.pick(&[0, 0, 1, 2, 155, 254, 255]);
        stage.crc = mark(rng);
        stage.timeout = mark(rng);
    }
    stage
}

/// Sets what one kind of phase alone has.
fn numbers(stage: &mut Stage, rng: &mut Rng) {
    let mark = |rng: &mut Rng| u16::from(rng.one_in(2));
    match stage.kind {
        kind::OFFER => stage.detail = rng.pick(&[1, 2, 3, 4, 6]),
        kind::START => stage.detail = rng.pick(&[0, 1, 9, 10, 11]),
        kind::STORE => stage.detail = rng.below(11) as u8,
        kind::WRITE | kind::VERIFY => stage.first = mark(rng),
        kind::READ => {
            stage.first = mark(rng);
            stage.left = rng.pick(&[0, 0, 1, 2, 100, 254, 255]);
            stage.spent = rng.pick(&[0, 0, 1, 80, 81, 88, 89, 90]);
            stage.threshold = rng.pick(&[0, 1, 3, 255]);
            stage.good = mark(rng);
        }
        kind::TRIAL_WRITE => {
            stage.detail = rng.pick(&[0, 0, 0, 0, 1, 100]);
            stage.spare = mark(rng);
            stage.remembered = rng.below(64) as u16;
        }
        kind::TRIAL_READ => {
            stage.remembered = rng.below(64) as u16;
            stage.detail = rng.pick(&[0, 1, 30, 31, 98, 99, 99, 99, 100, 101]);
            stage.spent = rng.pick(&[0, 0, 1, 29, 30, 30, 31, 99, 100]);
            stage.spare = mark(rng);
        }
        _ => {}
    }
}

/// A sector in or out of range, the next unused spare often.
fn sector(drive: &Fields, rng: &mut Rng) -> u16 {
    let next = 4928 + drive.nspares.min(40);
    rng.pick(&[
        0,
        17,
        9791,
        9792,
        4928,
        4959,
        4960,
        65_535,
        next,
        next,
        next,
        next,
        next - 1,
        next + 1,
    ])
}

/// Changes one field to a value at some bound, or to any.
fn field(drive: &mut Fields, rng: &mut Rng) {
    match rng.below(33) {
        0..=10 => table_field(drive, rng),
        11..=24 => stage_field(&mut drive.stage, rng),
        25..=29 => flag_field(&mut drive.flags, rng),
        30 => drive.count = rng.pick(&SOME_COUNTS),
        31 => drive.fed = rng.pick(&[0, 1, 531, 532, 533, 534, 535, 65_535]),
        _ => drive.command[rng.place(6)] = some_byte(rng),
    }
}

const SOME_COUNTS: [u16; 15] = [
    0, 1, 5, 6, 7, 31, 32, 33, 99, 100, 101, 533, 534, 256, 65_535,
];
const SOME_ENTRIES: [u16; 8] = [0, 17, 9727, 9728, 65_533, DEAD, 65_535, 512];

fn some_byte(rng: &mut Rng) -> u8 {
    match rng.below(12) {
        0 => rng.byte(),
        _ => rng.pick(&[0, 1, 2, 3, 6, 9, 10, 11, 30, 31, 89, 90, 99, 100, 101, 255]),
    }
}

fn some_flag(rng: &mut Rng) -> u16 {
    rng.pick(&[0, 1, 2, 255, 256, 65_535])
}

fn table_field(drive: &mut Fields, rng: &mut Rng) {
    match rng.below(11) {
        0 | 1 => drive.spares[rng.place(32)] = rng.pick(&SOME_ENTRIES),
        2 => drive.spares[rng.place(32)] = drive.spares[rng.place(32)],
        3 | 4 => drive.bads[rng.place(100)] = rng.pick(&SOME_ENTRIES),
        5 => drive.bads[rng.place(100)] = drive.bads[rng.place(100)],
        6 => drive.nspares = rng.pick(&SOME_COUNTS),
        7 => drive.nbads = rng.pick(&SOME_COUNTS),
        8 | 9 => drive.causes[rng.place(32)] = rng.pick(&[0, 3, 4, 255, 256, 65_535]),
        _ => drive.run = rng.pick(&RUNS),
    }
}

fn stage_field(stage: &mut Stage, rng: &mut Rng) {
    match rng.below(14) {
        0 => {
            stage.sector = match rng.below(4) {
                0 => rng.word() as u16,
                _ => rng.pick(&[0, 1, 4927, 4928, 4959, 4960, 9791, 9792, 65_535]),
            }
        }
        1 => stage.block = rng.pick(&SOME_ENTRIES),
        2 => stage.kind = rng.pick(&[0, 1, 2, 3, 4, 5, 6, 7, 8, 9, 10, 11, 12, 255]),
        3 => stage.detail = some_byte(rng),
        4 => stage.first = some_flag(rng),
        5 => stage.left = some_byte(rng),
        6 => stage.spent = some_byte(rng),
        7 => stage.threshold = some_byte(rng),
        8 => stage.good = some_flag(rng),
        9 => stage.spare = some_flag(rng),
        10 => stage.errors = some_byte(rng),
        11 => stage.crc = some_flag(rng),
        12 => stage.timeout = some_flag(rng),
        _ => stage.remembered = rng.pick(&[0, 1, 21, 42, 63, 64, 256, 65_535]),
    }
}

fn flag_field(flags: &mut Flags, rng: &mut Rng) {
    let flag = some_flag(rng);
    match rng.below(5) {
        0 => flags.known = flag,
        1 => flags.changed = flag,
        2 => flags.moved = flag,
        3 => flags.latch = flag,
        _ => flags.fresh = flag,
    }
}

/// The numbers of one byte.
const BYTES: [fn(&mut Fields) -> &mut u8; 12] = [
    |drive| &mut drive.stage.kind,
    |drive| &mut drive.stage.detail,
    |drive| &mut drive.stage.left,
    |drive| &mut drive.stage.spent,
    |drive| &mut drive.stage.threshold,
    |drive| &mut drive.stage.errors,
    |drive| &mut drive.command[0],
    |drive| &mut drive.command[1],
    |drive| &mut drive.command[2],
    |drive| &mut drive.command[3],
    |drive| &mut drive.command[4],
    |drive| &mut drive.command[5],
];

/// The flags.
const FLAGS: [fn(&mut Fields) -> &mut u16; 10] = [
    |drive| &mut drive.stage.first,
    |drive| &mut drive.stage.good,
    |drive| &mut drive.stage.spare,
    |drive| &mut drive.stage.crc,
    |drive| &mut drive.stage.timeout,
    |drive| &mut drive.flags.known,
    |drive| &mut drive.flags.changed,
    |drive| &mut drive.flags.moved,
    |drive| &mut drive.flags.latch,
    |drive| &mut drive.flags.fresh,
];

/// The counts.
const COUNTS: [fn(&mut Fields) -> &mut u16; 4] = [
    |drive| &mut drive.nspares,
    |drive| &mut drive.nbads,
    |drive| &mut drive.count,
    |drive| &mut drive.fed,
];

/// Sound records of each kind and `others`, each with one field changed: a byte to
/// each of its values, a flag and another number to some.
pub fn sweep() -> Vec<Fields> {
    let mut records = Vec::new();
    for sound in sound_ones().into_iter().chain(others()) {
        let mut with = |change: &dyn Fn(&mut Fields)| {
            let mut drive = sound;
            change(&mut drive);
            records.push(drive);
        };
        sweep_small(&mut with);
        sweep_words(&mut with);
        sweep_lists(&mut with);
    }
    records
}

/// What takes a change.
type With<'a> = &'a mut dyn FnMut(&dyn Fn(&mut Fields));

fn sweep_small(with: With) {
    for byte in BYTES {
        for value in 0..=255 {
            with(&|drive| *byte(drive) = value);
        }
    }
    for flag in FLAGS {
        for value in (0..=3).chain([128, 255, 256, 32_768, 65_535]) {
            with(&|drive| *flag(drive) = value);
        }
    }
}

fn sweep_words(with: With) {
    for count in COUNTS {
        let wide = [256, 512, 32_768, 65_534, 65_535];
        for value in (0..=110).chain(525..=540).chain(wide) {
            with(&|drive| *count(drive) = value);
        }
    }
    for word in (0..=70).chain([255, 256, 32_768, 65_535]) {
        with(&|drive| drive.stage.remembered = word);
    }
    for run in RUNS {
        with(&|drive| drive.run = run);
    }
    let wide = [32_768, 65_534, 65_535];
    for sector in (0..5).chain(4920..=4970).chain(9785..=9800).chain(wide) {
        with(&|drive| drive.stage.sector = sector);
    }
}

fn sweep_lists(with: With) {
    for block in (0..20).chain(9720..=9735).chain(65_530..=65_535) {
        with(&|drive| drive.stage.block = block);
        for place in [0, 2, 31] {
            with(&|drive| drive.spares[place] = block);
        }
        for place in [0, 4, 99] {
            with(&|drive| drive.bads[place] = block);
        }
    }
    for cause in (0..=8).chain([255, 256, 259, 32_768, 65_535]) {
        for place in [0, 2, 3, 31] {
            with(&|drive| drive.causes[place] = cause);
        }
    }
}

/// Sound records in every phase, with some entries in both lists.
pub fn sound_ones() -> Vec<Fields> {
    let [_, mut further_read] = specimens(kind::READ);
    further_read.stage.left = 0;
    let kinds = kind::IDLE..=kind::TRIAL_READ;
    kinds.flat_map(specimens).chain([further_read]).collect()
}

/// Sound records at ends of commands that a record of each kind does not meet.
fn others() -> [Fields; 4] {
    [health_read(), moves_on(), overrun(), read_under_latch()]
}

/// At offer 06 of a write that was fed too much, with changes to store.
fn overrun() -> Fields {
    let [_, mut offer_06] = specimens(kind::OFFER);
    (offer_06.fed, offer_06.flags.changed) = (533, 1);
    offer_06
}

/// At the first read under the latch, with a place that is not stored.
fn read_under_latch() -> Fields {
    let [mut first_read, _] = specimens(kind::READ);
    let flags = &mut first_read.flags;
    (flags.latch, flags.changed, flags.moved) = (1, 1, 1);
    first_read
}

/// At offer 02 of a read of FFFFFD, which shows counts and flags.
fn health_read() -> Fields {
    let [offer_02, _] = specimens(kind::OFFER);
    Fields {
        command: [0, 0xFF, 0xFF, 0xFD, 2, 1],
        ..offer_02
    }
}

/// At the last reread of the next spare for a block that has one already.
fn moves_on() -> Fields {
    let [_, mut spare_reread] = specimens(kind::TRIAL_READ);
    spare_reread.stage.block = spare_reread.spares[1];
    spare_reread
}

/// Two sound records of a kind: for trials on the present sector and on a spare,
/// for writes with none to verify and with one, for reads with the first read and a
/// reread awaited, for the store after a good end and after a move.
fn specimens(kind: u8) -> [Fields; 2] {
    let mut drive = specimen(kind);
    let mut other = drive;
    match kind {
        kind::OFFER => {
            (drive.stage.detail, other.stage.detail) = (2, 6);
            other.command[0] = 1;
        }
        kind::START => (drive.stage.detail, other.stage.detail) = (1, 10),
        kind::STORE => {
            (drive.flags.changed, other.flags.changed) = (1, 1);
            (other.flags.moved, other.stage.detail, other.stage.crc) = (1, 1, 1);
        }
        kind::READ => {
            (drive.stage.first, drive.stage.left) = (1, 2);
            (other.stage.left, other.stage.errors) = (1, 1);
        }
        kind::WRITE => other.stage.first = 1,
        kind::VERIFY => {
            (drive.stage.first, other.stage.first) = (1, 1);
            other.flags.changed = 1;
        }
        kind::TRIAL_WRITE | kind::TRIAL_READ => {
            (other.stage.spare, other.stage.sector) = (1, 4931);
            // Before it a CRC error, on the present sector a timeout.
            other.stage.remembered = 4 + 16 * 2;
        }
        _ => other.flags.changed = 1,
    }
    if kind == kind::TRIAL_READ {
        // The last reread, with as many failures as pass, the last a timeout.
        for stage in [&mut drive.stage, &mut other.stage] {
            (stage.detail, stage.spent) = (99, 30);
            stage.remembered += 2;
        }
    }
    [drive, other]
}

/// A record of a kind with some entries in both lists, without what a kind alone has.
fn specimen(kind: u8) -> Fields {
    let mut drive = Fields {
        nspares: 3,
        nbads: 5,
        count: 6,
        fed: 0,
        command: [0, 0, 0, 17, 2, 1],
        run: 0x0001_0002,
        ..Fields::NEW
    };
    for place in 0..32 {
        drive.spares[place as usize] = 100 + place;
        drive.causes[place as usize] = place % 4;
    }
    for place in 0..100 {
        drive.bads[place as usize] = 200 + place;
    }
    drive.flags.known = 1;
    drive.stage.kind = kind;
    if kind >= kind::READ {
        (drive.stage.block, drive.stage.sector) = (17, 17);
    }
    drive
}
