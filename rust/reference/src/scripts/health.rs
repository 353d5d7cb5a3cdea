//! Reads of FFFFFD, which give the health block whatever the data part held, and
//! writes to it, whose number is invalid.

use super::bench::{Bench, HEALTH, INVALID, RAM, TABLE_IMAGE, TOO_MUCH};
use super::Stored;
use crate::controller::{Answer, Code, Offer, GO_ON};
use crate::drive::Call;
use crate::geometry::{SECTOR_BYTES, TABLE};
use crate::image::DEAD;
use crate::images::draft::Draft;
use crate::rng::Rng;

pub fn all() -> Vec<Stored> {
    vec![Stored::new("health", health())]
}

/// The command bytes of a read of FFFFFD.
const READ: [u8; 6] = [0, 0xFF, 0xFF, 0xFD, 0, 1];

/// The seed of the tables' entries.
const SEED: u64 = 1;

/// A block that is in no list.
const BLOCK: u32 = 4000;

fn health() -> Bench {
    let mut bench = Bench::new("Reads of FFFFFD over other bytes, and writes to it.");
    never_started(&mut bench);
    for (spares, bads) in [(0, 0), (16, 50), (32, 100)] {
        let draft = Draft::of_size(&mut Rng::new(SEED), spares, bads);
        over_other_bytes(&mut bench, &draft);
    }
    dead_spares(&mut bench);
    bad_entry(&mut bench);
    same_table(&mut bench);
    moved(&mut bench);
    latched(&mut bench);
    died_by_no_settle(&mut bench);
    reset(&mut bench);
    broken_off(&mut bench);
    command_bytes(&mut bench);
    numbers(&mut bench);
    between_write_and_read(&mut bench);
    written(&mut bench);
    no_table(&mut bench);
    bench
}

/// The data part is these four bytes, then zeros.
#[track_caller]
fn holds(bench: &Bench, first: [u8; 4]) {
    let mut block = [0; SECTOR_BYTES];
    block[..4].copy_from_slice(&first);
    assert_eq!(bench.drive.data(), block);
}

/// The read of FFFFFD was good, and shows this.
#[track_caller]
fn shown(bench: &Bench, first: [u8; 4]) {
    bench.finished([0; 4]);
    holds(bench, first);
}

/// Reads FFFFFD, which shows this and stores nothing.
#[track_caller]
fn shows(bench: &mut Bench, first: [u8; 4]) {
    bench.read(HEALTH, 0, 1);
    shown(bench, first);
}

/// The same as the first finish after a start or a reset.
#[track_caller]
fn shows_first(bench: &mut Bench, first: [u8; 4]) {
    bench.read(HEALTH, 0, 1);
    bench.finished([0, 0, 0x80, 0]);
    holds(bench, first);
}

/// Enters this block in the bad list by a read that fails; the store is answered so.
#[track_caller]
fn enter(bench: &mut Bench, block: u32, answer: u8) {
    never_read(bench, block);
    bench.said(Answer::Store);
    bench.surface(answer, &[]);
    let settled = if answer == 3 { 0x10 } else { 0 };
    bench.finished([0x05 | settled, 0, 0, 0]);
}

/// Makes a read of this block of which none is good.
fn never_read(bench: &mut Bench, block: u32) {
    bench.read(block, 0, 1);
    for _ in 0..11 {
        bench.timeout();
    }
}

/// Makes a good read of a block, at whose end the store is done.
#[track_caller]
fn read_and_stored(bench: &mut Bench) {
    bench.read(BLOCK, 0, 1);
    bench.good();
    bench.ended([0; 4]);
}

/// An access of a read is answered 3.
fn latch(bench: &mut Bench) {
    bench.read(BLOCK, 0, 1);
    bench.no_settle();
    bench.finished([0x11, 0, 0, 0]);
}

fn never_started(bench: &mut Bench) {
    bench.note("Never started: there is no table.");
    bench.fill(&[0x31; SECTOR_BYTES]);
    bench.read(HEALTH, 0, 1);
    bench.finished([0x01, 0x08, 0, 0]);
    bench.holds(0x31);
    bench.write(HEALTH, &[0x32; SECTOR_BYTES]);
    bench.finished(INVALID);
}

fn over_other_bytes(bench: &mut Bench, draft: &Draft) {
    let (spares, bads) = (draft.spare_count, draft.bad_count);
    let first = [32 - spares, bads, 0, 0];
    bench.note(&format!("Lists of {spares} and {bads}."));
    bench.started(&draft.spares, &draft.bads);
    shows_first(bench, first);
    bench.note("The part holds FF all over, 00 all over, and a count.");
    let count: Vec<u8> = (0..=u8::MAX).cycle().take(SECTOR_BYTES).collect();
    for part in [&[0xFF; SECTOR_BYTES][..], &[0; SECTOR_BYTES], &count] {
        bench.fill(part);
        shows(bench, first);
    }
    bench.note("It holds the table's image, a block that was written, and one that was read.");
    bench.read(TABLE_IMAGE, 0, 1);
    assert_eq!(bench.drive.data(), draft.bytes());
    shows(bench, first);
    bench.write(BLOCK, &[0x33; SECTOR_BYTES]);
    bench.good();
    shows(bench, first);
    bench.read(BLOCK, 0, 1);
    bench.good();
    bench.holds(0x33);
    shows(bench, first);
    bench.note("Once more over the same bytes.");
    shows(bench, first);
    bench.table_is(&draft.spares, &draft.bads);
}

fn dead_spares(bench: &mut Bench) {
    bench.note("Dead spares count as used ones, like those that hold a block.");
    let live: Vec<u32> = (0..32).collect();
    for (spares, unused) in [
        (&[DEAD][..], 31),
        (&[7, DEAD, 9], 29),
        (&[5, 6], 30),
        (&[DEAD; 32], 0),
        (&live, 0),
    ] {
        bench.started(spares, &[]);
        shows_first(bench, [unused, 0, 0, 0]);
    }
}

fn bad_entry(bench: &mut Bench) {
    bench.note("A bad entry was made, and its store is answered 2.");
    bench.started(&[], &[]);
    bench.fill(&[0x34; SECTOR_BYTES]);
    enter(bench, 70, 2);
    for _ in 0..2 {
        shows(bench, [32, 1, 0, 1]);
    }
    bench.note("A block's command makes up for it.");
    read_and_stored(bench);
    shows(bench, [32, 1, 0, 0]);
    bench.note("The block fails again: it is listed already, so nothing is added or marked.");
    never_read(bench, 70);
    bench.finished([0x05, 0, 0, 0]);
    shows(bench, [32, 1, 0, 0]);
    bench.table_is(&[], &[70]);
    bench.note("The store is done at once, and one is answered 3.");
    enter(bench, 71, 0);
    shows(bench, [32, 2, 0, 0]);
    enter(bench, 72, 3);
    shows(bench, [32, 3, 1, 1]);
}

fn same_table(bench: &mut Bench) {
    bench.note("An entry is made and removed with no store done: the table is as it was read.");
    bench.started(&[], &[]);
    bench.fill(&[0x35; SECTOR_BYTES]);
    enter(bench, 70, 2);
    bench.verify(70, &[0x36; SECTOR_BYTES]);
    bench.trial_passes();
    bench.said(Answer::Store);
    bench.timeout();
    bench.finished([0x05, 0, 0, 0]);
    bench.table_is(&[], &[]);
    let held = bench.sectors().get(TABLE).expect("a table");
    assert_eq!(held[..], Draft::new(&[], &[]).bytes());
    bench.note("The mark shows all the same, until a store is done.");
    shows(bench, [32, 0, 0, 1]);
    read_and_stored(bench);
    shows(bench, [32, 0, 0, 0]);
}

fn moved(bench: &mut Bench) {
    bench.note("A block leaves the bad list for a spare.");
    bench.started(&[], &[71]);
    bench.verify(71, &[0x37; SECTOR_BYTES]);
    bench.timeout();
    bench.said_write(4928);
    bench.trial_passes();
    bench.said(Answer::Store);
    bench.timeout();
    bench.finished([0x05, 0x04, 0x80, 0]);
    shows(bench, [31, 0, 0, 1]);
    read_and_stored(bench);
    shows(bench, [31, 0, 0, 0]);
    bench.note("It moves on: its old spare and the next one are dead, the third is its own.");
    bench.verify(71, &[0x38; SECTOR_BYTES]);
    for _ in 0..2 {
        bench.timeout();
    }
    bench.said_write(4930);
    bench.trial_passes();
    bench.ended([0x04, 0x04, 0, 0]);
    shows(bench, [29, 0, 0, 0]);
    bench.table_is(&[DEAD, DEAD, 71], &[]);
    bench.note("Verified where it is, a block that is in no list marks nothing.");
    bench.verify(BLOCK, &[0x39; SECTOR_BYTES]);
    bench.good();
    bench.good();
    bench.finished([0; 4]);
    shows(bench, [29, 0, 0, 0]);
}

fn latched(bench: &mut Bench) {
    bench.note("The latch alone.");
    bench.started(&[5], &[6]);
    bench.fill(&[0x3A; SECTOR_BYTES]);
    latch(bench);
    shows(bench, [31, 1, 1, 0]);
    bench.note("The latch with a change that no store will take.");
    never_read(bench, 72);
    bench.finished([0x05, 0, 0, 0]);
    for _ in 0..2 {
        shows(bench, [31, 2, 1, 1]);
    }
    bench.note("The change came first: its store times out, and then the latch comes.");
    bench.started(&[], &[]);
    bench.fill(&[0x3B; SECTOR_BYTES]);
    enter(bench, 72, 2);
    latch(bench);
    shows(bench, [32, 1, 1, 1]);
    bench.note("A start ends the latch and the mark.");
    bench.restarted();
    shows_first(bench, [32, 0, 0, 0]);
}

fn died_by_no_settle(bench: &mut Bench) {
    bench.note("A spare under trial dies by answer 3: latch and change at once.");
    bench.started(&[DEAD; 31], &[]);
    bench.verify(17, &[0x3C; SECTOR_BYTES]);
    bench.timeout();
    bench.said_write(4959);
    bench.no_settle();
    bench.finished([0x15, 0, 0x80, 0]);
    shows(bench, [0, 0, 1, 1]);
}

fn reset(bench: &mut Bench) {
    bench.note("Status 3 bit 7: once after a reset. The reset leaves latch and mark.");
    bench.reset();
    shows_first(bench, [0, 0, 1, 1]);
    shows(bench, [0, 0, 1, 1]);
}

fn broken_off(bench: &mut Bench) {
    bench.note("Broken off at offer 02 by another byte: the part stays, and bit 7 is due still.");
    bench.started(&[5], &[6]);
    bench.fill(&[0x3D; SECTOR_BYTES]);
    bench.reset();
    bench.command(&READ);
    bench.lower(0x54);
    bench.finished([0x80, 0, 0, 0]);
    bench.holds(0x3D);
    shows_first(bench, [31, 1, 0, 0]);
    bench.note("By a reset: the part stays, and bit 7 is due again.");
    bench.fill(&[0x3E; SECTOR_BYTES]);
    bench.command(&READ);
    bench.reset();
    bench.said(Answer::Wait);
    bench.holds(0x3E);
    bench.note("A lower that is refused gives nothing.");
    bench.command(&READ);
    bench.lend(Some(535), Call::Lower(GO_ON));
    bench.refused(Code::Buffer);
    bench.holds(0x3E);
    bench.lower(GO_ON);
    bench.finished([0, 0, 0x80, 0]);
    holds(bench, [31, 1, 0, 0]);
}

fn command_bytes(bench: &mut Bench) {
    bench.note("The command byte by byte, and with bytes after the sixth.");
    for pieces in [
        &[&[0][..], &[0xFF], &[0xFF], &[0xFD], &[1], &[2]][..],
        &[&[0, 0xFF], &[0xFF, 0xFD, 1, 2, 0xFF]],
    ] {
        bench.fill(&[0x3F; SECTOR_BYTES]);
        bench.ready();
        for piece in pieces {
            bench.feed(piece);
        }
        bench.raise();
        bench.said(Answer::Offer(Offer::Read));
        bench.lower(GO_ON);
        shown(bench, [31, 1, 0, 0]);
    }
    bench.note("Five bytes are too few: offer 01, and the part stays.");
    bench.fill(&[0x40; SECTOR_BYTES]);
    bench.command(&READ[..5]);
    bench.said(Answer::Offer(Offer::Command));
    bench.holds(0x40);
    bench.lower(0);
    bench.note("R and T play no part, and E is 0.");
    for (rereads, threshold) in [(0, 0), (1, 0), (10, 3), (255, 0), (255, 255)] {
        bench.read(HEALTH, rereads, threshold);
        shown(bench, [31, 1, 0, 0]);
    }
}

fn numbers(bench: &mut Bench) {
    bench.note("FFFFFE then shows what FFFFFD left, and FFFFFF the table.");
    shows(bench, [31, 1, 0, 0]);
    bench.read(RAM, 0, 1);
    shown(bench, [31, 1, 0, 0]);
    bench.read(TABLE_IMAGE, 0, 1);
    bench.finished([0; 4]);
    assert_eq!(bench.drive.data(), Draft::new(&[5], &[6]).bytes());
    bench.table_is(&[5], &[6]);
    shows(bench, [31, 1, 0, 0]);
    bench.note("An image call leaves the part.");
    bench.table_is(&[5], &[6]);
    holds(bench, [31, 1, 0, 0]);
    bench.note("FFFFFC, FFFFFB and 00FFFD are invalid numbers.");
    for number in [0xFF_FFFC, 0xFF_FFFB, 0x00_FFFD] {
        bench.read(number, 0, 1);
        bench.finished(INVALID);
        holds(bench, [31, 1, 0, 0]);
    }
}

fn between_write_and_read(bench: &mut Bench) {
    bench.note("Between a write that fails and the read of the old bytes.");
    bench.write(80, &[0x41; SECTOR_BYTES]);
    bench.good();
    bench.write(80, &[0x42; SECTOR_BYTES]);
    bench.no_settle();
    bench.finished([0x11, 0, 0, 0]);
    shows(bench, [31, 1, 1, 0]);
    bench.read(80, 0, 1);
    bench.good();
    bench.holds(0x41);
    bench.restarted();
    shows_first(bench, [31, 1, 0, 0]);
}

/// Writes and write/verifies to FFFFFD, and the part as they leave it.
fn refused_writes(bench: &mut Bench) {
    for opcode in [1, 2] {
        for (count, status) in [(0, INVALID), (532, INVALID), (533, TOO_MUCH)] {
            bench.send(opcode, HEALTH, &[&vec![0x43; count]]);
            bench.finished(status);
            bench.holds(if count == 0 { 0 } else { 0x43 });
        }
    }
}

fn written(bench: &mut Bench) {
    bench.note("Writes and write/verifies: 0, 532 and 533 bytes.");
    refused_writes(bench);
    shows(bench, [31, 1, 0, 0]);
    bench.note("The same under the latch.");
    latch(bench);
    refused_writes(bench);
    shows(bench, [31, 1, 1, 0]);
}

fn no_table(bench: &mut Bench) {
    bench.note("With no table the read fails as others do, and the part stays.");
    bench.started_without_table();
    bench.read(HEALTH, 0, 1);
    bench.finished([0x01, 0x08, 0x80, 0]);
    bench.fill(&[0x44; SECTOR_BYTES]);
    bench.read(HEALTH, 0, 1);
    bench.finished([0x01, 0x08, 0, 0]);
    bench.holds(0x44);
    bench.note("The writes' number is invalid before that.");
    refused_writes(bench);
}
