//! Document 02, request 3: a read of FFFFFD gives the health block.

use super::*;
use crate::controller::acting::{HEALTH, RAM};

/// What a write to an invalid number finishes with, and one of too many bytes.
const INVALID: [u8; 4] = [0x01, 0, 0x40, 0];
const TOO_MUCH: [u8; 4] = [0x41, 0, 0, 0];

/// Another job's byte.
const OTHER: u8 = 0xEE;

/// The first so many blocks.
fn blocks(count: u32) -> Vec<u32> {
    (0..count).collect()
}

/// A drive at offer 02 of a read of FFFFFD, with a table and another job's bytes.
fn offered() -> Drive {
    Drive {
        record: Record {
            command: vec![0, 0xFF, 0xFF, 0xFD, 0, 0],
            ..with(Phase::Offered(Offer::Read))
        },
        buffer: vec![OTHER; 536],
    }
}

/// The data part is these four bytes, then zeros.
#[track_caller]
fn holds(drive: &Drive, first: [u8; 4]) {
    let mut block = [0; 532];
    block[..4].copy_from_slice(&first);
    assert_eq!(drive.data(), block);
}

/// The lower with 55 finishes, good, with this health block.
#[track_caller]
fn shows(drive: &mut Drive, first: [u8; 4]) {
    assert_eq!(said(drive, Call::Lower(0x55)), Answer::Finished);
    assert_eq!(drive.status(), [0; 4]);
    holds(drive, first);
}

/// From command bytes being taken to offer 02 of a read of FFFFFD.
#[track_caller]
fn asked(drive: &mut Drive) {
    let bytes = vec![0, 0xFF, 0xFF, 0xFD, 0, 0];
    assert_eq!(said(drive, Call::Feed(bytes)), Answer::Wait);
    assert_eq!(said(drive, Call::Raise), Answer::Offer(Offer::Read));
}

/// A read of FFFFFD from idle, with no store on the way.
#[track_caller]
fn read(drive: &mut Drive, first: [u8; 4]) {
    assert_eq!(command(drive, HEALTH, 0, 0), Answer::Finished);
    assert_eq!(drive.status(), [0; 4]);
    holds(drive, first);
}

/// No read of this block is good.
fn never_read(drive: &mut Drive, block: u32) -> Answer {
    command(drive, block, 0, 0);
    reads(drive, "ttttttttttt")
}

/// A read of this block fails, so that it is entered in the bad list; the store is
/// answered so.
#[track_caller]
fn enter(drive: &mut Drive, block: u32, answer: u8) {
    assert_eq!(never_read(drive, block), Answer::Store);
    assert_eq!(surface(drive, answer, &[]), Answer::Finished);
}

/// A good read of a block, at whose end the store is done.
#[track_caller]
fn read_and_stored(drive: &mut Drive) {
    command(drive, 70, 0, 0);
    assert_eq!(reads(drive, "g"), Answer::Store);
    store_done(drive);
}

/// The drive under the latch.
fn latched(spares: &[u32], bads: &[u32]) -> Drive {
    let mut drive = worn(spares, bads);
    command(&mut drive, 5, 0, 0);
    assert_eq!(reads(&mut drive, "n"), Answer::Finished);
    assert!(drive.record.latch && !drive.record.changed);
    drive
}

#[test]
fn lists_of_every_length() {
    for (unused, spares) in (0..=32).rev().zip(0..) {
        for bads in 0..=100 {
            let mut drive = offered();
            drive.record.spares = blocks(spares);
            drive.record.bads = blocks(bads.into());
            shows(&mut drive, [unused, bads, 0, 0]);
        }
    }
}

#[test]
fn dead_spares_are_used_ones() {
    for (spares, unused) in [
        (&[DEAD][..], 31),
        (&[7, DEAD, 8], 29),
        (&[DEAD, DEAD, DEAD], 29),
        (&[DEAD; 31], 1),
        (&[DEAD; 32], 0),
    ] {
        let mut drive = offered();
        drive.record.spares = spares.to_vec();
        shows(&mut drive, [unused, 0, 0, 0]);
    }
}

#[test]
fn the_latch_and_the_mark() {
    for (latch, changed, first) in [
        (false, false, [30, 3, 0, 0]),
        (true, false, [30, 3, 1, 0]),
        (false, true, [30, 3, 0, 1]),
        (true, true, [30, 3, 1, 1]),
    ] {
        let mut drive = offered();
        drive.record = Record {
            spares: vec![7, DEAD],
            bads: vec![9, 5, 7],
            latch,
            changed,
            ..drive.record
        };
        shows(&mut drive, first);
    }
}

#[test]
fn whatever_the_part_held() {
    let count: Vec<u8> = (0..=255).cycle().take(532).collect();
    let image = Draft::new(&[7, DEAD], &[9]).bytes();
    for part in [vec![0xFF; 532], vec![0; 532], count, image] {
        let mut drive = worn(&[7, DEAD], &[9]);
        write(&mut drive, 1, RAM, &part);
        assert_eq!(drive.data(), part);
        read(&mut drive, [30, 1, 0, 0]);
        // And over its own bytes.
        read(&mut drive, [30, 1, 0, 0]);
    }
    // Over a written block, and a read one.
    let mut drive = worn(&[], &[]);
    assert_eq!(write(&mut drive, 1, 5, &GOOD), write_of(5));
    surface(&mut drive, 0, &[]);
    read(&mut drive, [32, 0, 0, 0]);
    command(&mut drive, 5, 0, 0);
    reads(&mut drive, "g");
    read(&mut drive, [32, 0, 0, 0]);
}

#[test]
fn stores_done_and_not() {
    for (answer, latch, changed) in [(0, 0, 0), (2, 0, 1), (3, 1, 1)] {
        let mut drive = worn(&[], &[]);
        enter(&mut drive, 5, answer);
        read(&mut drive, [32, 1, latch, changed]);
        // It stores nothing itself.
        read(&mut drive, [32, 1, latch, changed]);
    }
}

#[test]
fn the_mark_is_no_comparison() {
    let mut drive = worn(&[], &[]);
    enter(&mut drive, 5, 2);
    // No store is done before the block leaves the list.
    assert_eq!(write(&mut drive, 2, 5, &GOOD), write_of(5));
    surface(&mut drive, 0, &[]);
    assert_eq!(reads(&mut drive, &"g".repeat(100)), Answer::Store);
    surface(&mut drive, 2, &[]);
    let Record { spares, bads, .. } = &drive.record;
    assert!(spares.is_empty() && bads.is_empty());
    read(&mut drive, [32, 0, 0, 1]);
    read_and_stored(&mut drive);
    read(&mut drive, [32, 0, 0, 0]);
}

#[test]
fn after_moves_and_dead_spares() {
    let mut drive = worn(&[8], &[5]);
    write(&mut drive, 2, 5, &GOOD);
    // The write at home times out, and that on spare 1; spare 2 passes.
    for _ in 0..2 {
        surface(&mut drive, 2, &[]);
    }
    surface(&mut drive, 0, &[]);
    assert_eq!(reads(&mut drive, &"g".repeat(100)), Answer::Store);
    surface(&mut drive, 2, &[]);
    assert_eq!(drive.record.spares, [8, DEAD, 5]);
    read(&mut drive, [29, 0, 0, 1]);
    read_and_stored(&mut drive);
    read(&mut drive, [29, 0, 0, 0]);
}

#[test]
fn under_the_latch() {
    let mut drive = latched(&[8], &[9]);
    read(&mut drive, [31, 1, 1, 0]);
    // An entry that no store will take.
    assert_eq!(never_read(&mut drive, 6), Answer::Finished);
    read(&mut drive, [31, 2, 1, 1]);
    read(&mut drive, [31, 2, 1, 1]);
    // A start ends both.
    said(&mut drive, Call::Start);
    surface(&mut drive, 0, &Draft::new(&[8], &[9]).bytes());
    assert_eq!(command(&mut drive, HEALTH, 0, 0), Answer::Finished);
    assert_eq!(drive.status(), [0, 0, 0x80, 0]);
    holds(&drive, [31, 1, 0, 0]);
}

#[test]
fn a_spare_that_dies_by_answer_3() {
    let mut drive = worn(&[], &[]);
    write(&mut drive, 2, 5, &GOOD);
    surface(&mut drive, 2, &[]);
    assert_eq!(surface(&mut drive, 3, &[]), Answer::Finished);
    read(&mut drive, [31, 0, 1, 1]);
}

#[test]
fn with_no_table() {
    let mut without = Drive::new();
    said(&mut without, Call::Start);
    assert_eq!(surface(&mut without, 3, &[]), Answer::Wait);
    for (mut drive, three) in [(Drive::new(), 0), (without, 0x80)] {
        drive.buffer.fill(OTHER);
        assert_eq!(command(&mut drive, HEALTH, 0, 0), Answer::Finished);
        assert_eq!(drive.status(), [0x01, 0x08, three, 0]);
        assert_eq!(drive.data(), [OTHER; 532]);
        assert_eq!(command(&mut drive, HEALTH, 0, 0), Answer::Finished);
        assert_eq!(drive.status(), [0x01, 0x08, 0, 0]);
    }
    // The latch and the mark of such a record do not show either.
    let mut drive = offered();
    drive.record = Record {
        known: false,
        latch: true,
        changed: true,
        ..drive.record
    };
    assert_eq!(said(&mut drive, Call::Lower(0x55)), Answer::Finished);
    assert_eq!(drive.status(), [0x01, 0x08, 0, 0]);
    assert_eq!(drive.data(), [OTHER; 532]);
}

#[test]
fn writes_get_the_old_answer() {
    for drive in [worn(&[8], &[9]), latched(&[8], &[9]), Drive::new()] {
        for opcode in [1, 2] {
            for (count, status) in [(0, INVALID), (532, INVALID), (533, TOO_MUCH)] {
                let mut after = drive.clone();
                let data = vec![7; count];
                assert_eq!(write(&mut after, opcode, HEALTH, &data), Answer::Finished);
                assert_eq!(after.status(), status, "{count}");
                assert_eq!(after.data(), vec![if count == 0 { 0 } else { 7 }; 532]);
                assert_eq!(after.record, drive.record);
            }
        }
    }
}

#[test]
fn bit_7_is_shown_once() {
    let mut drive = started(&[], &[]);
    for _ in 0..2 {
        command(&mut drive, HEALTH, 0, 0);
        assert_eq!(drive.status(), [0, 0, 0x80, 0]);
        holds(&drive, [32, 0, 0, 0]);
        read(&mut drive, [32, 0, 0, 0]);
        assert_eq!(said(&mut drive, Call::Reset), Answer::Wait);
    }
}

#[test]
fn r_and_t_play_no_part() {
    let mut drive = worn(&[8], &[9]);
    for rereads in [0, 1, 90, 255] {
        for threshold in [0, 1, 255] {
            let answer = command(&mut drive, HEALTH, rereads, threshold);
            assert_eq!(answer, Answer::Finished);
            assert_eq!(drive.status(), [0; 4]);
            holds(&drive, [31, 1, 0, 0]);
        }
    }
}

#[test]
fn six_command_bytes_are_needed() {
    for count in [1, 4, 5] {
        let mut drive = worn(&[], &[]);
        drive.buffer[4..].fill(OTHER);
        said(&mut drive, Call::Raise);
        said(&mut drive, Call::Lower(0x55));
        let bytes = [0, 0xFF, 0xFF, 0xFD, 1];
        said(&mut drive, Call::Feed(bytes[..count].to_vec()));
        let offer = Answer::Offer(Offer::Command);
        assert_eq!(said(&mut drive, Call::Raise), offer);
        assert_eq!(drive.data(), [OTHER; 532]);
        // The bytes are dropped: six more make the command.
        said(&mut drive, Call::Lower(0x55));
        asked(&mut drive);
        shows(&mut drive, [32, 0, 0, 0]);
    }
    let mut drive = worn(&[], &[]);
    fed(&mut drive, &[0, 0xFF, 0xFF, 0xFD, 1, 2, 3]);
    assert_eq!(drive.status(), [0; 4]);
    holds(&drive, [32, 0, 0, 0]);
}

#[test]
fn other_numbers_stay_invalid() {
    for number in [0xFF_FFFC, 0xFF_FFFB, 0x00_FFFD, 0xFF_FEFD, 0x7F_FFFD] {
        let mut drive = worn(&[], &[]);
        drive.buffer[4..].fill(OTHER);
        assert_eq!(command(&mut drive, number, 0, 0), Answer::Finished);
        assert_eq!(drive.status(), INVALID, "{number:06x}");
        assert_eq!(drive.data(), [OTHER; 532]);
    }
}

#[test]
fn broken_off_at_offer_02() {
    for (broken_off, status) in [
        (Call::Lower(0x54), [0x80, 0, 0, 0]),
        (Call::Reset, [OTHER; 4]),
    ] {
        let mut drive = offered();
        drive.record.fresh = true;
        said(&mut drive, broken_off);
        assert_eq!(drive.status(), status);
        assert_eq!(drive.data(), [OTHER; 532]);
        command(&mut drive, HEALTH, 0, 0);
        assert_eq!(drive.status(), [0, 0, 0x80, 0]);
    }
}

#[test]
fn a_refused_lower_gives_nothing() {
    let mut drive = offered();
    let before = drive.clone();
    for length in [0, 8, 532, 535, 537] {
        let returned = drive.lend(Some(length), &Call::Lower(0x55));
        assert_eq!(returned.answer, Answer::Refused(Code::Buffer));
        assert_eq!(drive, before);
    }
    shows(&mut drive, [32, 0, 0, 0]);
}

#[test]
fn the_record_stays() {
    for fresh in [false, true] {
        for (latch, changed) in [(false, false), (true, false), (false, true), (true, true)] {
            let mut drive = offered();
            drive.record = Record {
                spares: vec![7, DEAD],
                bads: vec![9],
                latch,
                changed,
                fresh,
                ..drive.record
            };
            let before = drive.record.clone();
            assert_eq!(said(&mut drive, Call::Lower(0x55)), Answer::Finished);
            let after = Record {
                fresh: false,
                command: vec![],
                phase: Phase::Idle,
                ..before
            };
            assert_eq!(drive.record, after);
        }
    }
}

#[test]
fn the_buffer_keeps_it_for_fffffe() {
    let mut drive = worn(&[8], &[9]);
    read(&mut drive, [31, 1, 0, 0]);
    assert_eq!(command(&mut drive, RAM, 0, 0), Answer::Finished);
    holds(&drive, [31, 1, 0, 0]);
    assert_eq!(command(&mut drive, 0xFF_FFFF, 0, 0), Answer::Finished);
    assert_eq!(drive.data(), Draft::new(&[8], &[9]).bytes());
}
