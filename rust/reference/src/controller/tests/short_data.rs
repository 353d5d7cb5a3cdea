//! Document 02, request 1: the raise that offers 06 zeroes the data part behind
//! the bytes that were fed.

use super::*;
use crate::controller::acting::RAM;

/// The bytes of another job.
const OTHER: u8 = 0xEE;

/// How many bytes are fed.
const COUNTS: [usize; 7] = [0, 1, 511, 512, 531, 532, 533];

/// Numbers of a block, of the buffer, and of nothing.
const NUMBERS: [u32; 5] = [5, RAM, 9728, 0xFF_FFFD, 0xFF_FFFF];

/// The drive with another job's bytes in its data part.
fn used(mut drive: Drive) -> Drive {
    assert_eq!(write(&mut drive, 1, RAM, &[OTHER; 532]), Answer::Finished);
    assert_eq!(drive.data(), [OTHER; 532]);
    drive
}

/// So many bytes of 07, then this byte up to 532.
fn part(count: usize, rest: u8) -> Vec<u8> {
    let mut part = vec![rest; 532];
    part[..count.min(532)].fill(7);
    part
}

/// From idle to so many bytes of 07 fed.
fn feeding(drive: &mut Drive, opcode: u8, number: u32, count: usize) {
    let [_, high, middle, low] = number.to_be_bytes();
    assert_eq!(fed(drive, &[opcode, high, middle, low]), Answer::Wait);
    assert_eq!(said(drive, Call::Feed(vec![7; count])), Answer::Wait);
}

/// All counts with both opcodes: the rest is as it was until the raise, then zeros,
/// and stays so when the command is acted on.
#[track_caller]
fn all_counts(drive: &Drive, number: u32) {
    for opcode in [1, 2] {
        for count in COUNTS {
            let mut drive = drive.clone();
            feeding(&mut drive, opcode, number, count);
            assert_eq!(drive.data(), part(count, OTHER), "{number}: {count}");
            let status = drive.status().to_vec();
            assert_eq!(said(&mut drive, Call::Raise), Answer::Offer(Offer::Act));
            assert_eq!(drive.data(), part(count, 0), "{number}: {count}");
            assert_eq!(drive.status(), status);
            said(&mut drive, Call::Lower(0x55));
            assert_eq!(drive.data(), part(count, 0), "{number}: {count}");
        }
    }
}

#[test]
fn for_every_number() {
    for number in NUMBERS {
        all_counts(&used(worn(&[], &[])), number);
    }
}

#[test]
fn with_no_table() {
    for number in NUMBERS {
        all_counts(&used(Drive::new()), number);
    }
}

#[test]
fn under_the_latch() {
    let mut drive = used(worn(&[], &[6]));
    command(&mut drive, 5, 0, 1);
    reads(&mut drive, "n");
    assert!(drive.record.latch);
    for number in [5, 6, RAM, 9728] {
        all_counts(&drive, number);
    }
}

#[test]
fn a_block_is_written_with_the_zeros() {
    for count in COUNTS {
        let mut drive = used(worn(&[], &[]));
        let asked = write(&mut drive, 1, 5, &vec![7; count]);
        if count == 533 {
            assert_eq!(asked, Answer::Finished);
            assert_eq!(drive.status(), [0x41, 0, 0, 0]);
            continue;
        }
        assert_eq!(asked, write_of(5));
        assert_eq!(drive.data(), part(count, 0));
        assert_eq!(surface(&mut drive, 0, &[]), Answer::Finished);
        assert_eq!(drive.status(), [0; 4]);
    }
}

#[test]
fn a_short_write_to_the_buffer_leaves_zeros() {
    for opcode in [1, 2] {
        let mut drive = used(worn(&[], &[]));
        assert_eq!(write(&mut drive, opcode, RAM, &[7; 512]), Answer::Finished);
        assert_eq!(drive.status(), [0; 4]);
        assert_eq!(command(&mut drive, RAM, 0, 0), Answer::Finished);
        assert_eq!(drive.data(), part(512, 0));
    }
}

#[test]
fn broken_off_at_06_the_zeros_stay() {
    for broken_off in [Call::Lower(0x54), Call::Reset] {
        let mut drive = used(worn(&[], &[]));
        feeding(&mut drive, 1, 5, 512);
        said(&mut drive, Call::Raise);
        said(&mut drive, broken_off);
        assert_eq!(drive.record.phase, Phase::Idle);
        assert_eq!(drive.data(), part(512, 0));
        assert_eq!(command(&mut drive, RAM, 0, 0), Answer::Finished);
        assert_eq!(drive.data(), part(512, 0));
    }
}

#[test]
fn broken_off_before_that_raise_nothing_is_zeroed() {
    // At offer 03 or 04, by another byte and by a reset.
    for opcode in [1, 2] {
        for broken_off in [Call::Lower(0x54), Call::Reset] {
            let mut drive = used(worn(&[], &[]));
            said(&mut drive, Call::Raise);
            said(&mut drive, Call::Lower(0x55));
            said(&mut drive, Call::Feed(vec![opcode, 0, 0, 5]));
            said(&mut drive, Call::Raise);
            said(&mut drive, broken_off);
            assert_eq!(drive.record.phase, Phase::Idle);
            assert_eq!(drive.data(), part(0, OTHER));
        }
    }
    // While data are taken, by a reset.
    for count in COUNTS {
        let mut drive = used(worn(&[], &[]));
        feeding(&mut drive, 2, 5, count);
        assert_eq!(said(&mut drive, Call::Reset), Answer::Wait);
        assert_eq!(drive.data(), part(count, OTHER));
        assert_eq!(command(&mut drive, RAM, 0, 0), Answer::Finished);
        assert_eq!(drive.data(), part(count, OTHER));
    }
}

#[test]
fn a_refused_raise_zeroes_nothing() {
    let mut drive = used(worn(&[], &[]));
    feeding(&mut drive, 1, 5, 512);
    let before = drive.clone();
    for length in [0, 532, 535, 537] {
        let returned = drive.lend(Some(length), &Call::Raise);
        assert_eq!(returned.answer, Answer::Refused(Code::Buffer));
        assert_eq!(drive, before);
    }
    assert_eq!(said(&mut drive, Call::Raise), Answer::Offer(Offer::Act));
    assert_eq!(said(&mut drive, Call::Raise), Answer::Refused(Code::Place));
    assert_eq!(drive.data(), part(512, 0));
}

#[test]
fn other_raises_zero_nothing() {
    for command in [
        &[0, 0, 0, 5, 0, 0][..],
        &[1, 0, 0, 5],
        &[2, 0, 0, 5],
        &[1, 0],
        &[],
    ] {
        let mut drive = used(worn(&[], &[]));
        said(&mut drive, Call::Raise);
        assert_eq!(drive.data(), part(0, OTHER));
        said(&mut drive, Call::Lower(0x55));
        said(&mut drive, Call::Feed(command.to_vec()));
        said(&mut drive, Call::Raise);
        assert!(matches!(drive.record.phase, Phase::Offered(_)));
        assert_eq!(drive.data(), part(0, OTHER));
    }
}

#[test]
fn all_pieces_count() {
    for (pieces, count) in [
        (&[0][..], 0),
        (&[1, 0, 510], 511),
        (&[266, 265], 531),
        (&[266, 265, 0], 531),
        (&[531, 1], 532),
        (&[531, 2], 533),
        (&[512, 600, 1], 533),
    ] {
        let mut drive = used(worn(&[], &[]));
        feeding(&mut drive, 1, RAM, 0);
        for &piece in pieces {
            said(&mut drive, Call::Feed(vec![7; piece]));
        }
        assert_eq!(drive.data(), part(count, OTHER));
        said(&mut drive, Call::Raise);
        assert_eq!(drive.data(), part(count, 0));
        assert_eq!(drive.record.data_count, count);
    }
}

#[test]
fn a_verify_compares_with_the_zeros() {
    let mut drive = used(worn(&[], &[]));
    assert_eq!(write(&mut drive, 2, 5, &[7; 512]), write_of(5));
    assert_eq!(surface(&mut drive, 0, &[]), read_of(5));
    // The other job's bytes behind the 512 are not what was written.
    assert_eq!(surface(&mut drive, 0, &part(512, OTHER)), write_of(5));
    assert_eq!(drive.data(), part(512, 0));
    assert_eq!(surface(&mut drive, 0, &[]), read_of(5));
    // The rereads of the trial compare with them too.
    let wrong = [part(512, OTHER), part(512, 1)];
    for bytes in wrong.iter().cycle().take(30) {
        assert_eq!(surface(&mut drive, 0, bytes), read_of(5));
    }
    for _ in 0..69 {
        assert_eq!(surface(&mut drive, 0, &part(512, 0)), read_of(5));
    }
    let mut failed = drive.clone();
    assert_eq!(surface(&mut failed, 0, &wrong[0]), write_of(4928));
    assert_eq!(surface(&mut drive, 0, &part(512, 0)), Answer::Finished);
    assert_eq!(drive.status(), [0x08, 0, 0, 0]);
    assert_eq!(drive.data(), part(512, 0));
}
