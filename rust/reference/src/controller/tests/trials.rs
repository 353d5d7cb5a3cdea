//! Trials of sectors (document 02, request 4).

use super::*;

/// Makes so many good rereads.
fn good(drive: &mut Drive, count: usize) -> Answer {
    reads(drive, &"g".repeat(count))
}

/// The write awaited is done, so many rereads time out, and the others are good.
fn trial(drive: &mut Drive, failures: usize) -> Answer {
    surface(drive, 0, &[]);
    reads(drive, &("t".repeat(failures) + &"g".repeat(100 - failures)))
}

/// Where a trial can begin, each on block 5 at its home.
fn beginnings() -> Vec<(&'static str, Drive)> {
    let mut listed = vec![];
    for (name, opcode) in [("bad, 01", 1), ("bad, 02", 2)] {
        let mut drive = worn(&[], &[5]);
        assert_eq!(write(&mut drive, opcode, 5, &GOOD), write_of(5));
        listed.push((name, drive));
    }
    let mut read = worn(&[], &[]);
    command(&mut read, 5, 0, 0);
    assert_eq!(reads(&mut read, "tg"), write_of(5));
    let mut verify = worn(&[], &[]);
    assert_eq!(write(&mut verify, 2, 5, &GOOD), write_of(5));
    assert_eq!(surface(&mut verify, 0, &[]), read_of(5));
    assert_eq!(reads(&mut verify, "t"), write_of(5));
    [listed, vec![("read", read), ("verify", verify)]].concat()
}

#[test]
fn thirty_failures_pass_and_thirty_one_do_not() {
    for (name, begun) in beginnings() {
        for failures in [0, 1, 29, 30] {
            let mut drive = begun.clone();
            // A block that leaves the bad list is stored.
            match begun.record.bads.is_empty() {
                true => assert_eq!(trial(&mut drive, failures), Answer::Finished, "{name}"),
                false => {
                    assert_eq!(trial(&mut drive, failures), Answer::Store, "{name}");
                    store_done(&mut drive);
                }
            }
            assert_eq!(drive.status()[0] & !0x04, 0, "{name}");
            assert_eq!(drive.record.spares, [0; 0]);
            assert_eq!(drive.record.bads, [0; 0]);
            assert_eq!(drive.data(), GOOD);
        }
        for failures in [31, 32, 99, 100] {
            let mut drive = begun.clone();
            assert_eq!(trial(&mut drive, failures), write_of(4928), "{name}");
            assert_eq!(drive.record.table(), begun.record.table());
            assert_eq!(trial(&mut drive, 30), Answer::Store);
            store_done(&mut drive);
            assert_eq!(drive.status(), [0x04, 0x04, 0, 0]);
            assert_eq!(drive.record.spares, [5]);
            assert_eq!(drive.record.bads, [0; 0]);
        }
    }
}

#[test]
fn every_kind_of_failure_costs_one() {
    let other = |drive: &mut Drive| surface(drive, 0, &[0x5A; 532]);
    let crc = |drive: &mut Drive| surface(drive, 1, &GOOD);
    let timeout = |drive: &mut Drive| surface(drive, 2, &[]);
    type Fails = fn(&mut Drive) -> Answer;
    for (fails, one) in [(other as Fails, 0x08), (crc, 0x08), (timeout, 0x04)] {
        for (failures, last) in [(30, Answer::Store), (31, write_of(4928))] {
            let mut drive = worn(&[], &[5]);
            write(&mut drive, 2, 5, &GOOD);
            surface(&mut drive, 0, &[]);
            assert_eq!(good(&mut drive, 100 - failures), read_of(5));
            for _ in 1..failures {
                assert_eq!(fails(&mut drive), read_of(5));
            }
            assert_eq!(fails(&mut drive), last);
            assert_eq!(drive.data(), GOOD);
            if last == Answer::Store {
                store_done(&mut drive);
                assert_eq!(drive.status(), [one, 0, 0, 0]);
            }
        }
    }
}

#[test]
fn the_first_verify_is_none_of_the_hundred() {
    for first in ["c", "t"] {
        let mut drive = worn(&[], &[]);
        write(&mut drive, 2, 5, &GOOD);
        surface(&mut drive, 0, &[]);
        assert_eq!(reads(&mut drive, first), write_of(5));
        assert_eq!(surface(&mut drive, 0, &[]), read_of(5));
        // Its failure is none of the 31 either.
        assert_eq!(reads(&mut drive, &first.repeat(30)), read_of(5));
        assert_eq!(good(&mut drive, 69), read_of(5));
        assert_eq!(good(&mut drive, 1), Answer::Finished);
        assert!(!drive.record.changed);
    }
    // Verified at once, there is no trial.
    let mut drive = worn(&[], &[]);
    write(&mut drive, 2, 5, &GOOD);
    surface(&mut drive, 0, &[]);
    assert_eq!(good(&mut drive, 1), Answer::Finished);
    assert_eq!(drive.status(), [0; 4]);
}

#[test]
fn a_spare_dies_at_the_hundredth_answer() {
    let mut drive = worn(&[], &[5]);
    write(&mut drive, 1, 5, &GOOD);
    assert_eq!(surface(&mut drive, 2, &[]), write_of(4928));
    assert_eq!(surface(&mut drive, 0, &[]), read_of(4928));
    assert_eq!(reads(&mut drive, &"c".repeat(99)), read_of(4928));
    assert_eq!(drive.record.spares, [0; 0]);
    assert!(!drive.record.changed);
    assert_eq!(good(&mut drive, 1), write_of(4929));
    assert_eq!(drive.record.spares, [DEAD]);
    // One with 1 to 30 failures is live.
    assert_eq!(trial(&mut drive, 1), Answer::Store);
    store_done(&mut drive);
    assert_eq!(drive.record.spares, [DEAD, 5]);
    assert_eq!(drive.status(), [0x0C, 0x04, 0, 0]);
    // The block is then read at its spare.
    assert_eq!(command(&mut drive, 5, 0, 0), read_of(4929));
}

#[test]
fn a_timeout_on_a_write_goes_straight_to_the_next_spare() {
    for (opcode, bads) in [(1, vec![]), (2, vec![]), (1, vec![6, 5, 7]), (2, vec![5])] {
        let mut drive = worn(&[], &bads);
        assert_eq!(write(&mut drive, opcode, 5, &GOOD), write_of(5));
        assert_eq!(surface(&mut drive, 2, &[]), write_of(4928));
        assert_eq!(surface(&mut drive, 2, &[]), write_of(4929));
        assert_eq!(drive.record.spares, [DEAD]);
        assert_eq!(trial(&mut drive, 0), Answer::Store);
        store_done(&mut drive);
        assert_eq!(drive.status(), [0x04, 0x04, 0, 0]);
        assert_eq!(drive.record.spares, [DEAD, 5]);
        let left: Vec<u32> = bads.into_iter().filter(|&bad| bad != 5).collect();
        assert_eq!(drive.record.bads, left);
    }
    // CRC errors on the spare join the timeout.
    let mut drive = worn(&[], &[]);
    write(&mut drive, 1, 5, &GOOD);
    surface(&mut drive, 2, &[]);
    surface(&mut drive, 0, &[]);
    reads(&mut drive, &"c".repeat(30));
    assert_eq!(good(&mut drive, 70), Answer::Store);
    store_done(&mut drive);
    assert_eq!(drive.status(), [0x0C, 0x04, 0, 0]);
}

#[test]
fn a_trial_after_a_first_verify_writes_again() {
    let mut drive = worn(&[], &[]);
    write(&mut drive, 2, 5, &GOOD);
    surface(&mut drive, 0, &[]);
    assert_eq!(surface(&mut drive, 0, &[1; 532]), write_of(5));
    assert_eq!(surface(&mut drive, 2, &[]), write_of(4928));
    assert_eq!(drive.record.spares, [0; 0]);
    assert_eq!(trial(&mut drive, 0), Answer::Store);
    store_done(&mut drive);
    assert_eq!(drive.status(), [0x0C, 0x04, 0, 0]);
}

#[test]
fn a_moved_block_moves_on() {
    for opcode in [1, 2] {
        let mut drive = worn(&[8, 5], &[]);
        assert_eq!(write(&mut drive, opcode, 5, &GOOD), write_of(4929));
        assert_eq!(surface(&mut drive, 2, &[]), write_of(4930));
        assert_eq!(drive.record.spares, [8, 5]);
        assert_eq!(surface(&mut drive, 0, &[]), read_of(4930));
        assert_eq!(good(&mut drive, 99), read_of(4930));
        assert_eq!(drive.record.spares, [8, 5]);
        assert_eq!(good(&mut drive, 1), Answer::Store);
        store_done(&mut drive);
        assert_eq!(drive.status(), [0x04, 0x04, 0, 0]);
        assert_eq!(drive.record.spares, [8, DEAD, 5]);
    }
}

#[test]
fn no_spare_unused() {
    let mut spares = [DEAD; 32];
    spares[31] = 5;
    for opcode in [1, 2] {
        let mut drive = worn(&spares, &[]);
        assert_eq!(write(&mut drive, opcode, 5, &GOOD), write_of(4959));
        assert_eq!(surface(&mut drive, 2, &[]), Answer::Finished);
        assert_eq!(drive.status(), [0x05, 0x40, 0, 0]);
        assert_eq!(drive.record.spares, spares);
        assert!(!drive.record.changed);
    }
    // A plain write whose last spare dies with CRC errors met.
    let mut drive = worn(&[DEAD; 31], &[]);
    write(&mut drive, 1, 5, &GOOD);
    assert_eq!(surface(&mut drive, 2, &[]), write_of(4959));
    surface(&mut drive, 0, &[]);
    reads(&mut drive, &"c".repeat(31));
    assert_eq!(good(&mut drive, 69), Answer::Store);
    assert!(drive.record.changed);
    store_done(&mut drive);
    assert_eq!(drive.status(), [0x0D, 0x40, 0, 0]);
    assert_eq!(drive.record.spares, [DEAD; 32]);
}

#[test]
fn answer_3_kills_the_spare_under_trial_alone() {
    // In the write of a trial, its first reread, one in the middle, and its last.
    for rereads in [None, Some(0), Some(50), Some(99)] {
        let up_to = |drive: &mut Drive| {
            if let Some(count) = rereads {
                surface(drive, 0, &[]);
                good(drive, count);
            }
        };
        // On the present spare: its entry stays.
        let mut drive = worn(&[8], &[8]);
        write(&mut drive, 2, 8, &GOOD);
        up_to(&mut drive);
        assert_eq!(surface(&mut drive, 3, &[]), Answer::Finished);
        assert_eq!(drive.status(), [0x11, 0, 0, 0]);
        assert_eq!(drive.record.spares, [8]);
        assert_eq!(drive.record.bads, [8]);
        assert!(!drive.record.changed);

        let mut drive = worn(&[DEAD; 31], &[]);
        write(&mut drive, 1, 8, &GOOD);
        assert_eq!(surface(&mut drive, 2, &[]), write_of(4959));
        up_to(&mut drive);
        assert_eq!(surface(&mut drive, 3, &[]), Answer::Finished);
        assert_eq!(drive.status(), [0x15, 0, 0, 0]);
        assert_eq!(drive.record.spares, [DEAD; 32]);
        assert!(drive.record.changed && drive.record.latch);
    }
    // The first verify is on no spare under trial.
    let mut drive = worn(&[8], &[]);
    write(&mut drive, 2, 8, &GOOD);
    surface(&mut drive, 0, &[]);
    assert_eq!(surface(&mut drive, 3, &[]), Answer::Finished);
    assert_eq!(drive.status(), [0x11, 0, 0, 0]);
    assert_eq!(drive.record.spares, [8]);
}

/// Answers every access that follows until the command finishes; gives how many
/// there were. Writes are done, and no reread is good.
fn hopeless(drive: &mut Drive) -> usize {
    let mut accesses = 0;
    loop {
        accesses += 1;
        let answer = match drive.record.phase.awaited() {
            Some(Awaited::Write) => surface(drive, 0, &[]),
            _ => surface(drive, 1, &GOOD),
        };
        if answer == Answer::Finished {
            return accesses;
        }
    }
}

#[test]
fn the_longest_read() {
    let mut drive = worn(&[], &[]);
    command(&mut drive, 5, 255, 255);
    // 1 + 255 + 89 failures, then a good one, then no trial passes.
    assert_eq!(reads(&mut drive, &"c".repeat(345)), read_of(5));
    assert_eq!(reads(&mut drive, "g"), write_of(5));
    assert_eq!(346 + hopeless(&mut drive), 3680);
    assert_eq!(drive.status(), [0x09, 0x40, 0, 255]);
    assert_eq!(drive.data(), GOOD);
    assert_eq!(drive.record.spares, [DEAD; 32]);
}

#[test]
fn the_longest_writes() {
    for (opcode, bads, longest) in [
        (1, vec![], 1 + 32 * 101 + 1),
        (1, vec![5], 33 * 101 + 1),
        (2, vec![], 2 + 33 * 101 + 1),
        (2, vec![5], 33 * 101 + 1),
    ] {
        let mut drive = worn(&[], &bads);
        write(&mut drive, opcode, 5, &GOOD);
        let mut accesses = 0;
        if opcode == 1 && bads.is_empty() {
            // Only its timeout goes on.
            surface(&mut drive, 2, &[]);
            accesses += 1;
        }
        assert_eq!(accesses + hopeless(&mut drive), longest);
        assert_eq!(drive.status()[1..], [0x40, 0, 0]);
        assert_eq!(drive.record.bads, bads);
    }
}

/// A record past the last reread, which no call returned: the next answer ends the
/// trial.
#[test]
fn a_hundred_rereads_made_and_one_awaited() {
    for (failures, answer, bytes, last) in [
        (30, 0, &GOOD[..], Answer::Finished),
        (30, 2, &[], write_of(4928)),
        (31, 0, &GOOD, write_of(4928)),
        (100, 2, &[], write_of(4928)),
    ] {
        let rereads = Rereads {
            made: 100,
            failures,
        };
        let mut drive = Drive {
            record: trying(JOB, Place::Present(5), Awaits::Reread(rereads)),
            buffer: vec![0xA5; 536],
        };
        assert_eq!(surface(&mut drive, answer, bytes), last);
    }
}
