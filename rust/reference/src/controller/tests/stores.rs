//! Stores at the end of commands, the two marks, and the latch (document 02,
//! request 7).

use super::*;

/// An ending of a command for block 5.
struct Ending {
    words: &'static str,
    spares: &'static [u32],
    bads: &'static [u32],
    /// Makes the command, up to its store if there is one.
    end: fn(&mut Drive) -> Answer,
    /// The first two status bytes and E when the store is done.
    status: (u8, u8, u8),
    /// The command itself changes the table.
    changes: bool,
}

const FULL: &[u32] = &[DEAD; 32];

fn good(drive: &mut Drive, count: usize) -> Answer {
    reads(drive, &"g".repeat(count))
}

/// The ending that changes nothing.
const PLAIN: Ending = Ending {
    words: "a first good read",
    spares: &[],
    bads: &[],
    end: |drive| {
        command(drive, 5, 3, 0);
        good(drive, 1)
    },
    status: (0, 0, 0),
    changes: false,
};

/// All endings.
const ENDINGS: [Ending; 11] = [
    Ending {
        words: "a late good read below its threshold",
        end: |drive| {
            command(drive, 5, 2, 2);
            reads(drive, "ctg")
        },
        status: (0x0C, 0, 1),
        ..PLAIN
    },
    Ending {
        words: "a plain write",
        end: |drive| {
            write(drive, 1, 5, &GOOD);
            surface(drive, 0, &[])
        },
        ..PLAIN
    },
    Ending {
        words: "a write/verify in place",
        end: |drive| {
            write(drive, 2, 5, &GOOD);
            surface(drive, 0, &[]);
            good(drive, 1)
        },
        ..PLAIN
    },
    Ending {
        words: "too much for a write",
        end: |drive| write(drive, 1, 5, &[7; 533]),
        status: (0x41, 0, 0),
        ..PLAIN
    },
    Ending {
        words: "too much for a write/verify",
        end: |drive| write(drive, 2, 5, &[7; 600]),
        status: (0x41, 0, 0),
        ..PLAIN
    },
    Ending {
        words: "entered in the bad list",
        end: |drive| {
            command(drive, 5, 0, 1);
            reads(drive, "ttttttttttt")
        },
        status: (0x05, 0, 0),
        changes: true,
        ..PLAIN
    },
    Ending {
        words: "out of the bad list",
        bads: &[5],
        end: |drive| {
            write(drive, 1, 5, &GOOD);
            surface(drive, 0, &[]);
            good(drive, 100)
        },
        changes: true,
        ..PLAIN
    },
    Ending {
        words: "moved",
        end: |drive| {
            command(drive, 5, 1, 1);
            assert_eq!(reads(drive, "ttg"), write_of(5));
            assert_eq!(surface(drive, 2, &[]), write_of(4928));
            surface(drive, 0, &[]);
            good(drive, 100)
        },
        status: (0x04, 0x04, 1),
        changes: true,
        ..PLAIN
    },
    Ending {
        words: "no spare",
        spares: FULL,
        end: |drive| {
            write(drive, 1, 5, &GOOD);
            surface(drive, 2, &[])
        },
        status: (0x05, 0x40, 0),
        ..PLAIN
    },
    Ending {
        words: "the last spare died",
        spares: &[DEAD; 31],
        end: |drive| {
            write(drive, 2, 5, &GOOD);
            surface(drive, 2, &[]);
            surface(drive, 2, &[])
        },
        status: (0x05, 0x40, 0),
        changes: true,
        ..PLAIN
    },
    PLAIN,
];

/// What a store's answer adds to status 1.
const ANSWERS: [(u8, u8); 3] = [(0, 0), (2, 0x05), (3, 0x11)];

/// Makes a drive with the unstored mark set by an earlier command, whose store timed
/// out.
fn marked(spares: &[u32], bads: &[u32]) -> Drive {
    let mut drive = worn(spares, bads);
    command(&mut drive, 70, 0, 1);
    assert_eq!(reads(&mut drive, "ttttttttttt"), Answer::Store);
    assert_eq!(surface(&mut drive, 2, &[]), Answer::Finished);
    assert_eq!(drive.status(), [0x05, 0, 0, 0]);
    assert!(drive.record.changed && !drive.record.placed);
    drive
}

/// Makes a drive with block 9 moved to spare 0, the store answered so.
fn moved(answer: u8) -> Drive {
    let mut drive = worn(&[], &[]);
    write(&mut drive, 1, 9, &GOOD);
    surface(&mut drive, 2, &[]);
    surface(&mut drive, 0, &[]);
    assert_eq!(good(&mut drive, 100), Answer::Store);
    assert!(drive.record.changed && drive.record.placed);
    assert_eq!(surface(&mut drive, answer, &[]), Answer::Finished);
    drive
}

/// Makes the latch by a read of another block.
fn latch(drive: &mut Drive) {
    command(drive, 80, 0, 1);
    assert_eq!(reads(drive, "n"), Answer::Finished);
    assert!(drive.record.latch);
}

#[test]
fn every_ending_stores_what_is_unstored() {
    for ending in ENDINGS {
        for (answer, bits) in ANSWERS {
            let words = ending.words;
            let mut drive = marked(ending.spares, ending.bads);
            let run = drive.record.run;
            assert_eq!((ending.end)(&mut drive), Answer::Store, "{words}");
            assert_eq!(drive.record.run, run + 1, "{words}");
            // The status bytes are those from before.
            assert_eq!(drive.status(), [0x05, 0, 0, 0], "{words}");
            let part = drive.data().to_vec();
            assert_eq!(surface(&mut drive, answer, &[]), Answer::Finished);
            let (one, two, errors) = ending.status;
            assert_eq!(drive.status(), [one | bits, two, 0, errors], "{words}");
            assert_eq!(drive.data(), part, "{words}");
            assert_eq!(drive.record.changed, answer != 0, "{words}");
            assert_eq!(drive.record.latch, answer == 3, "{words}");
            assert_eq!(drive.record.phase, Phase::Idle);
        }
    }
}

#[test]
fn with_nothing_unstored_there_is_no_store() {
    for ending in ENDINGS {
        let words = ending.words;
        let mut drive = worn(ending.spares, ending.bads);
        let answer = (ending.end)(&mut drive);
        let wanted = match ending.changes {
            true => Answer::Store,
            false => Answer::Finished,
        };
        assert_eq!(answer, wanted, "{words}");
        assert_eq!(drive.record.run, u32::from(ending.changes), "{words}");
    }
}

#[test]
fn a_move_whose_store_is_not_done_stays() {
    for (answer, bits) in ANSWERS {
        let mut drive = moved(answer);
        assert_eq!(drive.status(), [0x04 | bits, 0x04, 0, 0]);
        assert_eq!(drive.record.spares, [9]);
        assert_eq!(drive.record.placed, answer != 0);
        assert_eq!(command(&mut drive, 9, 0, 0), read_of(4928));
    }
}

#[test]
fn the_next_block_makes_up_for_a_store() {
    let mut drive = moved(2);
    for (answer, status) in [(2, [0x05, 0, 0, 0]), (0, [0; 4])] {
        command(&mut drive, 5, 0, 1);
        assert_eq!(good(&mut drive, 1), Answer::Store);
        assert_eq!(surface(&mut drive, answer, &[]), Answer::Finished);
        assert_eq!(drive.status(), status);
        assert_eq!(drive.data(), GOOD);
    }
    assert!(!drive.record.changed && !drive.record.placed);
    assert_eq!(drive.record.run, 3);
    command(&mut drive, 5, 0, 1);
    assert_eq!(good(&mut drive, 1), Answer::Finished);
}

#[test]
fn a_raise_offers_01_at_once() {
    let mut drive = marked(&[], &[]);
    for _ in 0..2 {
        assert_eq!(said(&mut drive, Call::Raise), Answer::Offer(Offer::Command));
        assert_eq!(said(&mut drive, Call::Lower(0)), Answer::Finished);
        assert_eq!(drive.status(), [0x80, 0, 0, 0]);
    }
    // A reset keeps the marks, and so does a command that is broken off.
    said(&mut drive, Call::Reset);
    fed(&mut drive, &[1, 0, 0, 5]);
    said(&mut drive, Call::Feed(vec![7; 532]));
    said(&mut drive, Call::Raise);
    assert_eq!(said(&mut drive, Call::Lower(0x54)), Answer::Finished);
    assert!(drive.record.changed);
    assert_eq!(drive.record.run, 1);
}

#[test]
fn numbers_of_no_block_store_nothing() {
    let mut drive = marked(&[], &[]);
    for (number, status) in [
        (0xFF_FFFE, [0; 4]),
        (0xFF_FFFF, [0; 4]),
        (0xFF_FFFD, [0; 4]),
        (9728, [0x01, 0, 0x40, 0]),
        (0x00_FFFE, [0x01, 0, 0x40, 0]),
    ] {
        assert_eq!(command(&mut drive, number, 0, 0), Answer::Finished);
        assert_eq!(drive.status(), status);
    }
    for opcode in [1, 2] {
        for (number, count, status) in [
            (0xFF_FFFE, 532, [0; 4]),
            (0xFF_FFFE, 533, [0x41, 0, 0, 0]),
            (0xFF_FFFF, 532, [0x01, 0, 0x40, 0]),
            (9728, 532, [0x01, 0, 0x40, 0]),
            (9728, 533, [0x41, 0, 0, 0]),
        ] {
            let data = vec![7; count];
            let answer = write(&mut drive, opcode, number, &data);
            assert_eq!(answer, Answer::Finished);
            assert_eq!(drive.status(), status);
        }
    }
    assert!(drive.record.changed);
    assert_eq!(drive.record.run, 1);
}

#[test]
fn a_command_that_latched_stores_nothing() {
    let mut drive = marked(&[], &[]);
    latch(&mut drive);
    assert_eq!(drive.status(), [0x11, 0, 0, 0]);
    assert!(drive.record.changed);
    // A spare that died by it is unstored too, and hinders no good read.
    let mut drive = worn(&[], &[]);
    write(&mut drive, 1, 5, &GOOD);
    surface(&mut drive, 2, &[]);
    assert_eq!(surface(&mut drive, 3, &[]), Answer::Finished);
    assert_eq!(drive.status(), [0x15, 0, 0, 0]);
    assert!(drive.record.changed && !drive.record.placed);
    command(&mut drive, 5, 0, 0);
    assert_eq!(good(&mut drive, 1), Answer::Finished);
    assert_eq!(drive.status(), [0; 4]);
}

#[test]
fn under_the_latch_other_changes_hinder_nothing() {
    let mut drive = marked(&[], &[6]);
    latch(&mut drive);
    command(&mut drive, 5, 0, 0);
    assert_eq!(good(&mut drive, 1), Answer::Finished);
    assert_eq!(drive.status(), [0; 4]);
    command(&mut drive, 71, 0, 1);
    assert_eq!(reads(&mut drive, "ttttttttttt"), Answer::Finished);
    assert_eq!(drive.status(), [0x05, 0, 0, 0]);
    command(&mut drive, 5, 0, 0);
    assert_eq!(good(&mut drive, 1), Answer::Finished);
    assert_eq!(drive.status(), [0; 4]);
    assert_eq!(drive.record.run, 1);
}

#[test]
fn under_the_latch_an_unstored_place_fails_every_block() {
    // The latch comes by the store itself, or by a read after it.
    for by_store in [true, false] {
        let mut drive = moved(if by_store { 3 } else { 2 });
        if !by_store {
            latch(&mut drive);
        }
        for block in [5, 9] {
            command(&mut drive, block, 0, 0);
            assert_eq!(good(&mut drive, 1), Answer::Finished);
            assert_eq!(drive.status(), [0x01, 0, 0, 0]);
        }
        command(&mut drive, 5, 1, 1);
        assert_eq!(reads(&mut drive, "cg"), Answer::Finished);
        assert_eq!(drive.status(), [0x09, 0, 0, 0]);
        // Those that fail anyway show nothing more.
        assert_eq!(write(&mut drive, 1, 5, &GOOD), Answer::Finished);
        assert_eq!(drive.status(), [0x11, 0, 0, 0]);
        assert_eq!(write(&mut drive, 2, 5, &[7; 533]), Answer::Finished);
        assert_eq!(drive.status(), [0x41, 0, 0, 0]);
        // Numbers of no block are as ever.
        for number in [0xFF_FFFE, 0xFF_FFFF, 0xFF_FFFD] {
            assert_eq!(command(&mut drive, number, 0, 0), Answer::Finished);
            assert_eq!(drive.status(), [0; 4]);
        }
        // A reset does not help, and a start does.
        said(&mut drive, Call::Reset);
        command(&mut drive, 5, 0, 0);
        good(&mut drive, 1);
        assert_eq!(drive.status(), [0x01, 0, 0x80, 0]);
        said(&mut drive, Call::Start);
        let image = Draft::new(&[], &[]).bytes();
        assert_eq!(surface(&mut drive, 0, &image), Answer::Wait);
        assert!(!drive.record.changed && !drive.record.placed);
        assert_eq!(command(&mut drive, 9, 0, 0), read_of(9));
        assert_eq!(good(&mut drive, 1), Answer::Finished);
        assert_eq!(drive.status(), [0, 0, 0x80, 0]);
    }
}

#[test]
fn a_stored_place_hinders_nothing() {
    let mut drive = moved(0);
    // A bad entry is unstored, and the place is not.
    command(&mut drive, 71, 0, 1);
    reads(&mut drive, "ttttttttttt");
    assert_eq!(surface(&mut drive, 3, &[]), Answer::Finished);
    assert_eq!(drive.status(), [0x15, 0, 0, 0]);
    command(&mut drive, 9, 0, 0);
    assert_eq!(good(&mut drive, 1), Answer::Finished);
    assert_eq!(drive.status(), [0; 4]);
}

#[test]
fn no_table_no_store() {
    // Marks of a record that no call returned.
    let record = Record {
        changed: true,
        placed: true,
        phase: Phase::Offered(Offer::Act),
        command: vec![1, 0, 0, 5],
        ..Record::new()
    };
    for (data_count, status) in [(0, [0x41, 0x08, 0, 0]), (533, [0x41, 0, 0, 0])] {
        for latch in [false, true] {
            let record = Record {
                data_count,
                latch,
                ..record.clone()
            };
            let mut drive = Drive {
                record,
                buffer: vec![0; 536],
            };
            assert_eq!(said(&mut drive, Call::Lower(0x55)), Answer::Finished);
            assert_eq!(drive.status(), status);
        }
    }
}

#[test]
fn bit_7_is_shown_at_the_finish_behind_the_store() {
    let mut drive = started(&[], &[]);
    command(&mut drive, 5, 0, 1);
    assert_eq!(reads(&mut drive, "ttttttttttt"), Answer::Store);
    assert!(drive.record.fresh);
    assert_eq!(drive.status(), [0; 4]);
    assert_eq!(surface(&mut drive, 2, &[]), Answer::Finished);
    assert_eq!(drive.status(), [0x05, 0, 0x80, 0]);
    assert!(!drive.record.fresh);
}

#[test]
fn calls_while_the_store_is_awaited() {
    let mut drive = started(&[], &[]);
    command(&mut drive, 5, 0, 1);
    assert_eq!(reads(&mut drive, "ttttttttttt"), Answer::Store);
    let before = drive.clone();
    for (call, code) in [
        (Call::Raise, Code::Place),
        (Call::Lower(0x55), Code::Place),
        (Call::Lower(0), Code::Place),
        (Call::Feed(vec![]), Code::Place),
        (Call::Reset, Code::Place),
        (Call::Surface(4, vec![]), Code::Answer),
        (Call::Surface(1, vec![]), Code::Answer),
        (Call::Surface(1, vec![7; 532]), Code::Answer),
        (Call::Surface(0, vec![7; 532]), Code::Bytes),
        (Call::Surface(2, vec![7]), Code::Bytes),
        (Call::Surface(3, vec![7]), Code::Bytes),
    ] {
        assert_eq!(said(&mut drive, call), Answer::Refused(code));
        assert_eq!(drive, before);
    }
    assert_eq!(said(&mut drive, Call::Image), Answer::Wait);
    assert_eq!(drive, before);
    assert_eq!(said(&mut drive, Call::Start), Answer::Read(TABLE));
    let anew = Record {
        fresh: true,
        phase: Phase::Starting { reads: 1 },
        ..Record::new()
    };
    assert_eq!(drive.record, anew);
}

#[test]
fn code_1_and_the_marks() {
    // A store without a table is refused; a place mark alone is not named.
    let storing = Phase::Storing { status: [0; 4] };
    outside(&Record {
        phase: storing,
        ..Record::new()
    });
    for (changed, placed) in [(false, true), (true, true), (false, false)] {
        for phase in [Phase::Idle, storing] {
            inside(&Record {
                changed,
                placed,
                ..with(phase)
            });
        }
    }
}

#[test]
fn the_run_number_goes_up_behind_the_change() {
    let mut drive = moved(2);
    assert_eq!(drive.record.run, 1);
    drive.record.run = u32::MAX;
    command(&mut drive, 5, 0, 0);
    assert_eq!(good(&mut drive, 1), Answer::Store);
    assert_eq!(drive.record.run, u32::MAX);
    let image = drive.call(&Call::Image).image.expect("an image");
    assert_eq!(image[4..8], [0xFF; 4]);
    // The entry is in the image that is stored.
    assert_eq!(image[8..10], [0, 1]);
}
