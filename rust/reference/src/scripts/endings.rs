//! Every ending of a command with a block's number, and each answer to the store
//! behind it; the latch with changes that no store will take (document 02,
//! request 7).

use super::bench::{Bench, HEALTH, INVALID, RAM, TABLE_IMAGE, TOO_MUCH};
use super::Stored;
use crate::controller::Answer;
use crate::image::DEAD;
use crate::images::draft_b::DraftB;

pub fn all() -> Vec<Stored> {
    vec![
        Stored::new("stores-done", answered(0)),
        Stored::new("stores-timeout", answered(2)),
        Stored::new("stores-no-settle", answered(3)),
        Stored::new("stores-under-latch", under_latch()),
        Stored::new("stores-place-under-latch", place_under_latch()),
    ]
}

/// What is written.
const DATA: [u8; 532] = [0x71; 532];

/// The block of the endings, one that is moved before, and one that fails to read.
const BLOCK: u32 = 17;
const OTHER: u32 = 18;
const WORN: u32 = 70;

/// An ending of a command for the block.
struct Ending {
    words: &'static str,
    spares: &'static [u32],
    bads: &'static [u32],
    /// The mark is set by the command before, not by this one.
    marked: bool,
    /// Makes the command, up to its store.
    end: fn(&mut Bench),
    /// What it finishes with when the store is done.
    status: [u8; 4],
    /// The block's place is then another.
    moved: bool,
}

const FULL: [u32; 32] = [DEAD; 32];

/// A bad list of 99.
const MANY: [u32; 99] = {
    let mut bads = [0; 99];
    let mut place = 0;
    while place < bads.len() {
        bads[place] = 512 + place as u32;
        place += 1;
    }
    bads
};

/// The ending that changes nothing.
const PLAIN: Ending = Ending {
    words: "A first good read",
    spares: &[],
    bads: &[],
    marked: true,
    end: |bench| {
        bench.read(BLOCK, 3, 0);
        bench.good();
    },
    status: [0; 4],
    moved: false,
};

/// Endings that change nothing themselves: the mark is there before.
const MARKED_BEFORE: [Ending; 10] = [
    PLAIN,
    Ending {
        words: "A late good read below its threshold",
        end: |bench| {
            bench.read(BLOCK, 2, 2);
            bench.crc(0x72);
            bench.timeout();
            bench.good();
        },
        status: [0x0C, 0, 0, 1],
        ..PLAIN
    },
    Ending {
        words: "A plain write",
        end: |bench| {
            bench.write(BLOCK, &DATA);
            bench.good();
        },
        ..PLAIN
    },
    Ending {
        words: "A write/verify in place",
        end: |bench| {
            bench.verify(BLOCK, &DATA);
            bench.good();
            bench.good();
        },
        ..PLAIN
    },
    Ending {
        words: "Too much data for a write",
        end: |bench| {
            bench.send(1, BLOCK, &[&[0x73; 533]]);
        },
        status: TOO_MUCH,
        ..PLAIN
    },
    Ending {
        words: "Too much data for a write/verify",
        end: |bench| {
            bench.send(2, BLOCK, &[&[0x73; 600]]);
        },
        status: TOO_MUCH,
        ..PLAIN
    },
    Ending {
        words: "A failed read of a block that is listed already",
        bads: &[BLOCK],
        end: |bench| never_read(bench, BLOCK),
        status: [0x05, 0, 0, 0],
        ..PLAIN
    },
    Ending {
        words: "A failed read, the bad list full",
        bads: &MANY,
        end: |bench| never_read(bench, BLOCK),
        status: [0x05, 0x10, 0, 0],
        ..PLAIN
    },
    Ending {
        words: "A write with no spare unused",
        spares: &FULL,
        end: |bench| {
            bench.write(BLOCK, &DATA);
            bench.timeout();
        },
        status: [0x05, 0x40, 0, 0],
        ..PLAIN
    },
    Ending {
        words: "A read with no spare unused",
        spares: &FULL,
        end: |bench| {
            read_to_trial(bench);
            bench.timeout();
        },
        status: [0x05, 0x40, 0, 0],
        ..PLAIN
    },
];

/// The ending that is to be marked by the command itself.
const OWN: Ending = Ending {
    marked: false,
    ..PLAIN
};

/// Endings that change the table.
const CHANGING: [Ending; 6] = [
    Ending {
        words: "A failed read that enters its block in the bad list",
        end: |bench| never_read(bench, BLOCK),
        status: [0x05, 0, 0, 0],
        ..OWN
    },
    Ending {
        words: "A write whose block leaves the bad list",
        bads: &[BLOCK],
        end: |bench| {
            bench.write(BLOCK, &DATA);
            bench.trial_passes();
        },
        ..OWN
    },
    Ending {
        words: "A write/verify whose last spare dies",
        spares: &[DEAD; 31],
        end: |bench| {
            bench.verify(BLOCK, &DATA);
            bench.timeout();
            bench.timeout();
        },
        status: [0x05, 0x40, 0, 0],
        ..OWN
    },
    Ending {
        words: "A write that moves its block",
        end: |bench| {
            bench.write(BLOCK, &DATA);
            bench.timeout();
            bench.trial_passes();
        },
        status: [0x04, 0x04, 0, 0],
        moved: true,
        ..OWN
    },
    Ending {
        words: "A write/verify that moves its block",
        end: |bench| {
            bench.verify(BLOCK, &DATA);
            bench.timeout();
            bench.trial_passes();
        },
        status: [0x04, 0x04, 0, 0],
        moved: true,
        ..OWN
    },
    Ending {
        words: "A read that moves its block on to another spare",
        spares: &[BLOCK],
        end: |bench| {
            read_to_trial(bench);
            bench.timeout();
            bench.trial_passes();
        },
        status: [0x04, 0x04, 0, 0],
        moved: true,
        ..OWN
    },
];

/// Makes a read that fails, up to its store or its finish.
fn never_read(bench: &mut Bench, block: u32) {
    bench.read(block, 0, 1);
    for _ in 0..11 {
        bench.timeout();
    }
}

/// Makes a read reach its threshold, up to the write of its trial.
fn read_to_trial(bench: &mut Bench) {
    bench.read(BLOCK, 0, 0);
    bench.timeout();
    bench.good();
}

/// Plays each ending, its store answered so.
fn answered(answer: u8) -> Bench {
    let mut bench = Bench::new(&format!("Every ending, its store answered {answer}."));
    for ending in MARKED_BEFORE.iter().chain(&CHANGING) {
        bench.note(&format!("{}.", ending.words));
        bench.started(ending.spares, ending.bads);
        never_read(&mut bench, WORN);
        if ending.marked {
            bench.timeout();
        } else {
            bench.good();
        }
        bench.finished([0x05, 0, 0x80, 0]);
        (ending.end)(&mut bench);
        ends(&mut bench, ending, answer);
    }
    bench
}

/// Answers the store of an ending so, and shows what comes of it.
fn ends(bench: &mut Bench, ending: &Ending, answer: u8) {
    bench.said(Answer::Store);
    bench.image();
    let mut status = ending.status;
    status[0] |= match answer {
        0 => 0,
        2 => 0x05,
        _ => 0x11,
    };
    bench.surface(answer, &[]);
    bench.finished(status);
    bench.image();
    bench.read(OTHER, 0, 1);
    bench.good();
    match answer {
        0 => bench.finished([0; 4]),
        2 => bench.ended([0; 4]),
        _ => bench.finished([u8::from(ending.moved), 0, 0, 0]),
    }
}

fn under_latch() -> Bench {
    let mut bench = Bench::new("Under the latch, with bad entries and dead spares unstored.");
    bench.started_b(&DraftB::new(8, &[(40, 1)], &[41]));
    bench.note("A bad entry comes first, its store times out, and then the latch comes.");
    never_read(&mut bench, WORN);
    bench.timeout();
    bench.finished([0x05, 0, 0x80, 0]);
    bench.read(BLOCK, 0, 1);
    bench.no_settle();
    bench.finished([0x11, 0, 0, 0]);
    blocks_are_good(&mut bench);
    bench.history_is(9, &[(40, 1)]);
    bench.note("The store itself is answered 3, and a bad entry is made under the latch.");
    bench.restarted();
    never_read(&mut bench, WORN);
    bench.no_settle();
    bench.finished([0x15, 0, 0x80, 0]);
    blocks_are_good(&mut bench);
    never_read(&mut bench, 71);
    bench.finished([0x05, 0, 0, 0]);
    blocks_are_good(&mut bench);
    dead_spares(&mut bench);
    stored_before(&mut bench);
    bench
}

fn dead_spares(bench: &mut Bench) {
    bench.note("A spare is dead by answer 3.");
    bench.restarted();
    bench.write(BLOCK, &DATA);
    bench.timeout();
    bench.no_settle();
    bench.finished([0x15, 0, 0x80, 0]);
    bench.table_is(&[40, DEAD], &[41]);
    blocks_are_good(bench);
    bench.note("Spares are dead by timeouts, and then answer 3 comes.");
    bench.restarted();
    bench.verify(BLOCK, &DATA);
    bench.timeout();
    bench.timeout();
    bench.no_settle();
    bench.finished([0x15, 0, 0x80, 0]);
    bench.table_is(&[40, DEAD, DEAD], &[41]);
    blocks_are_good(bench);
}

/// Shows that reads of blocks are good, and that those that fail fail as ever.
fn blocks_are_good(bench: &mut Bench) {
    for block in [BLOCK, 40, 41] {
        bench.read(block, 0, 0);
        bench.good();
        bench.finished([0; 4]);
    }
    bench.read(BLOCK, 1, 1);
    bench.crc(0x74);
    bench.good();
    bench.finished([0x08, 0, 0, 0]);
    bench.write(BLOCK, &DATA);
    bench.finished([0x11, 0, 0, 0]);
    bench.send(2, BLOCK, &[&[0x75; 533]]);
    bench.finished(TOO_MUCH);
}

fn stored_before(bench: &mut Bench) {
    bench.note("A block's place is stored; what came behind it is not.");
    bench.restarted();
    bench.write(BLOCK, &DATA);
    bench.timeout();
    bench.trial_passes();
    bench.ended([0x04, 0x04, 0x80, 0]);
    never_read(bench, WORN);
    bench.no_settle();
    bench.finished([0x15, 0, 0, 0]);
    blocks_are_good(bench);
}

fn place_under_latch() -> Bench {
    let mut bench = Bench::new("Under the latch, with a block's place unstored.");
    bench.note("The store of the move is answered 3.");
    bench.started(&[40], &[41]);
    moves(&mut bench);
    bench.no_settle();
    bench.finished([0x15, 0x04, 0x80, 0]);
    every_block_fails(&mut bench);
    bench.note("A start ends it: the old table is read, and the old bytes.");
    bench.restarted();
    bench.read(BLOCK, 0, 0);
    bench.said_read(BLOCK);
    bench.good();
    bench.finished([0, 0, 0x80, 0]);
    assert_eq!(bench.drive.data()[..3], [0, 17, 17]);
    bench.note("The store of the move times out, and then the latch comes.");
    moves(&mut bench);
    bench.timeout();
    bench.finished([0x05, 0x04, 0, 0]);
    bench.read(OTHER, 0, 0);
    bench.no_settle();
    bench.finished([0x11, 0, 0, 0]);
    every_block_fails(&mut bench);
    bench.reset();
    bench.read(BLOCK, 0, 0);
    bench.good();
    bench.finished([0x01, 0, 0x80, 0]);
    stored_next(&mut bench);
    bench
}

fn stored_next(bench: &mut Bench) {
    bench.note("The store of the move times out, the next one is done: nothing is unstored.");
    bench.restarted();
    moves(bench);
    bench.timeout();
    bench.finished([0x05, 0x04, 0x80, 0]);
    bench.read(BLOCK, 0, 0);
    bench.good();
    bench.ended([0; 4]);
    bench.read(OTHER, 0, 0);
    bench.no_settle();
    bench.finished([0x11, 0, 0, 0]);
    bench.read(BLOCK, 0, 0);
    bench.said_read(4929);
    bench.good();
    bench.finished([0; 4]);
}

/// Moves the block to spare 1 by a write, up to its store.
fn moves(bench: &mut Bench) {
    bench.write(BLOCK, &DATA);
    bench.timeout();
    bench.said_write(4929);
    bench.trial_passes();
    bench.said(Answer::Store);
}

/// Shows that every command with a block's number fails, and that others do not.
fn every_block_fails(bench: &mut Bench) {
    for (block, sector) in [(BLOCK, 4929), (40, 4928), (41, 41), (9727, 9791)] {
        bench.read(block, 0, 0);
        bench.said_read(sector);
        bench.good();
        bench.finished([0x01, 0, 0, 0]);
    }
    bench.note("With CRC errors and timeouts met; at its threshold; never read.");
    bench.read(BLOCK, 2, 2);
    bench.crc(0x74);
    bench.timeout();
    bench.good();
    bench.finished([0x0D, 0, 0, 1]);
    bench.read(BLOCK, 0, 0);
    bench.timeout();
    bench.good();
    bench.finished([0x15, 0, 0, 0]);
    never_read(bench, 41);
    bench.finished([0x05, 0, 0, 0]);
    bench.note("Writes, and too much data.");
    for opcode in [1, 2] {
        bench.send(opcode, BLOCK, &[&DATA]);
        bench.finished([0x11, 0, 0, 0]);
        bench.send(opcode, BLOCK, &[&[0x75; 533]]);
        bench.finished(TOO_MUCH);
    }
    bench.note("Numbers of no block.");
    for number in [RAM, TABLE_IMAGE, HEALTH] {
        bench.read(number, 0, 0);
        bench.finished([0; 4]);
    }
    bench.read(9728, 0, 0);
    bench.finished(INVALID);
    bench.send(1, RAM, &[&DATA]);
    bench.finished([0; 4]);
}
