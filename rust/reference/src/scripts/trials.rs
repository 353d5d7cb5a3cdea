//! Trials of sectors: every way in which one begins and ends, each kind of failure
//! at the bound of 30, and answer 3 in each of its accesses.

use super::bench::Bench;
use super::Stored;
use crate::controller::Answer;
use crate::image::DEAD;

pub fn all() -> Vec<Stored> {
    let mut all = vec![
        Stored::new("trials-of-reads", of_reads()),
        Stored::new("trials-of-verifies", of_verifies()),
        Stored::new("first-verifies", first_verifies()),
        Stored::new("trials-of-bad-blocks", of_bad_blocks()),
        Stored::new("trials-no-settle", no_settle()),
    ];
    for kind in &KINDS {
        all.push(Stored::new(kind.name, at_the_bound(kind)));
    }
    all
}

/// What is written.
const DATA: [u8; 532] = [0x5A; 532];

/// Bytes that differ from it in their last place only.
const ALMOST: [u8; 532] = {
    let mut bytes = DATA;
    bytes[531] = 0x5B;
    bytes
};

/// A kind of failure: the script of its trials, its words, the surface's answer
/// and bytes, and the bit of status 1 that it sets.
struct Kind {
    name: &'static str,
    words: &'static str,
    answer: u8,
    bytes: &'static [u8],
    bit: u8,
}

const KINDS: [Kind; 4] = [
    Kind {
        name: "trials-by-other-bytes",
        words: "good with other bytes",
        answer: 0,
        bytes: &ALMOST,
        bit: 0x08,
    },
    Kind {
        name: "trials-by-crc-same",
        words: "a CRC error with the same bytes",
        answer: 1,
        bytes: &DATA,
        bit: 0x08,
    },
    Kind {
        name: "trials-by-crc-other",
        words: "a CRC error with other bytes",
        answer: 1,
        bytes: &ALMOST,
        bit: 0x08,
    },
    Kind {
        name: "trials-by-timeout",
        words: "a timeout",
        answer: 2,
        bytes: &[],
        bit: 0x04,
    },
];

impl Kind {
    /// So many rereads fail in this way; the bytes are never kept.
    fn fail(&self, bench: &mut Bench, count: u32) {
        for _ in 0..count {
            bench.surface(self.answer, self.bytes);
            assert_eq!(bench.drive.data(), DATA);
        }
    }
}

/// Trials with 30 and with 31 failures of a kind, on the present sector and on
/// spares: the failures first where they pass, last where they do not.
fn at_the_bound(kind: &Kind) -> Bench {
    let words = kind.words;
    let mut bench = Bench::new(&format!("30 failures pass, 31 do not: each is {words}."));
    bench.started(&[], &[17, 18]);
    bench.note("The present sector passes with 30.");
    bench.verify(17, &DATA);
    bench.good();
    kind.fail(&mut bench, 30);
    bench.good_rereads(70);
    bench.ended([kind.bit, 0, 0x80, 0]);
    bench.table_is(&[], &[18]);
    bench.note("The present sector fails with 31, and so does a spare. The next passes with 30.");
    bench.write(18, &DATA);
    for sector in [18, 4928] {
        bench.said_write(sector);
        bench.good();
        bench.good_rereads(69);
        kind.fail(&mut bench, 30);
        bench.said_read(sector);
        bench.table_is(&[], &[18]);
        kind.fail(&mut bench, 1);
    }
    bench.said_write(4929);
    bench.table_is(&[DEAD], &[18]);
    bench.good();
    kind.fail(&mut bench, 30);
    bench.good_rereads(70);
    bench.ended([kind.bit, 0x04, 0, 0]);
    bench.table_is(&[DEAD, 18], &[]);
    bench
}

/// A read of a block at this sector whose second read is good comes to its trial.
#[track_caller]
fn read_to_trial(bench: &mut Bench, block: u32, sector: u32) {
    bench.read(block, 0, 0);
    bench.said_read(sector);
    bench.timeout();
    bench.good();
    bench.said_write(sector);
}

fn of_reads() -> Bench {
    let mut bench = Bench::new("Reads that reach the threshold: the trial comes at once.");
    bench.started(&[], &[19]);
    bench.note("Passed: 0, 1 and 30 failures leave the block in place, and E is the reads' own.");
    bench.read(17, 2, 1);
    bench.crc(0x11);
    bench.crc(0x12);
    bench.good();
    bench.said_write(17);
    bench.trial(1);
    bench.finished([0x0C, 0, 0x80, 1]);
    assert_eq!(bench.drive.data()[..3], [0, 17, 17]);
    read_to_trial(&mut bench, 17, 17);
    bench.trial(30);
    bench.finished([0x04, 0, 0, 0]);
    bench.table_is(&[], &[19]);
    bench.note("A listed bad block leaves the list.");
    read_to_trial(&mut bench, 19, 19);
    bench.trial_passes();
    bench.ended([0x04, 0, 0, 0]);
    bench.table_is(&[], &[]);
    failed_reads(&mut bench);
    bench
}

fn failed_reads(bench: &mut Bench) {
    bench.note("Failed: the block moves, and all hundred rereads were made.");
    read_to_trial(bench, 18, 18);
    bench.good();
    for _ in 0..31 {
        bench.crc(0x13);
    }
    for _ in 0..69 {
        bench.said_read(18);
        bench.good();
    }
    bench.said_write(4928);
    bench.trial_passes();
    bench.ended([0x0C, 0x04, 0, 0]);
    bench.table_is(&[18], &[]);
    assert_eq!(bench.drive.data()[..3], [0, 18, 18]);
    bench.note("The write spoils the sector: no reread is good, and the spare has the bytes.");
    read_to_trial(bench, 20, 20);
    bench.spoiling();
    for _ in 0..100 {
        bench.timeout();
    }
    bench.said_write(4929);
    bench.trial_passes();
    bench.ended([0x04, 0x04, 0, 0]);
    bench.read(20, 0, 1);
    bench.said_read(4929);
    bench.good();
    bench.finished([0; 4]);
    assert_eq!(bench.drive.data()[..3], [0, 20, 20]);
}

fn of_verifies() -> Bench {
    let mut bench = Bench::new("Write/verifies whose first verify fails get the trial.");
    bench.started(&[], &[]);
    bench.note("Passed: it is written again, and the first verify is none of the hundred.");
    bench.verify(17, &DATA);
    bench.good();
    bench.crc(0x21);
    bench.said_write(17);
    bench.good();
    for _ in 0..30 {
        bench.timeout();
    }
    bench.good_rereads(69);
    bench.said_read(17);
    bench.good();
    bench.finished([0x0C, 0, 0x80, 0]);
    bench.note("Its write spoils the sector, that of the trial does not.");
    bench.verify(17, &DATA);
    bench.spoiling();
    bench.timeout();
    bench.trial_passes();
    bench.finished([0x04, 0, 0, 0]);
    bench.table_is(&[], &[]);
    bench.note("Failed: the block moves.");
    bench.verify(9727, &DATA);
    bench.said_write(9791);
    bench.good();
    bench.said_read(9791);
    bench.crc(0x22);
    bench.said_write(9791);
    bench.trial(31);
    bench.said_write(4928);
    bench.trial(29);
    bench.ended([0x0C, 0x04, 0, 0]);
    bench.table_is(&[9727], &[]);
    bench
}

/// Each answer to the first verify, at the block's home and on its spare.
fn first_verifies() -> Bench {
    let mut bench = Bench::new("Every answer to the first write and the first verify.");
    for spares in [vec![], vec![17]] {
        let sector = if spares.is_empty() { 17 } else { 4928 };
        let next = 4928 + spares.len() as u32;
        bench.note(&format!("At sector {sector}: the write times out."));
        bench.started(&spares, &[]);
        bench.verify(17, &DATA);
        bench.said_write(sector);
        bench.timeout();
        bench.said_write(next);
        bench.note("The same bytes.");
        bench.started(&spares, &[]);
        bench.verify(17, &DATA);
        bench.good();
        bench.said_read(sector);
        bench.good();
        bench.finished([0, 0, 0x80, 0]);
        for kind in &KINDS {
            bench.note(&format!("The verify is {}.", kind.words));
            bench.started(&spares, &[]);
            bench.verify(17, &DATA);
            bench.good();
            bench.said_read(sector);
            kind.fail(&mut bench, 1);
            bench.said_write(sector);
            bench.good();
            bench.said_read(sector);
            bench.table_is(&spares, &[]);
        }
    }
    bench
}

fn of_bad_blocks() -> Bench {
    let mut bench = Bench::new("Any write to a block in the bad list begins with the trial.");
    let bads = [20, 21, 22, 23, 24];
    bench.started(&[24], &bads);
    bench.note("Passed: the block leaves the list, the order kept.");
    for (opcode, block, sector) in [(1, 20, 20), (2, 22, 22), (1, 24, 4928)] {
        bench.send(opcode, block, &[&DATA]);
        bench.said_write(sector);
        bench.trial(opcode.into());
        bench.stored();
        bench.said(Answer::Finished);
        assert_eq!(bench.drive.status()[..2], [0x04, 0]);
    }
    bench.table_is(&[24], &[21, 23]);
    bench.note("Written once more, each is a command like others.");
    bench.write(20, &DATA);
    bench.good();
    bench.finished([0; 4]);
    bench.verify(22, &DATA);
    bench.good();
    bench.good();
    bench.finished([0; 4]);
    bench.note("Failed: the block moves and leaves the list.");
    bench.write(21, &DATA);
    bench.said_write(21);
    bench.trial(32);
    bench.said_write(4929);
    bench.table_is(&[24], &[21, 23]);
    bench.trial_passes();
    bench.ended([0x04, 0x04, 0, 0]);
    bench.table_is(&[24, 21], &[23]);
    bench.verify(23, &DATA);
    bench.said_write(23);
    bench.trial_fails();
    bench.said_write(4930);
    bench.trial_passes();
    bench.ended([0x04, 0x04, 0, 0]);
    bench.table_is(&[24, 21, 23], &[]);
    bench
}

/// Answer 3 in a trial, on the present sector and on a spare.
fn no_settle() -> Bench {
    let mut bench = Bench::new("Answer 3 in a trial, after so many rereads.");
    for (rereads, on_spare) in [
        (0, false),
        (0, true),
        (50, false),
        (50, true),
        (99, false),
        (99, true),
    ] {
        let place = if on_spare {
            "a spare"
        } else {
            "the present sector"
        };
        bench.note(&format!("On {place}, after {rereads} rereads."));
        bench.started(&[4], &[17]);
        bench.write(17, &DATA);
        if on_spare {
            bench.timeout();
        }
        bench.said_write(if on_spare { 4929 } else { 17 });
        bench.good();
        bench.good_rereads(rereads);
        bench.no_settle();
        if on_spare {
            bench.finished([0x15, 0, 0x80, 0]);
            bench.table_is(&[4, DEAD], &[17]);
        } else {
            bench.finished([0x11, 0, 0x80, 0]);
            bench.table_is(&[4], &[17]);
        }
    }
    bench
}
