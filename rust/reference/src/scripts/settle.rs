//! Answer 3 at every kind of access, and the latch afterwards.

use super::bench::Bench;
use super::ways::{reading, writing, BLOCK};
use super::Stored;
use crate::controller::{Answer, Offer};
use crate::geometry::spare;
use crate::image::DEAD;
use crate::surface::Access;

pub fn all() -> Vec<Stored> {
    vec![
        Stored::new("no-settle", no_settle()),
        Stored::new("latch", latch()),
    ]
}

/// What answer 3 finishes with in each way's phase. Those on a spare under trial met
/// a timeout before.
const ENDS: [(&str, [u8; 4]); 10] = [
    ("the first read", [0x11, 0, 0x80, 0]),
    ("a reread", [0x19, 0, 0x80, 0]),
    ("a further read", [0x19, 0, 0x80, 1]),
    ("the first verify", [0x11, 0, 0x80, 0]),
    (
        "a reread of a trial on the present sector",
        [0x11, 0, 0x80, 0],
    ),
    ("a reread of a trial on a spare", [0x15, 0, 0x80, 0]),
    ("a plain write", [0x11, 0, 0x80, 0]),
    ("the first write of a write/verify", [0x11, 0, 0x80, 0]),
    (
        "the write of a trial on the present sector",
        [0x11, 0, 0x80, 0],
    ),
    ("the write of a trial on a spare", [0x15, 0, 0x80, 0]),
];

fn no_settle() -> Bench {
    let mut bench = Bench::new("Answer 3 ends a command, whatever access it answers.");
    let mut ends = 0;
    for way in reading().iter().chain(&writing()) {
        let Some((_, status)) = ENDS.iter().find(|(name, _)| *name == way.name) else {
            continue;
        };
        ends += 1;
        for spares in [vec![], vec![BLOCK, DEAD]] {
            let at = if spares.is_empty() { "home" } else { "spare" };
            bench.note(&format!("{}, the block at its {at}", way.name));
            way.enter_with(&mut bench, &spares);
            ends_here(&mut bench, *status, &spares);
        }
    }
    assert_eq!(ends, ENDS.len());

    bench.note("A reread after a good one.");
    bench.started(&[], &[]);
    bench.read(19, 5, 2);
    bench.timeout();
    bench.good();
    bench.crc(0x92);
    bench.no_settle();
    bench.finished([0x1D, 0, 0x80, 1]);
    assert_eq!(bench.drive.data()[..3], [0, 19, 19]);

    last_spare_dies(&mut bench);
    bench
}

fn last_spare_dies(bench: &mut Bench) {
    bench.note("Spare 31 dies by it: no bit 6.");
    for reread in [false, true] {
        bench.started(&[DEAD; 31], &[]);
        bench.verify(17, &[0x96; 532]);
        bench.timeout();
        bench.said_write(4959);
        if reread {
            bench.good();
        }
        bench.no_settle();
        bench.finished([0x15, 0, 0x80, 0]);
        bench.table_is(&[DEAD; 32], &[]);
    }
}

/// Answer 3 ends the command: a spare under trial dies, and the block keeps its
/// place.
fn ends_here(bench: &mut Bench, status: [u8; 4], spares: &[u32]) {
    let bads = bench.drive.record.bads.clone();
    let mut left = spares.to_vec();
    if let Some(Access::Read(here) | Access::Write(here)) = bench.pending() {
        if here == spare(spares.len()).expect("a spare") {
            left.push(DEAD);
        }
    }
    bench.no_settle();
    bench.finished(status);
    bench.table_is(&left, &bads);
    bench.note("The latch: no write, and no store of what was changed.");
    bench.raise();
    bench.said(Answer::Offer(Offer::Command));
    bench.lower(1);
    bench.write(BLOCK, &[0x91; 532]);
    bench.finished([0x11, 0, 0, 0]);
    bench.read(BLOCK, 0, 1);
    bench.said_read(if spares.is_empty() { BLOCK } else { 4928 });
    bench.good();
    bench.finished([0; 4]);
}

fn latch() -> Bench {
    let mut bench = Bench::new("The latch stays until the next start.");
    bench.started(&[9], &[30, 31]);
    bench.write(17, &[0xA1; 532]);
    bench.said_write(17);
    bench.no_settle();
    bench.finished([0x11, 0, 0x80, 0]);
    bench.raise();
    bench.said(Answer::Offer(Offer::Command));
    bench.lower(0);
    bench.note("Writes to blocks, listed or not, moved or not.");
    for block in [17, 30, 9] {
        bench.write(block, &[0xA2; 532]);
        bench.finished([0x11, 0, 0, 0]);
        bench.verify(block, &[0xA3; 532]);
        bench.finished([0x11, 0, 0, 0]);
    }
    bench.holds(0xA3);
    bench.note("What comes before the latch.");
    for opcode in [1, 2] {
        bench.send(opcode, 17, &[&[0xA4; 600]]);
        bench.finished([0x41, 0, 0, 0]);
        bench.send(opcode, 9728, &[&[0xA5; 532]]);
        bench.finished([0x01, 0, 0x40, 0]);
        bench.send(opcode, 0xFF_FFFE, &[&[0xA6; 532]]);
        bench.finished([0; 4]);
    }
    bench.read(0xFF_FFFE, 0, 0);
    bench.finished([0; 4]);
    bench.holds(0xA6);
    bench.read(0xFF_FFFF, 0, 0);
    bench.finished([0; 4]);
    bench.note("Reads go on, but at their threshold there is no trial.");
    bench.read(17, 3, 2);
    bench.good();
    bench.finished([0; 4]);
    bench.read(17, 2, 2);
    bench.crc(0xA7);
    bench.good();
    bench.timeout();
    bench.finished([0x0C, 0, 0, 1]);
    bench.read(17, 2, 1);
    bench.crc(0xA7);
    bench.good();
    bench.timeout();
    bench.finished([0x1D, 0, 0, 1]);
    assert_eq!(bench.drive.data()[..3], [0, 17, 17]);
    bench.read(9, 0, 0);
    bench.said_read(4928);
    bench.timeout();
    bench.good();
    bench.finished([0x15, 0, 0, 0]);
    bench.note("Bad entries are still made; there is no store of them.");
    bench.read(18, 0, 1);
    for _ in 0..11 {
        bench.timeout();
    }
    bench.finished([0x05, 0, 0, 0]);
    bench.table_is(&[9], &[30, 31, 18]);
    bench.raise();
    bench.said(Answer::Offer(Offer::Command));
    bench.lower(0);
    bench.note("Answer 3 once more.");
    bench.read(18, 0, 1);
    bench.no_settle();
    bench.finished([0x11, 0, 0, 0]);
    bench.table_is(&[9], &[30, 31, 18]);
    bench.reset();
    bench.write(18, &[0xA8; 532]);
    bench.finished([0x11, 0, 0x80, 0]);
    bench.note("A start ends it; the bad entry was never stored.");
    bench.restarted();
    bench.table_is(&[9], &[30, 31]);
    bench.write(18, &[0xA9; 532]);
    bench.said_write(18);
    bench.good();
    bench.finished([0, 0, 0x80, 0]);
    bench
}
