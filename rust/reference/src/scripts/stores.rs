//! Stores at the end of commands (document 02, request 7): which commands ask for
//! one, and what its answers do; image calls.

use super::bench::{Bench, HEALTH, INVALID, RAM, TABLE_IMAGE, TOO_MUCH};
use super::ways;
use super::Stored;
use crate::controller::{Answer, Code, Offer, GO_ON};
use crate::image::DEAD;

pub fn all() -> Vec<Stored> {
    vec![
        Stored::new("stores", stores()),
        Stored::new("image-calls", image_calls()),
    ]
}

/// Makes a write/verify of a bad block whose trial passes, up to its store.
fn passed(bench: &mut Bench, block: u32) {
    bench.verify(block, &[0x51; 532]);
    bench.trial_passes();
    bench.said(Answer::Store);
}

/// Makes a read that fails, up to the store or the finish.
fn never_read(bench: &mut Bench, block: u32) {
    bench.read(block, 0, 1);
    for _ in 0..11 {
        bench.timeout();
    }
}

fn stores() -> Bench {
    let mut bench = Bench::new("The store at a command's end, until it is done.");
    bench.started(&[], &[1, 2, 3, 4, 5]);
    bench.note("Verified in place, not in the bad list: no mark, no store.");
    bench.verify(9, &[0x51; 532]);
    bench.good();
    bench.good();
    bench.finished([0, 0, 0x80, 0]);
    bench.note("Removed from the bad list: a store that fails leaves the mark, moves nothing.");
    passed(&mut bench, 3);
    bench.image();
    bench.timeout();
    bench.finished([0x05, 0, 0, 0]);
    bench.table_is(&[], &[1, 2, 4, 5]);
    raises(&mut bench);
    made_up(&mut bench);
    marks(&mut bench);
    bench
}

fn raises(bench: &mut Bench) {
    bench.note("A raise offers 01 at once, in idle and after bytes that are dropped.");
    bench.raise();
    bench.said(Answer::Offer(Offer::Command));
    bench.lower(0);
    bench.finished([0x80, 0, 0, 0]);
    bench.ready();
    bench.feed(&[0, 0, 0]);
    bench.raise();
    bench.said(Answer::Offer(Offer::Command));
    bench.lower(GO_ON);
    bench.feed(&[9; 6]);
    bench.raise();
    bench.said(Answer::Offer(Offer::Command));
    bench.reset();
    bench.note("Numbers of no block store nothing.");
    for (number, status) in [
        (RAM, [0, 0, 0x80, 0]),
        (TABLE_IMAGE, [0; 4]),
        (HEALTH, [0; 4]),
        (9728, INVALID),
        (0xFF_FFFC, INVALID),
    ] {
        bench.read(number, 0, 0);
        bench.finished(status);
    }
    for opcode in [1, 2] {
        bench.send(opcode, RAM, &[&[0x52; 532]]);
        bench.finished([0; 4]);
        bench.send(opcode, RAM, &[&[0x52; 533]]);
        bench.finished(TOO_MUCH);
        bench.send(opcode, TABLE_IMAGE, &[&[0x52; 532]]);
        bench.finished(INVALID);
        bench.send(opcode, 9728, &[&[0x52; 533]]);
        bench.finished(TOO_MUCH);
    }
}

fn made_up(bench: &mut Bench) {
    bench.note("A plain write makes up for it; its own data is good only with the store done.");
    for answer in [2, 0] {
        bench.write(9, &[0x52; 532]);
        bench.said_write(9);
        bench.good();
        bench.said(Answer::Store);
        bench.surface(answer, &[]);
        let failed = if answer == 0 { 0 } else { 0x05 };
        bench.finished([failed, 0, 0, 0]);
    }
    bench.note("Done: no store at the next end, and a start finds the table.");
    bench.write(9, &[0x53; 532]);
    bench.good();
    bench.finished([0; 4]);
    bench.restarted();
    bench.table_is(&[], &[1, 2, 4, 5]);
}

fn marks(bench: &mut Bench) {
    bench.note("A bad entry, a move and dead spares each mark the table.");
    never_read(bench, 70);
    bench.ended([0x05, 0, 0x80, 0]);
    bench.verify(71, &[0x53; 532]);
    bench.timeout();
    bench.said_write(4928);
    bench.trial_passes();
    bench.ended([0x04, 0x04, 0, 0]);
    bench.table_is(&[71], &[1, 2, 4, 5, 70]);
    bench.verify(72, &[0x54; 532]);
    bench.timeout();
    bench.no_settle();
    bench.note("A command that latched stores nothing, and none does under the latch.");
    bench.finished([0x15, 0, 0, 0]);
    bench.table_is(&[71, DEAD], &[1, 2, 4, 5, 70]);
    never_read(bench, 73);
    bench.finished([0x05, 0, 0, 0]);
    bench.table_is(&[71, DEAD], &[1, 2, 4, 5, 70, 73]);
    bench.note("A bad block that is listed already marks nothing.");
    bench.restarted();
    bench.table_is(&[71], &[1, 2, 4, 5, 70]);
    never_read(bench, 70);
    bench.finished([0x05, 0, 0x80, 0]);
    bench.note("A store answered wrongly is still awaited.");
    ways::to_store(bench);
    bench.said(Answer::Store);
    bench.surface(1, &[0; 532]);
    bench.refused(Code::Answer);
    bench.surface(0, &[0; 532]);
    bench.refused(Code::Bytes);
    bench.good();
    bench.finished([0x05, 0, 0x80, 0]);
    bench.note("The store's bytes are the table's, not the buffer's.");
    bench.restarted();
    bench.table_is(&[], &[ways::BLOCK]);
}

fn image_calls() -> Bench {
    let mut bench = Bench::new("Images while the table changes.");
    bench.started(&[4], &[17, 18]);
    bench.image();
    bench.note("In the middle of a move: dead by the write's timeout.");
    bench.verify(17, &[0x55; 532]);
    bench.timeout();
    bench.table_is(&[4], &[17, 18]);
    bench.timeout();
    bench.table_is(&[4, DEAD], &[17, 18]);
    bench.note("Dead by the trial's last answer, not by its 31st failure.");
    bench.said_write(4930);
    bench.good();
    for reread in 0..100 {
        if matches!(reread, 31 | 99) {
            bench.table_is(&[4, DEAD], &[17, 18]);
        }
        bench.timeout();
    }
    bench.said_write(4931);
    bench.table_is(&[4, DEAD, DEAD], &[17, 18]);
    bench.note("Listed and out of the bad list at the last answer of a trial that passes.");
    bench.good();
    bench.good_rereads(99);
    bench.table_is(&[4, DEAD, DEAD], &[17, 18]);
    bench.good();
    bench.said(Answer::Store);
    bench.table_is(&[4, DEAD, DEAD, 17], &[18]);
    bench.good();
    bench.finished([0x04, 0x04, 0x80, 0]);
    bench.table_is(&[4, DEAD, DEAD, 17], &[18]);
    bad_entry(&mut bench);
    bench
}

fn bad_entry(bench: &mut Bench) {
    bench.note("A bad entry, and the same bytes in the data part.");
    bench.read(4, 0, 1);
    bench.said_read(4928);
    for _ in 0..11 {
        bench.image();
        bench.timeout();
    }
    bench.said(Answer::Store);
    bench.image();
    bench.timeout();
    bench.finished([0x05, 0, 0, 0]);
    bench.image();
    bench.read(TABLE_IMAGE, 0, 0);
    bench.table_is(&[4, DEAD, DEAD, 17], &[18, 4]);
}
