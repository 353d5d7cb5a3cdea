//! Blocks that move: by a failed trial or a write's timeout, spares that die, moved
//! blocks that move again, and no spare left.

use super::bench::Bench;
use super::Stored;
use crate::controller::{Answer, Offer};
use crate::image::DEAD;

pub fn all() -> Vec<Stored> {
    vec![
        Stored::new("moves", moves()),
        Stored::new("moves-on", moves_on()),
        Stored::new("write-timeouts", write_timeouts()),
        Stored::new("last-spares", last_spares()),
        Stored::new("no-spare", no_spare()),
    ]
}

fn moves() -> Bench {
    let mut bench = Bench::new("Blocks that move, and moved blocks that are written.");
    bench.started(&[], &[]);
    bench.note("A read moves its block: the same bytes, and the sparing bit.");
    bench.read(17, 1, 1);
    bench.crc(0x61);
    bench.crc(0x62);
    bench.said_read(17);
    bench.good();
    bench.said_write(17);
    bench.trial(31);
    bench.said_write(4928);
    bench.trial_passes();
    bench.ended([0x0C, 0x04, 0x80, 1]);
    assert_eq!(bench.drive.data()[..3], [0, 17, 17]);
    bench.table_is(&[17], &[]);
    bench.note("The table was stored; the block is read at its spare.");
    bench.read(17, 0, 1);
    bench.said_read(4928);
    bench.good();
    bench.finished([0; 4]);
    assert_eq!(bench.drive.data()[..3], [0, 17, 17]);
    written_there(&mut bench);
    spares_die(&mut bench);
    bench
}

fn written_there(bench: &mut Bench) {
    bench.note("Written and verified in its spare; a plain write too.");
    bench.verify(17, &[0x64; 532]);
    bench.said_write(4928);
    bench.good();
    bench.said_read(4928);
    bench.good();
    bench.finished([0; 4]);
    bench.write(17, &[0x65; 532]);
    bench.said_write(4928);
    bench.good();
    bench.finished([0; 4]);
    bench.table_is(&[17], &[]);
}

fn spares_die(bench: &mut Bench) {
    bench
        .note("Two spares die: by the write's timeout, and by a trial. The third takes the block.");
    bench.verify(4928, &[0x67; 532]);
    bench.said_write(4992);
    bench.timeout();
    bench.said_write(4929);
    bench.table_is(&[17], &[]);
    bench.timeout();
    bench.said_write(4930);
    bench.table_is(&[17, DEAD], &[]);
    bench.trial(40);
    bench.said_write(4931);
    bench.table_is(&[17, DEAD, DEAD], &[]);
    bench.note("Its trial passes with 12 failures: the spare is live.");
    bench.trial(12);
    bench.ended([0x04, 0x04, 0, 0]);
    bench.table_is(&[17, DEAD, DEAD, 4928], &[]);
    bench.read(4928, 0, 1);
    bench.said_read(4931);
    bench.good();
    bench.finished([0; 4]);
    bench.holds(0x67);
}

fn moves_on() -> Bench {
    let mut bench = Bench::new("Moved blocks that move on: the old spare's entry is dead.");
    bench.started(&[8, 17], &[]);
    bench.note("By a write/verify whose first write times out.");
    bench.verify(17, &[0x66; 532]);
    bench.said_write(4929);
    bench.timeout();
    bench.said_write(4930);
    bench.table_is(&[8, 17], &[]);
    bench.good();
    bench.good_rereads(99);
    bench.table_is(&[8, 17], &[]);
    bench.good();
    bench.ended([0x04, 0x04, 0x80, 0]);
    bench.table_is(&[8, DEAD, 17], &[]);
    bench.note("By a read at its threshold whose trial fails.");
    bench.read(17, 0, 0);
    bench.said_read(4930);
    bench.timeout();
    bench.good();
    bench.said_write(4930);
    bench.trial_fails();
    bench.said_write(4931);
    bench.trial_passes();
    bench.ended([0x04, 0x04, 0, 0]);
    bench.table_is(&[8, DEAD, DEAD, 17], &[]);
    bench.holds(0x66);
    listed_and_back(&mut bench);
    bench
}

fn listed_and_back(bench: &mut Bench) {
    bench.note("A moved block that fails to read is entered in the bad list, and comes back.");
    bench.read(8, 0, 1);
    bench.said_read(4928);
    for _ in 0..11 {
        bench.timeout();
    }
    bench.ended([0x05, 0, 0, 0]);
    bench.table_is(&[8, DEAD, DEAD, 17], &[8]);
    bench.write(8, &[0x6B; 532]);
    bench.said_write(4928);
    bench.trial_fails();
    bench.said_write(4932);
    bench.trial_passes();
    bench.ended([0x04, 0x04, 0, 0]);
    bench.table_is(&[DEAD, DEAD, DEAD, 17, 8], &[]);
    bench.note("A listed moved block that is read, and whose trial passes where it is.");
    bench.started(&[8, 9], &[9]);
    bench.read(9, 0, 0);
    bench.said_read(4929);
    bench.good();
    bench.finished([0, 0, 0x80, 0]);
    bench.verify(9, &[0x6C; 532]);
    bench.said_write(4929);
    bench.trial(1);
    bench.ended([0x04, 0, 0, 0]);
    bench.table_is(&[8, 9], &[]);
    bench.read(0xFF_FFFF, 0, 0);
    bench.image();
}

fn write_timeouts() -> Bench {
    let mut bench = Bench::new("A write that times out goes straight to the next unused spare.");
    bench.started(&[], &[20, 21]);
    bench.note("A plain write: it moves its block, and is good with the timeout shown.");
    bench.write(17, &[0x81; 532]);
    bench.said_write(17);
    bench.timeout();
    bench.said_write(4928);
    bench.trial_passes();
    bench.ended([0x04, 0x04, 0x80, 0]);
    bench.table_is(&[17], &[20, 21]);
    bench.read(17, 0, 1);
    bench.said_read(4928);
    bench.good();
    bench.holds(0x81);
    bench.note("One that meets CRC errors in the trial too, at a block that moves on.");
    bench.write(17, &[0x82; 532]);
    bench.said_write(4928);
    bench.timeout();
    bench.said_write(4929);
    bench.good();
    for _ in 0..30 {
        bench.crc(0x83);
    }
    bench.good_rereads(70);
    bench.ended([0x0C, 0x04, 0, 0]);
    bench.table_is(&[DEAD, 17], &[20, 21]);
    verified_writes(&mut bench);
    writes_of_trials(&mut bench);
    bench
}

fn verified_writes(bench: &mut Bench) {
    bench.note("The first write of a write/verify; the spare's write times out as well.");
    bench.verify(18, &[0x84; 532]);
    bench.said_write(18);
    bench.timeout();
    bench.said_write(4930);
    bench.timeout();
    bench.said_write(4931);
    bench.trial_passes();
    bench.ended([0x04, 0x04, 0, 0]);
    bench.table_is(&[DEAD, 17, DEAD, 18], &[20, 21]);
}

fn writes_of_trials(bench: &mut Bench) {
    bench.note("The write of a trial on the present sector: of a bad block, with 01 and 02.");
    bench.write(20, &[0x85; 532]);
    bench.said_write(20);
    bench.timeout();
    bench.said_write(4932);
    bench.trial_passes();
    bench.ended([0x04, 0x04, 0, 0]);
    bench.table_is(&[DEAD, 17, DEAD, 18, 20], &[21]);
    bench.verify(21, &[0x86; 532]);
    bench.said_write(21);
    bench.timeout();
    bench.said_write(4933);
    bench.trial_passes();
    bench.ended([0x04, 0x04, 0, 0]);
    bench.table_is(&[DEAD, 17, DEAD, 18, 20, 21], &[]);
    bench.note("Of a write/verify whose first verify failed, and of a read.");
    bench.verify(22, &[0x87; 532]);
    bench.good();
    bench.crc(0x87);
    bench.said_write(22);
    bench.timeout();
    bench.said_write(4934);
    bench.start();
    bench.good();
    bench.read(23, 0, 0);
    bench.crc(0x88);
    bench.good();
    bench.said_write(23);
    bench.timeout();
    bench.said_write(4934);
    bench.image();
}

fn last_spares() -> Bench {
    let mut bench = Bench::new("The last spares, and then none unused.");
    let mut spares = vec![DEAD; 29];
    spares[3] = 40;
    bench.started(&spares, &[]);
    bench.verify(41, &[0x71; 532]);
    bench.timeout();
    bench.said_write(4957);
    bench.timeout();
    bench.said_write(4958);
    bench.trial_passes();
    bench.ended([0x04, 0x04, 0x80, 0]);
    spares.extend([DEAD, 41]);
    bench.table_is(&spares, &[]);
    bench.note("The last spare takes a moved block.");
    bench.verify(40, &[0x72; 532]);
    bench.said_write(4931);
    bench.timeout();
    bench.said_write(4959);
    bench.trial_passes();
    bench.ended([0x04, 0x04, 0, 0]);
    spares[3] = DEAD;
    spares.push(40);
    bench.table_is(&spares, &[]);
    none_unused(&mut bench);
    bench.table_is(&spares, &[]);
    bench.raise();
    bench.said(Answer::Offer(Offer::Command));
    bench
}

fn none_unused(bench: &mut Bench) {
    bench.note("A trial that passes in place with no spare unused: no bit 6.");
    bench.verify(40, &[0x73; 532]);
    bench.said_write(4959);
    bench.good();
    bench.timeout();
    bench.said_write(4959);
    bench.trial(30);
    bench.finished([0x04, 0, 0, 0]);
    bench.note("A read that cannot move fails, but its bytes are the block's.");
    bench.read(40, 0, 0);
    bench.timeout();
    bench.good();
    bench.trial(31);
    bench.finished([0x05, 0x40, 0, 0]);
    bench.holds(0x73);
}

fn no_spare() -> Bench {
    let mut bench = Bench::new("No spare is left: status 2 bit 6, and the block keeps its sector.");
    all_used(&mut bench);
    last_two_die(&mut bench);
    last_one_dies(&mut bench);
    bench
}

fn all_used(bench: &mut Bench) {
    let mut spares = vec![DEAD; 32];
    spares[31] = 40;
    bench.started(&spares, &[43]);
    bench.note("A plain write and a write/verify time out: at home, and on the block's spare.");
    bench.write(42, &[0x74; 532]);
    bench.said_write(42);
    bench.timeout();
    bench.finished([0x05, 0x40, 0x80, 0]);
    for opcode in [1, 2] {
        for (block, sector) in [(42, 42), (40, 4959)] {
            bench.send(opcode, block, &[&[0x75; 532]]);
            bench.said_write(sector);
            bench.timeout();
            bench.finished([0x05, 0x40, 0, 0]);
        }
    }
    failed_trials(bench);
    bench.table_is(&spares, &[43]);
    bench.raise();
    bench.said(Answer::Offer(Offer::Command));
    bench.lower(1);
    bench.read(40, 0, 1);
    bench.said_read(4959);
    bench.good();
    bench.finished([0; 4]);
    bench.holds(0x77);
}

fn failed_trials(bench: &mut Bench) {
    bench.note("The write of a bad block's trial times out.");
    bench.write(43, &[0x76; 532]);
    bench.said_write(43);
    bench.timeout();
    bench.finished([0x05, 0x40, 0, 0]);
    bench.note("The trial after a failed first verify fails.");
    bench.verify(40, &[0x77; 532]);
    bench.good();
    bench.crc(0x77);
    bench.trial_fails();
    bench.finished([0x0D, 0x40, 0, 0]);
}

fn last_two_die(bench: &mut Bench) {
    bench.note("The last two spares die: the moved block keeps its spare and its bad entry.");
    let mut spares = vec![DEAD; 30];
    spares[0] = 50;
    bench.started(&spares, &[50]);
    bench.verify(50, &[0x78; 532]);
    bench.said_write(4928);
    bench.trial_fails();
    bench.said_write(4958);
    bench.timeout();
    bench.said_write(4959);
    bench.trial(31);
    bench.ended([0x05, 0x40, 0x80, 0]);
    spares.extend([DEAD; 2]);
    bench.table_is(&spares, &[50]);
    bench.read(50, 0, 1);
    bench.said_read(4928);
    bench.good();
    bench.finished([0; 4]);
}

fn last_one_dies(bench: &mut Bench) {
    bench.note("A plain write whose last spare dies by CRC errors.");
    bench.started(&[DEAD; 31], &[]);
    bench.write(51, &[0x79; 532]);
    bench.timeout();
    bench.said_write(4959);
    bench.good();
    for _ in 0..31 {
        bench.crc(0x79);
    }
    bench.good_rereads(69);
    bench.ended([0x0D, 0x40, 0x80, 0]);
    bench.table_is(&[DEAD; 32], &[]);
    bench.note("And by the timeout of its write.");
    bench.started(&[DEAD; 31], &[]);
    bench.write(51, &[0x7A; 532]);
    bench.timeout();
    bench.said_write(4959);
    bench.timeout();
    bench.ended([0x05, 0x40, 0x80, 0]);
    bench.table_is(&[DEAD; 32], &[]);
    bench.read(51, 0, 1);
    bench.said_read(51);
    bench.good();
    bench.finished([0; 4]);
}
