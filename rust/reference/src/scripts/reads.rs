//! Reads that meet trouble: retries, the longest read, the bad list.

use super::bench::{Bench, MOST_ACCESSES};
use super::Stored;
use crate::controller::Answer;
use crate::image::DEAD;

pub fn all() -> Vec<Stored> {
    vec![
        Stored::new("retries", retries()),
        Stored::new("longest-read", longest_read()),
        Stored::new("many-rereads", many_rereads()),
        Stored::new("bad-list", bad_list()),
    ]
}

/// A read with all its answers: g good, c CRC error, t timeout.
fn read(bench: &mut Bench, block: u32, rereads: u8, threshold: u8, answers: &str) {
    bench.read(block, rereads, threshold);
    for (byte, answer) in (0x80..).zip(answers.chars()) {
        match answer {
            'g' => bench.good(),
            'c' => bench.crc(byte),
            _ => bench.timeout(),
        };
    }
}

fn retries() -> Bench {
    let mut bench = Bench::new("Retry counts and thresholds.");
    bench.started(&[], &[]);
    bench.note("R 0, T 1, CRC then good: good.");
    read(&mut bench, 17, 0, 1, "cg");
    bench.finished([0x08, 0, 0x80, 0]);
    bench.note("R 2, T 1, CRC, good, good: E 0, no move.");
    read(&mut bench, 17, 2, 1, "cgg");
    bench.finished([0x08, 0, 0, 0]);
    bench.note("R 2, T 1, CRC, CRC, good: E 1, a trial.");
    read(&mut bench, 17, 2, 1, "ccg");
    bench.said_write(17);
    bench.good();
    bench.said_read(17);
    bench.good_rereads(100);
    bench.finished([0x08, 0, 0, 1]);
    bench.note("R 0, eleven timeouts: failed.");
    read(&mut bench, 18, 0, 1, "ttttttttttt");
    bench.ended([0x05, 0, 0, 0]);
    bench.table_is(&[], &[18]);
    bench.note("R 0, CRC, nine timeouts, nine CRC: failed; the last CRC bytes stay.");
    read(&mut bench, 19, 0, 1, "ctttttttttccccccccc");
    bench.ended([0x0D, 0, 0, 0]);
    bench.table_is(&[], &[18, 19]);
    bench.holds(0x80 + 18);

    bench.note("The first read good: done, whatever T is.");
    read(&mut bench, 17, 9, 0, "g");
    bench.finished([0; 4]);
    read(&mut bench, 17, 0, 255, "g");
    bench.finished([0; 4]);
    bench.note("R 0, T 0, CRC then good: E 0 is not below 0, so there is a trial.");
    read(&mut bench, 17, 0, 0, "cg");
    bench.said_write(17);
    bench.trial_passes();
    bench.finished([0x08, 0, 0, 0]);
    bench.note("The same with a timeout.");
    read(&mut bench, 17, 0, 0, "tg");
    bench.said_write(17);
    bench.trial_passes();
    bench.finished([0x04, 0, 0, 0]);

    bench.note("E counts the rereads alone: with R 1 a CRC, a CRC, six more, good make E 1.");
    read(&mut bench, 20, 1, 2, "cccccctcg");
    bench.finished([0x0C, 0, 0, 1]);
    read(&mut bench, 20, 1, 1, "ttg");
    bench.said_write(20);
    bench.trial_passes();
    bench.finished([0x04, 0, 0, 1]);
    bench.note("All rereads are made; after the first good one the data stay.");
    read(&mut bench, 21, 5, 4, "cgctct");
    bench.said_write(21);
    bench.trial_passes();
    bench.finished([0x0C, 0, 0, 4]);
    read(&mut bench, 21, 5, 5, "tgcctt");
    bench.finished([0x0C, 0, 0, 4]);
    assert_eq!(bench.drive.data()[..3], [0, 21, 21]);
    read(&mut bench, 22, 4, 3, "tctgg");
    bench.finished([0x0C, 0, 0, 2]);
    read(&mut bench, 22, 4, 3, "tctcg");
    bench.said_write(22);
    bench.trial_passes();
    bench.finished([0x0C, 0, 0, 3]);
    bench.note("A good reread in the middle only.");
    read(&mut bench, 22, 3, 3, "ccgc");
    bench.finished([0x08, 0, 0, 2]);
    read(&mut bench, 22, 3, 3, "cgcg");
    bench.finished([0x08, 0, 0, 1]);

    bench.note("89 spent and then good; 89 spent and a CRC error; 89 spent and a timeout.");
    read(&mut bench, 23, 0, 1, "ttttttttttccccccccg");
    bench.finished([0x0C, 0, 0, 0]);
    read(&mut bench, 24, 0, 1, "ttttttttttccccccccc");
    bench.ended([0x0D, 0, 0, 0]);
    read(&mut bench, 25, 0, 1, "ttttttttttcccccccct");
    bench.ended([0x0D, 0, 0, 0]);
    bench.note("82 spent and a timeout: past 90. 81 and a timeout: 90.");
    read(&mut bench, 26, 0, 1, "tttttttttcccccccccct");
    bench.ended([0x0D, 0, 0, 0]);
    read(&mut bench, 27, 0, 1, "tcccccccccttttttttt");
    bench.ended([0x0D, 0, 0, 0]);
    bench.note("80 spent, a timeout makes 89, a good one ends it.");
    read(&mut bench, 28, 0, 1, "tcccccccctttttttttg");
    bench.finished([0x0C, 0, 0, 0]);
    bench.note("The rereads are not of the 90: twelve of them, then 81 spent.");
    read(&mut bench, 29, 12, 13, "tcccccctttttttttttttttg");
    bench.finished([0x0C, 0, 0, 12]);
    bench.note("All fail, after rereads: E is R.");
    read(&mut bench, 30, 3, 1, "cttctttttttttt");
    bench.ended([0x0D, 0, 0, 3]);
    bench.holds(0x83);
    bench.note("All time out: the data part is as it was.");
    read(&mut bench, 31, 1, 1, "tttttttttttt");
    bench.ended([0x05, 0, 0, 1]);
    bench.holds(0x83);
    bench.table_is(&[], &[18, 19, 24, 25, 26, 27, 30, 31]);
    bench.note("A listed bad block that reads good stays listed, unless it was rewritten.");
    read(&mut bench, 18, 0, 1, "g");
    bench.finished([0; 4]);
    read(&mut bench, 18, 0, 1, "tg");
    bench.finished([0x04, 0, 0, 0]);
    bench.table_is(&[], &[18, 19, 24, 25, 26, 27, 30, 31]);
    read(&mut bench, 24, 1, 1, "tcg");
    bench.said_write(24);
    bench.trial_passes();
    bench.ended([0x0C, 0, 0, 1]);
    bench.table_is(&[], &[18, 19, 25, 26, 27, 30, 31]);

    bench.note("A surface that breaks its rules: good rereads with other bytes. The first stay.");
    bench.started(&[], &[]);
    bench.read(17, 3, 1);
    bench.crc(0xB0);
    bench.surface(0, &[0xB1; 532]);
    bench.surface(0, &[0xB2; 532]);
    bench.holds(0xB1);
    bench.surface(1, &[0xB3; 532]);
    bench.said_write(17);
    bench.holds(0xB1);
    bench.trial_passes();
    bench.finished([0x08, 0, 0x80, 1]);
    bench.holds(0xB1);
    bench
}

fn longest_read() -> Bench {
    let mut bench = Bench::new(
        "The longest read: 1 + 255 + 90 reads, 33 trials of 101 accesses each, a store.",
    );
    bench.started(&[], &[]);
    bench.read(17, 255, 255);
    for _ in 0..1 + 255 + 89 {
        bench.said_read(17);
        bench.crc(0x33);
    }
    bench.good();
    for place in 0..33 {
        let sector = if place == 0 { 17 } else { 4927 + place };
        bench.said_write(sector);
        bench.trial_fails();
    }
    bench.ended([0x0D, 0x40, 0x80, 255]);
    assert_eq!(bench.accesses(), MOST_ACCESSES);
    assert_eq!(bench.drive.data()[..3], [0, 17, 17]);
    bench.table_is(&[DEAD; 32], &[]);
    bench.note("Now no spare is unused: only the present sector is tried.");
    bench.read(17, 0, 0);
    bench.said_read(17);
    bench.crc(0x35);
    bench.good();
    bench.said_write(17);
    bench.trial_fails();
    bench.finished([0x0D, 0x40, 0, 0]);
    bench
}

fn many_rereads() -> Bench {
    let mut bench = Bench::new("R 255, and of 255 rereads one is good: E 254 is below T 255.");
    bench.started(&[], &[]);
    bench.read(17, 255, 255);
    bench.timeout();
    for reread in 0..255 {
        match reread {
            200 => bench.good(),
            _ => bench.timeout(),
        };
    }
    bench.finished([0x04, 0, 0x80, 254]);
    bench
}

/// A read that fails for good.
fn fails(bench: &mut Bench, block: u32) {
    read(bench, block, 0, 1, "ttttttttttt");
}

fn bad_list() -> Bench {
    let mut bench =
        Bench::new("The bad list: entered at the end, full at 100, removed with the order kept.");
    let mut bads: Vec<u32> = (512..610).collect();
    bench.started(&[600, 7], &bads);
    fails(&mut bench, 17);
    bench.ended([0x05, 0, 0x80, 0]);
    fails(&mut bench, 9727);
    bench.ended([0x05, 0, 0, 0]);
    bads.extend([17, 9727]);
    bench.table_is(&[600, 7], &bads);
    bench.note("100 are held: status 2 bit 4, and no entry.");
    fails(&mut bench, 19);
    bench.finished([0x05, 0x10, 0, 0]);
    fails(&mut bench, 7);
    bench.finished([0x05, 0x10, 0, 0]);
    bench.note("One that is listed already sets no bit 4.");
    fails(&mut bench, 17);
    bench.finished([0x05, 0, 0, 0]);
    fails(&mut bench, 512);
    bench.finished([0x05, 0, 0, 0]);
    bench.table_is(&[600, 7], &bads);

    bench.note("A write/verify removes one from the middle; then there is room for one.");
    bench.verify(550, &[0x37; 532]);
    bench.said_write(550);
    bench.trial_passes();
    bench.ended([0; 4]);
    bads.retain(|&bad| bad != 550);
    bench.table_is(&[600, 7], &bads);
    fails(&mut bench, 19);
    bench.ended([0x05, 0, 0, 0]);
    bads.push(19);
    bench.table_is(&[600, 7], &bads);
    fails(&mut bench, 20);
    bench.finished([0x05, 0x10, 0, 0]);

    bench.note("A plain write to a listed block begins with the trial too: the last one goes.");
    bench.write(19, &[0x38; 532]);
    bench.said_write(19);
    bench.good();
    bench.said_read(19);
    bench.good_rereads(100);
    bench.ended([0; 4]);
    bads.pop();
    bench.table_is(&[600, 7], &bads);
    bench.note("Not listed any more: one write.");
    bench.write(19, &[0x39; 532]);
    bench.good();
    bench.finished([0; 4]);
    bench.note("The first goes; a moved block that is listed; one that moves.");
    bench.write(512, &[0x3A; 532]);
    bench.trial_passes();
    bench.stored();
    bads.remove(0);
    bench.write(600, &[0x3B; 532]);
    bench.said_write(4928);
    bench.trial_passes();
    bench.stored();
    bads.retain(|&bad| bad != 600);
    bench.table_is(&[600, 7], &bads);
    bench.write(513, &[0x3C; 532]);
    bench.said_write(513);
    bench.timeout();
    bench.said_write(4930);
    bench.trial_passes();
    bench.ended([0x04, 0x04, 0, 0]);
    bads.remove(0);
    bench.table_is(&[600, 7, 513], &bads);
    bench.note("A write to a listed block that fails in every place stays listed.");
    let mut spares = vec![600, 7, 513];
    spares.resize(32, DEAD);
    bench.started(&spares, &[514, 600]);
    for (block, sector) in [(514, 514), (600, 4928)] {
        bench.write(block, &[0x3D; 532]);
        bench.said_write(sector);
        bench.trial_fails();
        bench.said(Answer::Finished);
        assert_eq!(bench.drive.status()[..2], [0x05, 0x40]);
    }
    bench.table_is(&spares, &[514, 600]);
    bench.read(514, 0, 0);
    bench.good();
    bench.finished([0; 4]);
    bench.holds(0x3D);
    bench.image();
    bench
}
