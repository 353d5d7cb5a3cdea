//! The week of the mission: one file of 40 blocks, a shop front.

use super::bench::Bench;
use super::Stored;
use crate::controller::{Answer, Offer};
use crate::image::DEAD;
use crate::surface::Fate;

pub fn all() -> Vec<Stored> {
    vec![Stored::new("week", week())]
}

const FILE: u32 = 40;

/// The bytes of a block of the file on a day.
fn layout(block: u32, day: u8) -> [u8; 532] {
    let mut bytes = [day; 532];
    bytes[0] = block as u8;
    bytes
}

fn week() -> Bench {
    let mut bench = Bench::new("The week of one file, a shop front of 40 blocks.");
    bench.started(&[], &[]);
    bench.note("Monday: the host writes it, one handshake per block, and reads it back.");
    for block in 0..FILE {
        bench.write(block, &layout(block, b'M'));
        bench.good();
        bench.finished([0, 0, if block == 0 { 0x80 } else { 0 }, 0]);
    }
    for block in 0..FILE {
        read_clean(&mut bench, block, block, b'M');
    }

    bench.note("Tuesday: block 17 takes two rereads, comes good and stays in place.");
    bench.read(17, 2, 2);
    bench.said_read(17);
    bench.crc(0);
    bench.crc(0);
    bench.good();
    bench.finished([0x08, 0, 0, 1]);
    assert_eq!(bench.drive.data(), layout(17, b'M'));

    bench.note("Wednesday: it fails more often than the threshold allows. The block is");
    bench.skipped("# rewritten and reread a hundred times; 40 failures move it to a spare sector,");
    bench.skipped("# whose own trial passes with one.");
    bench.read(17, 10, 3);
    bench.crc(0);
    for reread in 0..10 {
        match reread {
            1 | 4 | 6 => bench.crc(0x40 + reread),
            8 => bench.timeout(),
            _ => bench.good(),
        };
    }
    bench.said_write(17);
    bench.good();
    for reread in 0..100 {
        bench.said_read(17);
        match reread % 5 {
            1 => bench.crc(0x50),
            3 => bench.timeout(),
            _ => bench.good(),
        };
    }
    bench.said_write(4928);
    bench.good();
    bench.good_rereads(60);
    bench.said_read(4928);
    bench.crc(0x60);
    bench.good_rereads(39);
    assert_eq!(bench.drive.data(), layout(17, b'M'));
    bench.note("The table goes to disk before the command is finished.");
    bench.said(Answer::Store);
    bench.image();
    bench.good();
    bench.finished([0x0C, 0x04, 0, 4]);
    assert_eq!(bench.drive.data(), layout(17, b'M'));

    bench.note("Thursday: the host raises CMD once more; there is nothing left to store.");
    bench.raise();
    bench.said(Answer::Offer(Offer::Command));
    bench.lower(0);
    bench.finished([0x80, 0, 0, 0]);

    bench.note("Friday: the drive is turned on, and the edited layout is written with verify.");
    bench.restarted();
    bench.table_is(&[17], &[]);
    for block in 13..23 {
        bench.verify(block, &layout(block, b'F'));
        bench.said_write(if block == 17 { 4928 } else { block });
        bench.good();
        bench.good();
        bench.finished([0, 0, if block == 13 { 0x80 } else { 0 }, 0]);
    }

    bench.note("Saturday: it is cut.");
    for block in 0..FILE {
        let sector = if block == 17 { 4928 } else { block };
        let day = if (13..23).contains(&block) {
            b'F'
        } else {
            b'M'
        };
        read_clean(&mut bench, block, sector, day);
    }
    bench.note("Its spare fails in the end: the block moves on, and the old spare is dead.");
    bench.write(17, &layout(17, b'S'));
    bench.said_write(4928);
    bench.timeout();
    bench.said_write(4929);
    bench.trial_passes();
    bench.ended([0x04, 0x04, 0, 0]);
    bench.table_is(&[DEAD, 17], &[]);
    read_clean(&mut bench, 17, 4929, b'S');
    switched_off(&mut bench);
    bench
}

fn switched_off(bench: &mut Bench) {
    bench.note("The power is cut while a store is awaited: the start finds the table before it.");
    bench.read(16, 0, 3);
    for _ in 0..11 {
        bench.timeout();
    }
    bench.said(Answer::Store);
    bench.image();
    bench.cut(Fate::Old);
    bench.good();
    bench.table_is(&[DEAD, 17], &[]);
    bench.note("It is cut while a write is awaited, which left its bytes.");
    bench.write(18, &layout(18, b'S'));
    bench.said_write(18);
    bench.cut(Fate::New);
    bench.good();
    bench.read(18, 10, 3);
    bench.good();
    bench.finished([0, 0, 0x80, 0]);
    assert_eq!(bench.drive.data(), layout(18, b'S'));
}

fn read_clean(bench: &mut Bench, block: u32, sector: u32, day: u8) {
    bench.read(block, 10, 3);
    bench.said_read(sector);
    bench.good();
    bench.finished([0; 4]);
    assert_eq!(bench.drive.data(), layout(block, day));
}
