//! Commands that meet no trouble on the surface: clean ones, numbers, data, and
//! the drive with no table.

use super::bench::{Bench, HEALTH, INVALID, RAM, TABLE_IMAGE};
use super::Stored;
use crate::controller::{Answer, Code};
use crate::geometry::TABLE;

pub fn all() -> Vec<Stored> {
    vec![
        Stored::new("clean", clean()),
        Stored::new("numbers", numbers()),
        Stored::new("data-bytes", data_bytes()),
        Stored::new("no-table", no_table()),
    ]
}

fn clean() -> Bench {
    let mut bench = Bench::new("Clean reads and writes, homes at their edges, some blocks moved.");
    bench.started(&[100, 0xFF_FFFE, 9727], &[7]);
    let places = [
        (0, 0),
        (1, 1),
        (4926, 4926),
        (4927, 4927),
        (4928, 4992),
        (4929, 4993),
        (4960, 5024),
        (9726, 9790),
        (9727, 4930),
        (100, 4928),
        (99, 99),
    ];
    for (place, (block, sector)) in (0..).zip(places) {
        bench.read(block, 10, 3);
        bench.said_read(sector);
        bench.good();
        bench.finished([0, 0, if place == 0 { 0x80 } else { 0 }, 0]);
        let data = [place; 532];
        bench.send(1 + place % 2, block, &[&data]);
        bench.said_write(sector);
        bench.good();
        if place % 2 == 1 {
            bench.said_read(sector);
            bench.good();
        }
        bench.finished([0; 4]);
    }
    bench.note("All once more: each block has its own bytes.");
    for (place, (block, sector)) in (0..).zip(places) {
        bench.read(block, 0, 0);
        bench.said_read(sector);
        bench.good();
        bench.finished([0; 4]);
        bench.holds(place);
    }

    bench.note("Short data: the rest of the block is zeros.");
    bench.write(200, &[0xAA; 5]);
    bench.said_write(200);
    bench.good();
    bench.read(1, 0, 1);
    bench.good();
    bench.read(200, 0, 1);
    bench.good();
    assert_eq!(bench.drive.data()[..6], [0xAA, 0xAA, 0xAA, 0xAA, 0xAA, 0]);

    bench.note("A write that fails, then a read of the old bytes.");
    bench.write(99, &[0xBB; 532]);
    bench.no_settle();
    bench.finished([0x11, 0, 0, 0]);
    bench.read(99, 0, 1);
    bench.good();
    bench.finished([0; 4]);
    bench.holds(10);

    bench.note("A write that spoils its sector: the bad list has it in the end.");
    bench.restarted();
    bench.write(99, &[0xBC; 532]);
    bench.spoiling();
    bench.finished([0, 0, 0x80, 0]);
    bench.read(99, 0, 1);
    for _ in 0..11 {
        bench.timeout();
    }
    bench.ended([0x05, 0, 0, 0]);
    bench.table_is(&[100, 0xFF_FFFE, 9727], &[7, 99]);
    bench
}

fn numbers() -> Bench {
    let mut bench = Bench::new("Numbers of no block, and the three that are more than a block.");
    bench.started(&[17, 0xFF_FFFE], &[600, 0, 9727]);
    bench.write(RAM, &[0x21; 532]);
    bench.finished([0, 0, 0x80, 0]);
    invalid_numbers(&mut bench);
    numbers_with_a_meaning(&mut bench);
    bench.note("The table's bytes are now in the buffer: a write of nothing sends zeros.");
    bench.write(300, &[]);
    bench.said_write(300);
    bench.good();
    bench.read(300, 0, 1);
    bench.good();
    bench.finished([0; 4]);
    bench.holds(0);
    bench
}

fn invalid_numbers(bench: &mut Bench) {
    for number in [
        9728, 9729, 0x00_FFFE, 0x00_FFFF, 0x01_0000, 0x01_0011, 0x01_25FF, 0x80_0000, 0xFF_0000,
        0xFF_FEFF, 0xFF_FFFC,
    ] {
        bench.read(number, 1, 1);
        bench.finished(INVALID);
        bench.holds(0x21);
    }
    for number in [
        9728,
        0x00_FFFE,
        0x00_FFFF,
        0x01_0011,
        0xFF_FFFC,
        HEALTH,
        TABLE_IMAGE,
    ] {
        bench.write(number, &[0x22; 532]);
        bench.finished(INVALID);
        bench.verify(number, &[0x23; 532]);
        bench.finished(INVALID);
        bench.holds(0x23);
    }
}

fn numbers_with_a_meaning(bench: &mut Bench) {
    bench.note("FFFFFE: the buffer as fed, then zeros.");
    bench.read(RAM, 255, 0);
    bench.finished([0; 4]);
    bench.holds(0x23);
    bench.write(RAM, &[0x24; 532]);
    bench.finished([0; 4]);
    bench.verify(RAM, &[0x25; 10]);
    bench.finished([0; 4]);
    bench.read(RAM, 0, 0);
    assert_eq!(bench.drive.data()[9..11], [0x25, 0]);
    bench.note("FFFFFD: the health block, on reads alone.");
    bench.read(HEALTH, 1, 1);
    bench.finished([0; 4]);
    assert_eq!(bench.drive.data()[..5], [30, 3, 0, 0, 0]);
    bench.note("FFFFFF: the table, as it stands in the record.");
    bench.read(TABLE_IMAGE, 0, 0);
    bench.finished([0; 4]);
    bench.image();
    bench.said(Answer::Wait);
    bench.write(600, &[0x26; 532]);
    bench.said_write(600);
    bench.trial_passes();
    bench.ended([0; 4]);
    bench.table_is(&[17, 0xFF_FFFE], &[0, 9727]);
    bench.read(TABLE_IMAGE, 0, 0);
    bench.finished([0; 4]);
}

fn data_bytes() -> Bench {
    let mut bench = Bench::new("Data bytes: exactly 532, one more, many more, few, in pieces.");
    bench.started(&[], &[]);
    let fed = |bench: &mut Bench, opcode: u8, pieces: &[usize], fits: bool| {
        let pieces: Vec<Vec<u8>> = (0x50..)
            .zip(pieces)
            .map(|(byte, &count)| vec![byte; count])
            .collect();
        let pieces: Vec<&[u8]> = pieces.iter().map(Vec::as_slice).collect();
        bench.send(opcode, 17, &pieces);
        if fits {
            bench.said_write(17);
            bench.good();
            if opcode == 2 {
                bench.good();
            }
        }
        bench.said(Answer::Finished);
        assert_eq!(bench.drive.status()[0], if fits { 0 } else { 0x41 });
    };
    for opcode in [1, 2] {
        fed(&mut bench, opcode, &[532], true);
        fed(&mut bench, opcode, &[533], false);
        fed(&mut bench, opcode, &[531, 1], true);
        fed(&mut bench, opcode, &[531, 2], false);
        fed(&mut bench, opcode, &[532, 1], false);
        fed(&mut bench, opcode, &[533, 1, 4096], false);
    }
    fed(&mut bench, 1, &[532, 0], true);
    fed(&mut bench, 2, &[4096], false);
    fed(&mut bench, 1, &[1, 0, 2, 3], true);
    fed(&mut bench, 2, &[], true);
    fed(&mut bench, 1, &[0], true);
    fed(&mut bench, 2, &[266, 266, 266], false);
    fed(&mut bench, 1, &[100, 200, 232], true);
    fed(&mut bench, 2, &[100, 200, 233], false);
    bench.note("What is fed before too much comes stays in the buffer; the block does not get it.");
    bench.read(17, 0, 1);
    bench.good();
    bench.write(17, &[0x71; 533]);
    bench.finished([0x41, 0, 0, 0]);
    bench.holds(0x71);
    bench.read(17, 0, 1);
    bench.good();
    assert_eq!(bench.drive.data()[299..301], [0x51, 0x52]);

    bench.note("Too much for FFFFFE and for invalid numbers: that comes first.");
    for opcode in [1, 2] {
        for number in [0xFF_FFFE, 9728, 0xFF_FFFF, 0xFF_FFFD] {
            bench.send(opcode, number, &[&[0x72; 533]]);
            bench.finished([0x41, 0, 0, 0]);
        }
    }
    bench.note("And the next command is counted anew.");
    bench.write(17, &[0x73; 532]);
    bench.said_write(17);
    bench.good();
    bench.finished([0; 4]);
    bench.read(0xFF_FFFE, 0, 0);
    bench.finished([0; 4]);
    bench.holds(0x73);
    bench
}

fn no_table() -> Bench {
    let mut bench = Bench::new("No table: ten reads fail at the start, each in one of its ways.");
    bench.hold(TABLE, &[0; 532]);
    bench.start();
    for read in 0..9 {
        bench.said_read(4960);
        match read % 3 {
            0 => bench.good(),
            1 => bench.crc(0x44),
            _ => bench.timeout(),
        };
    }
    bench.said_read(4960);
    bench.timeout();
    bench.said(Answer::Wait);
    bench.holds(0);
    bench.image();
    bench.refused(Code::Place);
    commands_without_table(&mut bench);

    for (note, answer) in [
        ("Ten malformed images with answer 0.", 0),
        ("Ten CRC errors.", 1),
        ("Ten timeouts.", 2),
    ] {
        bench.note(note);
        bench.start();
        for _ in 0..10 {
            bench.said_read(4960);
            match answer {
                0 => bench.good(),
                1 => bench.crc(0x45),
                _ => bench.timeout(),
            };
        }
        bench.said(Answer::Wait);
        bench.surface(2, &[]);
        bench.refused(Code::Place);
        bench.read(0, 0, 0);
        bench.finished([0x01, 0x08, 0x80, 0]);
    }

    bench.note("Answer 3 ends the start at once, and makes no latch.");
    bench.started_without_table();
    bench.read(17, 5, 1);
    bench.finished([0x01, 0x08, 0x80, 0]);
    bench.verify(17, &[0x4D; 532]);
    bench.finished([0x41, 0x08, 0, 0]);
    bench.started(&[], &[]);
    bench.write(17, &[0x46; 532]);
    bench.said_write(17);
    bench.good();
    bench.finished([0, 0, 0x80, 0]);
    bench
}

fn commands_without_table(bench: &mut Bench) {
    bench.read(17, 5, 1);
    bench.finished([0x01, 0x08, 0x80, 0]);
    bench.holds(0);
    bench.write(17, &[0x47; 532]);
    bench.finished([0x41, 0x08, 0, 0]);
    bench.verify(17, &[0x48; 532]);
    bench.finished([0x41, 0x08, 0, 0]);
    bench.read(0xFF_FFFF, 0, 0);
    bench.finished([0x01, 0x08, 0, 0]);
    bench.holds(0x48);
    bench.note("Numbers of no block and FFFFFE come before the missing table.");
    bench.read(0xFF_FFFE, 0, 0);
    bench.finished([0; 4]);
    bench.write(0xFF_FFFE, &[0x49; 532]);
    bench.finished([0; 4]);
    bench.verify(0xFF_FFFE, &[0x4A; 532]);
    bench.finished([0; 4]);
    bench.read(9728, 0, 0);
    bench.finished([0x01, 0, 0x40, 0]);
    bench.write(0xFF_FFFF, &[0x4B; 532]);
    bench.finished([0x01, 0, 0x40, 0]);
    for opcode in [1, 2] {
        bench.send(opcode, 17, &[&[0x4C; 533]]);
        bench.finished([0x41, 0, 0, 0]);
    }
}
