//! Short data: the raise that offers 06 zeroes the data part behind the bytes that
//! were fed.

use super::bench::{Bench, INVALID, RAM, TOO_MUCH};
use super::Stored;
use crate::controller::{Answer, Code, Offer, GO_ON};
use crate::drive::Call;
use crate::geometry::SECTOR_BYTES;

pub fn all() -> Vec<Stored> {
    vec![Stored::new("short-data", short_data())]
}

/// Another job's block, and the byte of which it is full.
const OTHER_BLOCK: u32 = 16;
const OTHER: u8 = 0xEE;

/// How many bytes are fed.
const COUNTS: [usize; 7] = [0, 1, 511, 512, 531, 532, 533];

fn short_data() -> Bench {
    let mut bench =
        Bench::new("After another job's data: fewer than 532 bytes end in zeros at offer 06.");
    bench.started(&[], &[]);
    bench.write(OTHER_BLOCK, &[OTHER; SECTOR_BYTES]);
    bench.good();
    bench.finished([0, 0, 0x80, 0]);
    counts(&mut bench);
    pieces(&mut bench);
    numbers(&mut bench);
    broken_off(&mut bench);
    before_the_raise(&mut bench);
    refused(&mut bench);
    moved(&mut bench);
    latched(&mut bench);
    no_table(&mut bench);
    verified(&mut bench);
    bench
}

/// Brings the other job's bytes into the data part.
fn other_job(bench: &mut Bench) {
    bench.read(OTHER_BLOCK, 0, 1);
    bench.good();
    bench.said(Answer::Finished);
    bench.holds(OTHER);
}

/// So many of a byte, then another up to 532.
fn part(byte: u8, count: usize, rest: u8) -> [u8; SECTOR_BYTES] {
    let mut part = [rest; SECTOR_BYTES];
    part[..count.min(SECTOR_BYTES)].fill(byte);
    part
}

/// The data part is that.
#[track_caller]
fn shows(bench: &Bench, byte: u8, count: usize, rest: u8) {
    assert_eq!(bench.drive.data(), part(byte, count, rest));
}

/// From idle, with the other job's bytes in the data part, to offer 06 after these
/// pieces: the rest is as it was until the raise, and then zeros.
fn offered(bench: &mut Bench, opcode: u8, number: u32, byte: u8, pieces: &[usize]) {
    let count = pieces.iter().sum();
    other_job(bench);
    bench.up_to_data(opcode, number);
    for &piece in pieces {
        bench.feed(&vec![byte; piece]);
    }
    shows(bench, byte, count, OTHER);
    bench.raise();
    bench.said(Answer::Offer(Offer::Act));
    shows(bench, byte, count, 0);
}

/// The write at offer 06 is done, and verified if it is to be.
fn done(bench: &mut Bench, block: u32, verify: bool) {
    bench.lower(GO_ON);
    bench.said_write(block);
    bench.good();
    if verify {
        bench.said_read(block);
        bench.good();
    }
    bench.finished([0; 4]);
}

fn counts(bench: &mut Bench) {
    for opcode in [1, 2] {
        for (place, count) in (0..).zip(COUNTS) {
            bench.note(&format!("Opcode {opcode:02x}, data bytes: {count}."));
            let byte = 0x10 * opcode + place;
            offered(bench, opcode, 17, byte, &[count]);
            if count <= SECTOR_BYTES {
                done(bench, 17, opcode == 2);
            } else {
                bench.lower(GO_ON);
                bench.finished(TOO_MUCH);
            }
            bench.read(17, 0, 1);
            bench.good();
            bench.finished([0; 4]);
            match count {
                // The block holds what the write of 532 left.
                533 => bench.holds(byte - 1),
                _ => shows(bench, byte, count, 0),
            }
        }
    }
}

fn pieces(bench: &mut Bench) {
    bench.note("In pieces: how many there are in all counts, up to 532 and past it.");
    for pieces in [
        &[][..],
        &[0, 1, 0],
        &[300, 212],
        &[266, 265],
        &[531, 1],
        &[512, 21],
        &[400, 400, 1],
    ] {
        offered(bench, 2, 18, 0x41, pieces);
        if pieces.iter().sum::<usize>() <= SECTOR_BYTES {
            done(bench, 18, true);
        } else {
            bench.lower(GO_ON);
            bench.finished(TOO_MUCH);
        }
    }
}

fn numbers(bench: &mut Bench) {
    bench.note("Numbers of no block: FFFFFE, and two that are invalid.");
    for (number, status) in [(RAM, [0; 4]), (9728, INVALID), (0xFF_FFFF, INVALID)] {
        for (opcode, count) in [(1, 0), (2, 512)] {
            offered(bench, opcode, number, 0x42, &[count]);
            bench.lower(GO_ON);
            bench.finished(status);
            shows(bench, 0x42, count, 0);
        }
    }
    bench.note("FFFFFE shows what a short write to it left.");
    offered(bench, 1, RAM, 0x43, &[512]);
    bench.lower(GO_ON);
    bench.read(RAM, 0, 0);
    bench.finished([0; 4]);
    shows(bench, 0x43, 512, 0);
}

fn broken_off(bench: &mut Bench) {
    bench.note("Broken off at offer 06, by another byte and by a reset: the zeros stay.");
    for opcode in [1, 2] {
        offered(bench, opcode, 17, 0x44, &[512]);
        bench.lower(0x54);
        bench.finished([0x80, 0, 0, 0]);
        bench.read(RAM, 0, 0);
        bench.finished([0; 4]);
        shows(bench, 0x44, 512, 0);
    }
    offered(bench, 1, 17, 0x45, &[1]);
    bench.reset();
    bench.said(Answer::Wait);
    bench.read(RAM, 0, 0);
    bench.finished([0, 0, 0x80, 0]);
    shows(bench, 0x45, 1, 0);
    bench.note("The block is as it was.");
    bench.read(17, 0, 1);
    bench.good();
    bench.holds(0x25);
}

fn before_the_raise(bench: &mut Bench) {
    bench.note("Broken off at offer 03 or 04, or by a reset amid the data: nothing is zeroed.");
    for opcode in [1, 2] {
        other_job(bench);
        bench.command(&[opcode, 0, 0, 17]);
        bench.lower(0x54);
        bench.finished([0x80, 0, 0, 0]);
        bench.read(RAM, 0, 0);
        bench.holds(OTHER);
        bench.up_to_data(opcode, 17);
        bench.feed(&[0x46; 512]);
        bench.reset();
        bench.said(Answer::Wait);
        bench.read(RAM, 0, 0);
        bench.finished([0, 0, 0x80, 0]);
        shows(bench, 0x46, 512, OTHER);
    }
}

fn refused(bench: &mut Bench) {
    bench.note("A raise that is refused zeroes nothing, and more bytes may come.");
    other_job(bench);
    bench.up_to_data(1, 18);
    bench.feed(&[0x47; 512]);
    bench.lend(Some(535), Call::Raise);
    bench.refused(Code::Buffer);
    shows(bench, 0x47, 512, OTHER);
    bench.feed(&[0x47; 8]);
    bench.raise();
    shows(bench, 0x47, 520, 0);
    done(bench, 18, false);
}

fn moved(bench: &mut Bench) {
    bench.note("A block that moves to a spare takes the zeros along.");
    offered(bench, 2, 19, 0x48, &[512]);
    bench.lower(GO_ON);
    bench.timeout();
    bench.said_write(4928);
    bench.trial_passes();
    bench.ended([0x04, 0x04, 0, 0]);
    bench.read(19, 0, 1);
    bench.said_read(4928);
    bench.good();
    shows(bench, 0x48, 512, 0);
}

fn latched(bench: &mut Bench) {
    bench.note("Under the latch the command fails, and the zeros are there all the same.");
    bench.read(18, 0, 1);
    bench.no_settle();
    bench.finished([0x11, 0, 0, 0]);
    for (opcode, count) in [(1, 0), (2, 512)] {
        offered(bench, opcode, 17, 0x49, &[count]);
        bench.lower(GO_ON);
        bench.finished([0x11, 0, 0, 0]);
        shows(bench, 0x49, count, 0);
    }
}

fn no_table(bench: &mut Bench) {
    bench.note("With no table too, for a block, FFFFFE and an invalid number.");
    bench.started_without_table();
    for (opcode, number, count, status) in [
        (1, 17, 0, [0x41, 0x08, 0, 0]),
        (2, 17, 512, [0x41, 0x08, 0, 0]),
        (1, RAM, 531, [0; 4]),
        (2, 9728, 1, INVALID),
    ] {
        bench.fill(&[OTHER; SECTOR_BYTES]);
        bench.send(opcode, number, &[&vec![0x4A; count]]);
        bench.finished(status);
        shows(bench, 0x4A, count, 0);
    }
}

/// A list on which the surface breaks its rules once.
fn verified(bench: &mut Bench) {
    bench.note("A verify with the other job's bytes behind the 512 fails; one with zeros is good.");
    bench.started(&[], &[18]);
    offered(bench, 2, 17, 0x4B, &[512]);
    bench.lower(GO_ON);
    bench.good();
    bench.surface(0, &part(0x4B, 512, OTHER));
    bench.said_write(17);
    bench.note("So do 30 rereads of its trial, and the others are good.");
    bench.good();
    for _ in 0..30 {
        bench.surface(0, &part(0x4B, 512, OTHER));
    }
    for _ in 0..70 {
        bench.surface(0, &part(0x4B, 512, 0));
    }
    bench.finished([0x08, 0, 0, 0]);
    bench.note("The trial of a plain write of a block in the bad list compares with the zeros.");
    offered(bench, 1, 18, 0x4C, &[512]);
    bench.lower(GO_ON);
    bench.said_write(18);
    bench.trial_passes();
    bench.ended([0; 4]);
    bench.table_is(&[], &[]);
}
