//! Ways from a start into every phase.

use super::bench::Bench;
use crate::controller::GO_ON;

/// A way into a phase.
pub struct Way {
    /// The phase, in words.
    pub name: &'static str,
    /// Goes there from a start with this spare list.
    enter: fn(&mut Bench, &[u32]),
}

impl Way {
    /// Goes there from a start with no spare in use.
    pub fn enter(&self, bench: &mut Bench) {
        (self.enter)(bench, &[]);
    }

    /// Goes there from a start with this spare list.
    pub fn enter_with(&self, bench: &mut Bench, spares: &[u32]) {
        (self.enter)(bench, spares);
    }
}

/// The block that the ways use.
pub const BLOCK: u32 = 17;

/// The byte of which its data are.
pub const DATA: u8 = 0x5A;

const READ: [u8; 6] = [0, 0, 0, 17, 1, 1];

fn begin(bench: &mut Bench, spares: &[u32]) {
    bench.started(spares, &[]);
}

/// Ways into the phases in which no answer is awaited.
pub fn quiet() -> Vec<Way> {
    let way = |name, enter| Way { name, enter };
    vec![
        way("idle", begin),
        way("offer 01", |bench, spares| {
            begin(bench, spares);
            bench.raise();
        }),
        way("command bytes", |bench, spares| {
            begin(bench, spares);
            bench.ready();
        }),
        way("command bytes, some fed", |bench, spares| {
            begin(bench, spares);
            bench.ready();
            bench.feed(&READ[..4]);
        }),
        way("offer 02", |bench, spares| {
            begin(bench, spares);
            bench.command(&READ);
        }),
        way("offer 03", |bench, spares| {
            begin(bench, spares);
            bench.command(&[1, 0, 0, 17]);
        }),
        way("offer 04", |bench, spares| {
            begin(bench, spares);
            bench.command(&[2, 0, 0, 17]);
        }),
        way("data bytes", |bench, spares| {
            begin(bench, spares);
            bench.up_to_data(1, BLOCK);
        }),
        way("data bytes, some fed", |bench, spares| {
            begin(bench, spares);
            bench.up_to_data(2, BLOCK);
            bench.feed(&[DATA; 100]);
        }),
        way("offer 06", |bench, spares| {
            begin(bench, spares);
            bench.up_to_data(2, BLOCK);
            bench.feed(&[DATA; 532]);
            bench.raise();
        }),
    ]
}

/// Ways into the phases in which a read is awaited.
pub fn reading() -> Vec<Way> {
    let way = |name, enter| Way { name, enter };
    vec![
        way("a read of the start", |bench, _| {
            bench.start();
        }),
        way("the first read", first_read),
        way("a reread", |bench, spares| {
            first_read(bench, spares);
            bench.crc(0x11);
        }),
        way("a further read", |bench, spares| {
            first_read(bench, spares);
            bench.crc(0x11);
            bench.crc(0x22);
        }),
        way("the first verify", |bench, spares| {
            verified_write(bench, spares);
            bench.good();
        }),
        way(
            "a reread of a trial on the present sector",
            |bench, spares| {
                present_write(bench, spares);
                bench.good();
            },
        ),
        way("a reread of a trial on a spare", |bench, spares| {
            spare_write(bench, spares);
            bench.good();
        }),
    ]
}

/// Ways into the phases in which a write is awaited.
pub fn writing() -> Vec<Way> {
    let way = |name, enter| Way { name, enter };
    vec![
        way("a store", storing),
        way("a plain write", plain_write),
        way("the first write of a write/verify", verified_write),
        way("the write of a trial on the present sector", present_write),
        way("the write of a trial on a spare", spare_write),
    ]
}

/// A store is awaited: the block was entered in the bad list.
fn storing(bench: &mut Bench, spares: &[u32]) {
    begin(bench, spares);
    bench.read(BLOCK, 0, 1);
    for _ in 0..11 {
        bench.timeout();
    }
}

fn first_read(bench: &mut Bench, spares: &[u32]) {
    begin(bench, spares);
    bench.command(&READ);
    bench.lower(GO_ON);
}

fn plain_write(bench: &mut Bench, spares: &[u32]) {
    begin(bench, spares);
    bench.write(BLOCK, &[DATA; 532]);
}

fn verified_write(bench: &mut Bench, spares: &[u32]) {
    begin(bench, spares);
    bench.verify(BLOCK, &[DATA; 532]);
}

/// The block is in the bad list, so its write begins with the trial.
fn present_write(bench: &mut Bench, spares: &[u32]) {
    bench.started(spares, &[BLOCK]);
    bench.verify(BLOCK, &[DATA; 532]);
}

/// A write that times out goes straight to a spare.
fn spare_write(bench: &mut Bench, spares: &[u32]) {
    plain_write(bench, spares);
    bench.timeout();
}

/// The way to a store that is awaited, with no spare in use.
pub fn to_store(bench: &mut Bench) {
    storing(bench, &[]);
}
