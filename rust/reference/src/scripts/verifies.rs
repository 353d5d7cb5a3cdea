//! Verifies and rereads that bring nearly the data part: each is a failure. The
//! surface breaks its rules here, since it answers good with other bytes than were
//! written.

use super::bench::Bench;
use super::Stored;
use crate::controller::Answer;
use crate::geometry::SECTOR_BYTES;
use crate::rng::Rng;

type Bytes = [u8; SECTOR_BYTES];

pub fn all() -> Vec<Stored> {
    vec![
        Stored::new("verify-bytes", verify_bytes()),
        Stored::new("reread-bytes", reread_bytes()),
    ]
}

/// The block of all commands here.
const BLOCK: u32 = 17;

/// How many bytes of short data are fed.
const SHORT: usize = 300;

/// First verifies: each that nearly matches leads to the trial, whose write is
/// asked for.
fn verify_bytes() -> Bench {
    let mut bench = Bench::new("First verifies that bring nearly the data part.");
    let data = any_bytes(&mut Rng::new(26));
    for (words, near) in near_misses(&data) {
        bench.note(&format!("{words}."));
        fails_first(&mut bench, &data, &near, &data);
    }
    let part = short(&data);
    for (words, near) in near_zeros(&part) {
        bench.note(&format!("Short data: {words}."));
        fails_first(&mut bench, &data[..SHORT], &near, &part);
    }
    bench
}

/// A write/verify of which the data part is this one fails its first verify with
/// these bytes, which are never kept.
#[track_caller]
fn fails_first(bench: &mut Bench, fed: &[u8], near: &Bytes, part: &Bytes) {
    bench.started(&[], &[]);
    bench.verify(BLOCK, fed);
    bench.good();
    bench.said_read(BLOCK);
    bench.surface(0, near);
    bench.said_write(BLOCK);
    assert_eq!(bench.drive.data(), part);
}

/// Rereads: with timeouts those that nearly match make 30 failures, or 31.
fn reread_bytes() -> Bench {
    let mut bench = Bench::new("Rereads of trials that bring nearly the data part.");
    let mut data = [0xA1; SECTOR_BYTES];
    data[283..].fill(0x4E);
    for failures in [30, 31] {
        bench.note(&format!(
            "A write/verify of a bad block, {failures} failures."
        ));
        bench.started(&[], &[BLOCK]);
        bench.verify(BLOCK, &data);
        near_trial(&mut bench, &near_misses(&data), failures, &data);
        bench.note(&format!("A read at its threshold, {failures} failures."));
        bench.started(&[], &[]);
        bench.write(BLOCK, &data);
        bench.good();
        bench.read(BLOCK, 0, 0);
        bench.timeout();
        bench.good();
        near_trial(&mut bench, &near_misses(&data), failures, &data);
        bench.note(&format!(
            "A plain write of short data, {failures} failures."
        ));
        bench.started(&[], &[BLOCK]);
        bench.write(BLOCK, &data[..SHORT]);
        let part = short(&data);
        near_trial(&mut bench, &near_zeros(&part), failures, &part);
    }
    bench
}

/// The trial whose write is awaited: good rereads, each of these once, and timeouts
/// up to so many failures. With 30 it passes, with 31 it does not.
#[track_caller]
fn near_trial(bench: &mut Bench, nears: &[(String, Bytes)], failures: usize, data: &Bytes) {
    bench.said_write(BLOCK);
    bench.good();
    for _ in failures..100 {
        bench.surface(0, data);
    }
    for (_, near) in nears {
        bench.surface(0, near);
        assert_eq!(bench.drive.data(), data);
    }
    for _ in nears.len()..failures {
        bench.timeout();
    }
    match failures {
        30 => {
            // A block that was in the bad list leaves it.
            if bench.pending().is_some() {
                bench.stored();
            }
            bench.said(Answer::Finished);
            assert_eq!(bench.drive.status()[..2], [0x0C, 0]);
        }
        _ => bench.said_write(4928),
    }
}

/// The data part that short data leave.
fn short(data: &Bytes) -> Bytes {
    let mut part = [0; SECTOR_BYTES];
    part[..SHORT].copy_from_slice(&data[..SHORT]);
    part
}

/// Bytes that differ from the data part of short data in one of its zeros, and how.
fn near_zeros(part: &Bytes) -> Vec<(String, Bytes)> {
    [(SHORT, "first"), (415, "middle"), (531, "last")]
        .map(|(place, which)| {
            let mut near = *part;
            near[place] = 0x01;
            (format!("the {which} of the zeros is none"), near)
        })
        .to_vec()
}

/// Any bytes in runs of any length, so that a script has them in few words.
fn any_bytes(rng: &mut Rng) -> Bytes {
    let mut bytes = [0; SECTOR_BYTES];
    let mut from = 0;
    while from < SECTOR_BYTES {
        bytes[from..].fill(rng.byte());
        from += 1 + rng.place(40);
    }
    bytes
}

/// Bytes that differ from the data in little, and how.
fn near_misses(data: &Bytes) -> Vec<(String, Bytes)> {
    let with = |change: &dyn Fn(&mut Bytes)| {
        let mut bytes = *data;
        change(&mut bytes);
        bytes
    };
    let one_byte = |place: usize| {
        let words = format!("byte {place} alone differs");
        (words, with(&|bytes| bytes[place] ^= 0x10))
    };
    let mut all: Vec<(String, Bytes)> = [0, 265, 300, 531].map(one_byte).to_vec();
    assert_ne!(data[265], data[300], "a swap that shows");
    let words = String::from("bytes 265 and 300 are swapped");
    all.push((words, with(&|bytes| bytes.swap(265, 300))));
    let words = String::from("byte 265 is one more and byte 300 one less");
    let same_sum = with(&|bytes| {
        bytes[265] += 1;
        bytes[300] -= 1;
    });
    all.push((words, same_sum));
    all
}
