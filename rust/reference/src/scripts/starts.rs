//! Starts: whole and damaged images, and starts in every phase.

use super::bench::Bench;
use super::ways;
use super::Stored;
use crate::controller::{Answer, Code, Offer};
use crate::geometry::TABLE;
use crate::image::form_a;
use crate::images::draft::Draft;
use crate::images::{of_form_a, Case, Expect};
use crate::text::show_bytes;

pub fn all() -> Vec<Stored> {
    vec![
        Stored::new("damaged-images", damaged_images()),
        Stored::new("whole-images", whole_images()),
        Stored::new("starts", starts()),
    ]
}

/// The first cases of each group that a read can bring and that are short to
/// write down.
fn cases(expect: Expect, each: usize, most: usize) -> Vec<Vec<u8>> {
    let fit = |case: &Case| {
        case.expect == expect && case.bytes.len() == 532 && show_bytes(&case.bytes).len() <= most
    };
    let mut images = vec![];
    for group in of_form_a() {
        let fitting = group.cases.into_iter().filter(fit);
        images.extend(fitting.take(each).map(|case| case.bytes));
    }
    images
}

/// Answers the pending read of 4960 with these bytes.
fn bring(bench: &mut Bench, image: &[u8]) -> Answer {
    bench.surface(0, image)
}

fn damaged_images() -> Bench {
    let mut bench =
        Bench::new("Images of every kind of damage, nine to a start, then a whole one.");
    let whole = Draft::small().bytes();
    for nine in cases(Expect::Form, 3, 260).chunks(9) {
        bench.skipped("");
        bench.start();
        for image in nine {
            bring(&mut bench, image);
            bench.said_read(4960);
        }
        bench.image();
        bench.refused(Code::Place);
        bring(&mut bench, &whole);
        bench.said(Answer::Wait);
        bench.image();
        bench.said(Answer::Wait);
    }

    bench.note("Counts at their ends: 32 spares are read, 33 are not; 101 bad blocks are not.");
    let blocks = |count: u32| (256..256 + count).collect::<Vec<u32>>();
    let with = |spares: u32, bads: u32| Draft::new(&blocks(spares), &blocks(bads)).bytes();
    bench.start();
    bring(&mut bench, &with(33, 0));
    bench.said_read(4960);
    bring(&mut bench, &with(0, 101));
    bench.said_read(4960);
    bring(&mut bench, &with(32, 100));
    bench.said(Answer::Wait);
    bench.image();
    bench.read(0xFF_FFFF, 0, 0);
    bench.finished([0, 0, 0x80, 0]);

    bench.note("A whole image with answer 1 is no table; ten of them leave none.");
    bench.start();
    for read in 0..10 {
        bench.said_read(4960);
        bench.image();
        bench.refused(Code::Place);
        if read == 4 {
            bench.surface(1, &[0; 532]);
        } else {
            bench.surface(1, &whole);
        }
    }
    bench.said(Answer::Wait);
    bench.image();
    bench.refused(Code::Place);
    bench
}

fn whole_images() -> Bench {
    let mut bench = Bench::new("Whole images: what was read is written again, and gives sectors.");
    for image in cases(Expect::Table, 3, 260) {
        bench.hold(TABLE, &image);
        bench.restarted();
        bench.image();
        assert_eq!(bench.drive.record.table(), form_a::read(&image));
    }
    bench.note("Each of some spares leads its block to its sector.");
    let dead = 0xFF_FFFE;
    bench.started(&[9727, dead, 4928, 17, dead, 0], &[4928, 17]);
    for (block, sector) in [
        (9727, 4928),
        (4928, 4930),
        (17, 4931),
        (0, 4933),
        (1, 1),
        (4929, 4993),
    ] {
        bench.read(block, 0, 0);
        bench.said_read(sector);
        bench.good();
        bench.said(Answer::Finished);
    }
    bench.note("The last spare.");
    let mut spares = [dead; 32];
    spares[31] = 8;
    bench.started(&spares, &[]);
    bench.read(8, 0, 0);
    bench.said_read(4959);
    bench.good();
    bench.finished([0, 0, 0x80, 0]);
    bench
}

fn starts() -> Bench {
    let mut bench = Bench::new("A start in every phase, and a table that comes late.");
    for way in ways::quiet()
        .iter()
        .chain(&ways::reading())
        .chain(&ways::writing())
    {
        if way.name.ends_with("some fed") {
            continue;
        }
        bench.note(way.name);
        way.enter(&mut bench);
        bench.start();
        bench.said_read(4960);
        bench.holds(0);
        assert_eq!(bench.drive.status(), [0; 4]);
        bench.good();
        bench.said(Answer::Wait);
        bench.raise();
        bench.said(Answer::Offer(Offer::Command));
    }

    bench.note("The table comes with the tenth read.");
    bench.start();
    for _ in 0..9 {
        bench.timeout();
        bench.said_read(4960);
    }
    bench.good();
    bench.said(Answer::Wait);
    bench.read(17, 0, 0);
    bench.said_read(17);
    bench.good();
    bench.finished([0, 0, 0x80, 0]);

    bench.note("A start drops the latch, the changed mark and what was changed but not stored.");
    bench.started(&[], &[1, 2, 3]);
    bench.verify(2, &[0x1A; 532]);
    bench.trial_passes();
    bench.table_is(&[], &[1, 3]);
    bench.restarted();
    bench.table_is(&[], &[1, 2, 3]);
    bench.raise();
    bench.lower(0);
    bench.read(5, 0, 0);
    bench.no_settle();
    bench.write(5, &[0x1B; 532]);
    bench.finished([0x11, 0, 0, 0]);
    bench.restarted();
    bench.write(5, &[0x1B; 532]);
    bench.said_write(5);
    bench.good();
    bench.finished([0, 0, 0x80, 0]);

    bench.note("Answer 3 at a later read of the start.");
    bench.start();
    bench.timeout();
    bench.crc(9);
    bench.said_read(4960);
    bench.no_settle();
    bench.said(Answer::Wait);
    bench.image();
    bench.refused(Code::Place);
    bench
}
