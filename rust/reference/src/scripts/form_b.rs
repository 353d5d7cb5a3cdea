//! Form B: starts from either form and from damaged images, run numbers, and a drive
//! whose table passes from form A to form B (document 02, request 6).

use super::bench::{Bench, TABLE_IMAGE};
use super::Stored;
use crate::controller::{Answer, Code, Offer};
use crate::drive::Call;
use crate::geometry::TABLE;
use crate::image::{form_b, DEAD, TOP_RUN};
use crate::images::draft::Draft;
use crate::images::draft_b::DraftB;
use crate::images::{of_form_b, Case, Expect};
use crate::rng::Rng;
use crate::surface::Fate;
use crate::text::show_bytes;

pub fn all() -> Vec<Stored> {
    vec![
        Stored::new("form-b-starts", starts()),
        Stored::new("form-b-damaged", damaged()),
        Stored::new("run-numbers", run_numbers()),
        Stored::new("form-a-to-b", form_a_to_b()),
    ]
}

/// Gives cases of form B, so many from each group, that a read can bring and that
/// are short to write down.
pub fn cases(fit: impl Fn(Expect) -> bool, each: usize, most: usize) -> Vec<Vec<u8>> {
    let fit = |case: &Case| {
        fit(case.expect) && case.bytes.len() == 532 && show_bytes(&case.bytes).len() <= most
    };
    let mut images = vec![];
    for group in of_form_b() {
        let fitting = group.cases.into_iter().filter(fit);
        images.extend(fitting.take(each).map(|case| case.bytes));
    }
    images
}

/// Asserts that the table is this one, with its past, and that FFFFFF shows it in
/// form A.
#[track_caller]
fn shown(bench: &mut Bench, draft: &DraftB) {
    bench.history_is(draft.run, &draft.spares);
    bench.read(TABLE_IMAGE, 0, 0);
    bench.said(Answer::Finished);
    assert_eq!(bench.drive.data(), draft.form_a().bytes());
    let Draft { spares, bads, .. } = draft.form_a();
    bench.table_is(&spares, &bads);
}

fn starts() -> Bench {
    let mut bench = Bench::new("Starts from either form, an image call and FFFFFF after each.");
    let mut rng = Rng::new(601);
    for (spares, bads) in [(0, 0), (1, 0), (0, 1), (3, 4), (32, 100)] {
        let of_b = DraftB::of_size(&mut rng, spares, bads);
        bench.note(&format!("Lists of {spares} and {bads}, form B."));
        bench.started_b(&of_b);
        shown(&mut bench, &of_b);
        bench.note("The same lists in form A: nothing is known of the past.");
        let Draft { spares, bads, .. } = of_b.form_a();
        bench.started(&spares, &bads);
        let plain: Vec<(u32, u8)> = spares.iter().map(|&number| (number, 0)).collect();
        shown(&mut bench, &DraftB::new(0, &plain, &bads));
    }
    bench.note("Neither start is an unstored change; FFFFFD says so too.");
    for form_b in [false, true] {
        match form_b {
            true => bench.started_b(&DraftB::small()),
            false => bench.started(&[17, DEAD], &[5]),
        }
        bench.read(0xFF_FFFD, 0, 0);
        bench.finished([0, 0, 0x80, 0]);
        assert_eq!(bench.drive.data()[3], 0);
        bench.raise();
        bench.said(Answer::Offer(Offer::Command));
    }
    spares_of_form_b(&mut bench);
    whole_images(&mut bench);
    bench
}

fn spares_of_form_b(bench: &mut Bench) {
    bench.note("Each of some spares leads its block to its sector.");
    let spares = [(9727, 0), (DEAD, 1), (4928, 2), (17, 3), (DEAD, 3), (0, 1)];
    bench.started_b(&DraftB::new(12, &spares, &[4928, 17]));
    for (block, sector) in [
        (9727, 4928),
        (4928, 4930),
        (17, 4931),
        (0, 4933),
        (1, 1),
        (4929, 4993),
    ] {
        bench.read(block, 0, 0);
        bench.said_read(sector);
        bench.good();
        bench.said(Answer::Finished);
    }
    bench.note("A bad block is written: the trial comes at once, and it leaves the list.");
    bench.write(17, &[0xB1; 532]);
    bench.said_write(4931);
    bench.trial_passes();
    bench.said(Answer::Store);
    bench.timeout();
    bench.finished([0x05, 0, 0, 0]);
    bench.history_is(13, &spares);
    bench.note("A start drops what was not stored, and a start without a table all of it.");
    bench.restarted();
    bench.table_is(&[9727, DEAD, 4928, 17, DEAD, 0], &[4928, 17]);
    bench.started_without_table();
    bench.image();
    bench.refused(Code::Place);
    assert_eq!(bench.drive.record.causes, [0; 32]);
    assert_eq!(bench.drive.record.run, 0);
}

fn whole_images(bench: &mut Bench) {
    bench.note("Whole images of other kinds: what was read is written again.");
    for image in cases(|expect| expect == Expect::Table, 5, 200) {
        bench.hold(TABLE, &image);
        bench.restarted();
        bench.image();
        assert_eq!(bench.drive.record.table(), form_b::read(&image).ok());
    }
}

fn damaged() -> Bench {
    let mut bench =
        Bench::new("Images of form B with all damage, nine to a start, then a whole one.");
    let whole = DraftB::small();
    let fit = |expect| matches!(expect, Expect::Form | Expect::Sum | Expect::Field);
    for nine in cases(fit, 4, 260).chunks(9) {
        bench.skipped("");
        bench.start();
        for image in nine {
            bench.surface(0, image);
            bench.said_read(4960);
        }
        bench.image();
        bench.refused(Code::Place);
        bench.surface(0, &whole.bytes());
        bench.said(Answer::Wait);
        bench.history_is(whole.run, &whole.spares);
    }
    bench.note("Counts at their ends: 32 spares and 100 bad blocks are read, no more.");
    let with = |spares: u32, bads: u32| {
        let spares: Vec<(u32, u8)> = (256..256 + spares).map(|number| (number, 2)).collect();
        let bads: Vec<u32> = (512..512 + bads).collect();
        DraftB::new(3, &spares, &bads).bytes()
    };
    bench.start();
    for (spares, bads) in [(33, 0), (0, 101), (33, 100), (32, 101)] {
        bench.surface(0, &with(spares, bads));
        bench.said_read(4960);
    }
    bench.surface(0, &with(32, 100));
    bench.said(Answer::Wait);
    bench.image();
    bench.note("A whole image with answer 1 is no table, and ten refused ones leave none.");
    bench.start();
    let mut wrong = whole.bytes();
    wrong[531] ^= 1;
    for read in 0..10 {
        bench.said_read(4960);
        match read % 3 {
            0 => bench.surface(1, &whole.bytes()),
            _ => bench.surface(0, &wrong),
        };
    }
    bench.said(Answer::Wait);
    bench.image();
    bench.refused(Code::Place);
    bench.read(17, 0, 0);
    bench.finished([0x01, 0x08, 0x80, 0]);
    bench
}

/// Makes a read that fails and enters its block in the bad list, up to its store.
fn enter(bench: &mut Bench, block: u32) {
    bench.read(block, 0, 1);
    for _ in 0..11 {
        bench.timeout();
    }
    bench.said(Answer::Store);
}

/// Makes a good read, at whose end the table is stored.
fn read_on(bench: &mut Bench) {
    bench.read(9, 0, 1);
    bench.good();
    bench.said(Answer::Store);
}

/// Asserts that the store that is awaited has this run number, and answers it so.
#[track_caller]
fn stores(bench: &mut Bench, run: u32, answer: u8) {
    bench.said(Answer::Store);
    let spares = spares_now(bench);
    bench.history_is(run, &spares);
    bench.surface(answer, &[]);
    bench.said(Answer::Finished);
    bench.history_is(run, &spares);
}

/// Gives the spares with their causes as they are.
fn spares_now(bench: &Bench) -> Vec<(u32, u8)> {
    let record = &bench.drive.record;
    let numbers = record.spares.iter().copied();
    numbers.zip(record.causes).collect()
}

fn run_numbers() -> Bench {
    let mut bench = Bench::new("The run number goes up with each store asked for.");
    bench.started(&[8], &[]);
    bench.history_is(0, &[(8, 0)]);
    bench.note("The image that is fetched for a store has the new number, and keeps it when");
    bench.skipped("# the store fails.");
    enter(&mut bench, 70);
    stores(&mut bench, 1, 2);
    for (run, answer) in [(2, 2), (3, 2), (4, 0)] {
        read_on(&mut bench);
        stores(&mut bench, run, answer);
    }
    bench.note("With nothing to store it stays.");
    bench.read(9, 0, 1);
    bench.good();
    bench.finished([0; 4]);
    bench.history_is(4, &[(8, 0)]);
    bench.note("Refused answers to a store and refused calls count nothing.");
    enter(&mut bench, 71);
    bench.lend(Some(535), Call::Surface(0, vec![]));
    bench.refused(Code::Buffer);
    bench.raise();
    bench.refused(Code::Place);
    bench.surface(1, &[]);
    bench.refused(Code::Answer);
    bench.surface(0, &[5]);
    bench.refused(Code::Bytes);
    bench.history_is(5, &[(8, 0)]);
    bench.good();
    bench.note("A start takes the number of the image.");
    bench.restarted();
    bench.history_is(5, &[(8, 0)]);
    broken_off(&mut bench);
    carries(&mut bench);
    at_the_top(&mut bench);
    bench
}

fn broken_off(bench: &mut Bench) {
    bench.note("A start while a store is awaited: the old image has the old number, and the");
    bench.skipped("# new one the new number.");
    for (fate, run) in [(Fate::Old, 5), (Fate::New, 6)] {
        enter(bench, 72);
        bench.history_is(6, &[(8, 0)]);
        bench.cut(fate);
        bench.good();
        bench.history_is(run, &[(8, 0)]);
    }
    bench.note("Under the latch there is no store and no run.");
    enter(bench, 73);
    stores(bench, 7, 3);
    bench.read(9, 0, 0);
    bench.good();
    bench.finished([0; 4]);
    bench.history_is(7, &[(8, 0)]);
}

fn carries(bench: &mut Bench) {
    bench.note("Numbers whose lower bytes are full.");
    for run in [0xFF, 0xFFFF, 0x00FF_FFFF, 0x7FFF_FFFF] {
        bench.started_b(&DraftB::new(run, &[(8, 3)], &[]));
        enter(bench, 74);
        stores(bench, run + 1, 0);
        bench.restarted();
        bench.history_is(run + 1, &[(8, 3)]);
    }
}

fn at_the_top(bench: &mut Bench) {
    bench.note("At FFFFFFFF it stays, whether stores are done or not.");
    bench.started_b(&DraftB::new(TOP_RUN - 1, &[(8, 1)], &[]));
    bench.history_is(TOP_RUN - 1, &[(8, 1)]);
    for (block, answer) in [(75, 0), (76, 2), (77, 0)] {
        enter(bench, block);
        stores(bench, TOP_RUN, answer);
        if answer != 0 {
            read_on(bench);
            stores(bench, TOP_RUN, 0);
        }
    }
    bench.restarted();
    bench.history_is(TOP_RUN, &[(8, 1)]);
    enter(bench, 78);
    stores(bench, TOP_RUN, 0);
    bench.read(TABLE_IMAGE, 0, 0);
    bench.said(Answer::Finished);
    assert_eq!(
        bench.drive.data(),
        Draft::new(&[8], &[75, 76, 77, 78]).bytes()
    );
}

fn form_a_to_b() -> Bench {
    let mut bench = Bench::new("A table of form A stays so on the disk until something changes.");
    let of_a = Draft::new(&[8], &[9]).bytes();
    bench.started(&[8], &[9]);
    bench.read(8, 0, 0);
    bench.said_read(4928);
    bench.good();
    bench.raise();
    bench.said(Answer::Offer(Offer::Command));
    bench.lower(0);
    let held = |bench: &Bench| bench.sectors().get(TABLE).expect("an image").to_vec();
    assert_eq!(held(&bench), of_a);
    bench.note("A block moves, and the store writes form B.");
    bench.write(17, &[0xB2; 532]);
    bench.timeout();
    bench.said_write(4929);
    bench.trial_passes();
    assert_eq!(held(&bench), of_a);
    let stored = DraftB::new(1, &[(8, 0), (17, 2)], &[9]);
    stores(&mut bench, 1, 0);
    bench.finished([0x04, 0x04, 0, 0]);
    assert_eq!(held(&bench), stored.bytes());
    bench.note("A new start reads it; the block is at its spare, and FFFFFF shows form A.");
    bench.restarted();
    shown(&mut bench, &stored);
    bench.read(17, 0, 0);
    bench.said_read(4929);
    bench.good();
    bench.finished([0; 4]);
    bench.holds(0xB2);
    bench.note("The stored image, converted, is what FFFFFF showed; and back without its past.");
    let of_a = bench.converted(&stored.bytes());
    assert_eq!(of_a, stored.form_a().bytes());
    let forgotten = bench.converted(&of_a);
    assert_eq!(forgotten, DraftB::new(0, &[(8, 0), (17, 0)], &[9]).bytes());
    bench.note("It moves on, and the next store has the next number.");
    bench.write(17, &[0xB3; 532]);
    bench.said_write(4929);
    bench.timeout();
    bench.said_write(4930);
    bench.trial_passes();
    stores(&mut bench, 2, 0);
    bench.finished([0x04, 0x04, 0, 0]);
    bench.restarted();
    shown(
        &mut bench,
        &DraftB::new(2, &[(8, 0), (DEAD, 2), (17, 2)], &[9]),
    );
    bench.read(17, 0, 0);
    bench.said_read(4930);
    bench.good();
    bench.holds(0xB3);
    bench
}
