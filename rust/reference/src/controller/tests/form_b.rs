//! Form B of the table image (document 02, request 6): run number, causes, starts
//! from either form, and the call that turns one form into the other.

use super::*;
use crate::controller::acting::TABLE_IMAGE;
use crate::image::TOP_RUN;
use crate::images::draft_b::{summed, DraftB};

/// A drive that was started from these bytes.
fn started_from(image: &[u8]) -> Drive {
    let mut drive = Drive::new();
    assert_eq!(said(&mut drive, Call::Start), Answer::Read(TABLE));
    assert_eq!(surface(&mut drive, 0, image), Answer::Wait);
    drive
}

/// The same after its first finish.
fn worn_from(draft: &DraftB) -> Drive {
    let mut drive = started_from(&draft.bytes());
    assert_eq!(command(&mut drive, DEAD, 0, 0), Answer::Finished);
    drive
}

/// What the image call gives.
fn image(drive: &mut Drive) -> Vec<u8> {
    let returned = drive.call(&Call::Image);
    assert_eq!(returned.answer, Answer::Wait);
    returned.image.expect("an image")
}

/// The spare entries with their causes.
fn entries(drive: &Drive) -> Vec<(u32, u8)> {
    let Record { spares, causes, .. } = &drive.record;
    spares.iter().copied().zip(*causes).collect()
}

/// A read of this block fails, so that it is entered in the bad list; the store is
/// awaited.
fn enter(drive: &mut Drive, block: u32) {
    command(drive, block, 0, 0);
    assert_eq!(reads(drive, "ttttttttttt"), Answer::Store);
}

/// The trial whose write is awaited: it is done, and the rereads are answered so.
/// The rest of the hundred is good.
fn trial(drive: &mut Drive, answers: &str) -> Answer {
    surface(drive, 0, &[]);
    reads(drive, answers);
    reads(drive, &"g".repeat(100 - answers.len()))
}

#[test]
fn the_image_call_gives_form_b_and_ffffff_form_a() {
    let draft = DraftB::small();
    for start in [draft.bytes(), draft.form_a().bytes()] {
        let mut drive = started_from(&start);
        let known = start == draft.bytes();
        let wanted = match known {
            true => draft.clone(),
            // Form A says nothing of the past.
            false => draft.with(|it| {
                it.run = 0;
                it.spares.iter_mut().for_each(|entry| entry.1 = 0);
            }),
        };
        assert_eq!(image(&mut drive), wanted.bytes());
        assert_eq!(command(&mut drive, TABLE_IMAGE, 0, 0), Answer::Finished);
        assert_eq!(drive.data(), draft.form_a().bytes());
        // Neither start is an unstored change.
        assert_eq!(said(&mut drive, Call::Raise), Answer::Offer(Offer::Command));
        assert_eq!(image(&mut drive), wanted.bytes());
    }
}

#[test]
fn refused_forms_count_as_tries() {
    let whole = DraftB::small();
    let mut sum = whole.bytes();
    sum[531] ^= 1;
    let mut content = whole.bytes();
    content[529] = 1;
    let content = summed(content);
    let neither = whole.with(|it| it.begin[0] = 0xF1).bytes();
    let mut drive = Drive::new();
    said(&mut drive, Call::Start);
    for _ in 0..3 {
        for bytes in [&sum, &content, &neither] {
            assert_eq!(surface(&mut drive, 0, bytes), Answer::Read(TABLE));
        }
    }
    let mut tenth = drive.clone();
    assert_eq!(surface(&mut drive, 0, &sum), Answer::Wait);
    assert!(!drive.record.known);
    assert_eq!((drive.record.run, drive.record.causes), (0, [0; 32]));
    assert_eq!(surface(&mut tenth, 0, &whole.bytes()), Answer::Wait);
    assert_eq!(image(&mut tenth), whole.bytes());
    // A whole image with answer 1 is no table.
    let mut drive = Drive::new();
    said(&mut drive, Call::Start);
    let answer = surface(&mut drive, 1, &whole.bytes());
    assert_eq!(answer, Answer::Read(TABLE));
}

#[test]
fn a_start_forgets_run_number_and_causes() {
    let mut drive = started_from(&DraftB::small().bytes());
    assert_eq!(drive.record.run, 0x0102_0304);
    said(&mut drive, Call::Start);
    assert_eq!((drive.record.run, drive.record.causes), (0, [0; 32]));
    surface(&mut drive, 3, &[]);
    assert_eq!((drive.record.run, drive.record.causes), (0, [0; 32]));
}

#[test]
fn each_store_asked_for_is_one_run() {
    let mut drive = worn(&[], &[]);
    enter(&mut drive, 5);
    for (run, answer) in [(1, 2), (2, 2), (3, 0)] {
        // The image that is fetched for the store has the new number.
        let stored = DraftB::new(run, &[], &[5]).bytes();
        assert_eq!(image(&mut drive), stored);
        assert_eq!(surface(&mut drive, answer, &[]), Answer::Finished);
        assert_eq!(image(&mut drive), stored);
        command(&mut drive, 6, 0, 0);
        let stores = if answer == 0 {
            Answer::Finished
        } else {
            Answer::Store
        };
        assert_eq!(reads(&mut drive, "g"), stores);
    }
    // With nothing to store it stays.
    assert_eq!(drive.record.run, 3);
}

#[test]
fn the_run_number_stays_at_its_top() {
    let mut drive = worn_from(&DraftB::new(TOP_RUN - 1, &[], &[]));
    for block in 5..8 {
        enter(&mut drive, block);
        assert_eq!(image(&mut drive)[4..8], [0xFF; 4]);
        store_done(&mut drive);
    }
    assert_eq!(drive.record.run, TOP_RUN);
}

#[test]
fn refused_calls_count_no_run() {
    let mut drive = worn(&[], &[]);
    command(&mut drive, 5, 0, 0);
    reads(&mut drive, "tttttttttt");
    let refused = drive.lend(Some(535), &Call::Surface(2, vec![])).answer;
    assert_eq!(refused, Answer::Refused(Code::Buffer));
    assert_eq!(drive.record.run, 0);
    assert_eq!(reads(&mut drive, "t"), Answer::Store);
    assert_eq!(said(&mut drive, Call::Raise), Answer::Refused(Code::Place));
    assert_eq!(drive.record.run, 1);
}

#[test]
fn a_live_entry_has_the_last_failure_before_its_spare() {
    // By the trial of a read, whatever failed before.
    for (first, answers, cause) in [
        ("t", "c".repeat(31), 1),
        ("c", "t".repeat(31), 2),
        ("c", "t".repeat(30) + "c", 1),
        ("c", "c".repeat(30) + "t", 2),
    ] {
        let mut drive = worn(&[], &[]);
        command(&mut drive, 5, 0, 0);
        reads(&mut drive, first);
        assert_eq!(reads(&mut drive, "g"), write_of(5));
        assert_eq!(trial(&mut drive, &answers), write_of(4928));
        // Failures of the spare's own trial do not count.
        assert_eq!(trial(&mut drive, "ct"), Answer::Store);
        store_done(&mut drive);
        assert_eq!(entries(&drive), [(5, cause)], "{answers}");
    }
    // By a timeout of a write.
    for (opcode, bads) in [(1, vec![]), (2, vec![]), (1, vec![5]), (2, vec![5])] {
        let mut drive = worn(&[], &bads);
        write(&mut drive, opcode, 5, &GOOD);
        assert_eq!(surface(&mut drive, 2, &[]), write_of(4928));
        assert_eq!(trial(&mut drive, "c"), Answer::Store);
        store_done(&mut drive);
        assert_eq!(entries(&drive), [(5, 2)]);
    }
    // By other bytes in the last reread that failed.
    let mut drive = worn(&[], &[5]);
    write(&mut drive, 2, 5, &GOOD);
    surface(&mut drive, 0, &[]);
    reads(&mut drive, &"t".repeat(98));
    surface(&mut drive, 0, &[0; 532]);
    assert_eq!(reads(&mut drive, "g"), write_of(4928));
    assert_eq!(trial(&mut drive, ""), Answer::Store);
    store_done(&mut drive);
    assert_eq!(entries(&drive), [(5, 1)]);
    // A first verify that failed is forgotten behind the timeout of the trial.
    let mut drive = worn(&[], &[]);
    write(&mut drive, 2, 5, &GOOD);
    surface(&mut drive, 0, &[]);
    assert_eq!(reads(&mut drive, "c"), write_of(5));
    assert_eq!(surface(&mut drive, 2, &[]), write_of(4928));
    assert_eq!(trial(&mut drive, ""), Answer::Store);
    store_done(&mut drive);
    assert_eq!(entries(&drive), [(5, 2)]);
}

#[test]
fn a_dead_entry_has_the_last_failure_on_its_spare() {
    let mut drive = worn(&[], &[]);
    write(&mut drive, 1, 5, &GOOD);
    assert_eq!(surface(&mut drive, 2, &[]), write_of(4928));
    let crc = "t".repeat(40) + "c";
    assert_eq!(trial(&mut drive, &crc), write_of(4929));
    assert_eq!(entries(&drive), [(DEAD, 1)]);
    let timeout = "c".repeat(40) + "t";
    assert_eq!(trial(&mut drive, &timeout), write_of(4930));
    assert_eq!(entries(&drive), [(DEAD, 1), (DEAD, 2)]);
    assert_eq!(trial(&mut drive, &"c".repeat(31)), write_of(4931));
    assert_eq!(surface(&mut drive, 2, &[]), write_of(4932));
    let dead = [(DEAD, 1), (DEAD, 2), (DEAD, 1), (DEAD, 2)];
    assert_eq!(entries(&drive), dead);
    // The live one after them has the last failure on the last of them.
    assert_eq!(trial(&mut drive, "c"), Answer::Store);
    store_done(&mut drive);
    assert_eq!(entries(&drive), [&dead[..], &[(5, 2)]].concat());
}

#[test]
fn a_spare_dead_by_answer_3() {
    for answers in [None, Some(""), Some("cc"), Some("tt")] {
        let mut drive = worn(&[], &[]);
        write(&mut drive, 1, 5, &GOOD);
        surface(&mut drive, 2, &[]);
        if let Some(answers) = answers {
            surface(&mut drive, 0, &[]);
            reads(&mut drive, answers);
        }
        assert_eq!(surface(&mut drive, 3, &[]), Answer::Finished);
        assert_eq!(entries(&drive), [(DEAD, 3)]);
    }
    // On the present spare it leaves the entry and its cause.
    let draft = DraftB::new(1, &[(5, 1)], &[]);
    let mut drive = worn_from(&draft);
    write(&mut drive, 1, 5, &GOOD);
    assert_eq!(surface(&mut drive, 3, &[]), Answer::Finished);
    assert_eq!(entries(&drive), [(5, 1)]);
}

#[test]
fn an_old_entry_has_the_last_failure_on_its_own_spare() {
    // The present spare fails by CRC errors, the next one by a timeout.
    let crc = "c".repeat(31);
    for former in 0..=3 {
        let draft = DraftB::new(1, &[(8, 3), (5, former)], &[5]);
        let mut drive = worn_from(&draft);
        assert_eq!(write(&mut drive, 2, 5, &GOOD), write_of(4929));
        assert_eq!(trial(&mut drive, &crc), write_of(4930));
        assert_eq!(surface(&mut drive, 2, &[]), write_of(4931));
        // Until it moves the entry has its former cause.
        assert_eq!(entries(&drive), [(8, 3), (5, former), (DEAD, 2)]);
        assert_eq!(trial(&mut drive, "c"), Answer::Store);
        store_done(&mut drive);
        assert_eq!(entries(&drive), [(8, 3), (DEAD, 1), (DEAD, 2), (5, 2)]);
    }
    // The other way round: a timeout there, CRC errors in between.
    let mut drive = worn_from(&DraftB::new(1, &[(5, 1)], &[]));
    assert_eq!(write(&mut drive, 1, 5, &GOOD), write_of(4928));
    assert_eq!(surface(&mut drive, 2, &[]), write_of(4929));
    assert_eq!(trial(&mut drive, &crc), write_of(4930));
    assert_eq!(trial(&mut drive, ""), Answer::Store);
    store_done(&mut drive);
    assert_eq!(entries(&drive), [(DEAD, 2), (DEAD, 1), (5, 1)]);
    // With nothing in between both have the same.
    let mut drive = worn_from(&DraftB::new(1, &[(5, 3)], &[]));
    write(&mut drive, 1, 5, &GOOD);
    surface(&mut drive, 2, &[]);
    assert_eq!(trial(&mut drive, "cc"), Answer::Store);
    store_done(&mut drive);
    assert_eq!(entries(&drive), [(DEAD, 2), (5, 2)]);
}

#[test]
fn without_a_spare_the_old_entry_keeps_its_cause() {
    let mut spares = vec![(DEAD, 0); 31];
    spares[4] = (5, 3);
    let mut drive = worn_from(&DraftB::new(1, &spares, &[]));
    assert_eq!(write(&mut drive, 1, 5, &GOOD), write_of(4932));
    assert_eq!(surface(&mut drive, 2, &[]), write_of(4959));
    assert_eq!(trial(&mut drive, &"c".repeat(31)), Answer::Store);
    store_done(&mut drive);
    spares.push((DEAD, 1));
    assert_eq!(entries(&drive), spares);
}

#[test]
fn failures_of_an_earlier_command_are_forgotten() {
    let mut drive = worn(&[], &[]);
    command(&mut drive, 5, 1, 9);
    assert_eq!(reads(&mut drive, "cg"), Answer::Finished);
    write(&mut drive, 1, 6, &GOOD);
    assert_eq!(surface(&mut drive, 2, &[]), write_of(4928));
    assert_eq!(trial(&mut drive, ""), Answer::Store);
    store_done(&mut drive);
    assert_eq!(entries(&drive), [(6, 2)]);
}

#[test]
fn damaged_causes() {
    for known in [false, true] {
        let with = |used: usize, place: usize, cause: u8| {
            let mut record = Record {
                spares: vec![DEAD; used],
                known,
                ..Record::new()
            };
            record.causes[place] = cause;
            record
        };
        for cause in 0..=3 {
            inside(&with(1, 0, cause));
            inside(&with(32, 31, cause));
        }
        for cause in [4, 5, 128, 255] {
            outside(&with(1, 0, cause));
            outside(&with(7, 3, cause));
            outside(&with(32, 31, cause));
            // Causes of no entry are not tested.
            let record = with(3, 3, cause);
            assert!(record.valid());
            let mut drive = Drive {
                record,
                buffer: vec![0; 536],
            };
            assert_eq!(said(&mut drive, Call::Reset), Answer::Wait);
        }
    }
}

#[test]
fn convert_turns_either_form_into_the_other() {
    for draft in [
        DraftB::new(0, &[], &[]),
        DraftB::small(),
        DraftB::new(TOP_RUN, &[(DEAD, 3); 32], &(0..100).collect::<Vec<_>>()),
    ] {
        let of_a = draft.form_a().bytes();
        let mut into = [7; 532];
        assert_eq!(convert(&draft.bytes(), &mut into), Answer::Wait);
        assert_eq!(into[..], of_a);
        // A to B has run number and causes 0.
        let plain: Vec<(u32, u8)> = draft.spares.iter().map(|entry| (entry.0, 0)).collect();
        let of_b = DraftB::new(0, &plain, &draft.bads).bytes();
        assert_eq!(convert(&of_a, &mut into), Answer::Wait);
        assert_eq!(into[..], of_b);
        // A to B to A is the first image.
        assert_eq!(convert(&of_b, &mut into), Answer::Wait);
        assert_eq!(into[..], of_a);
    }
}

#[test]
fn refusals_of_convert_in_their_order() {
    let whole = DraftB::small().bytes();
    let refused = |image: &[u8], length: usize| {
        let mut into = vec![0x3C; length];
        let answer = convert(image, &mut into);
        assert_eq!(into, vec![0x3C; length]);
        match answer {
            Answer::Refused(code) => code.number(),
            _ => 0,
        }
    };
    let mut sum = whole.clone();
    sum[530] ^= 1;
    let mut content = whole.clone();
    content[9] = 33;
    let neither = [0x44; 532];
    // The length comes first, of either buffer.
    for image in [&whole[..], &sum, &content, &neither] {
        for length in [0, 531, 533, 536] {
            assert_eq!(refused(image, length), 2);
            let mut other = image.to_vec();
            other.resize(length, 0);
            assert_eq!(refused(&other, 532), 2);
            assert_eq!(refused(&other, length), 2);
        }
    }
    assert_eq!(refused(&neither, 532), 6);
    assert_eq!(refused(&sum, 532), 7);
    // Both are wrong: the sum comes first.
    assert_eq!(refused(&content, 532), 7);
    assert_eq!(refused(&summed(content), 532), 8);
}
