//! The library through its safe API, by hand.

use std::path::{Path, PathBuf};
use std::vec;
use std::vec::Vec;
use std::{env, fs};

use crate::fields::Fields;
use crate::raw::kind;
use crate::{
    cause, convert, form_b, parity, surface, Answer, Code, Drive, Offer, Sector, BUFFER, GO_ON,
    SECTOR_BYTES, TABLE,
};

/// The archive that was linked.
const LINKED: &[u8] = include_bytes!(concat!(env!("OUT_DIR"), "/libbumivondra.a"));

#[test]
fn the_linked_library_is_the_one_in_place() {
    let folder = match env::var_os("BUMIVONDRA_LIB") {
        Some(folder) => PathBuf::from(folder),
        None => {
            let package = env::var_os("CARGO_MANIFEST_DIR").expect("cargo sets it");
            Path::new(&package).join("../../target/staticlib")
        }
    };
    let library = fs::read(folder.join("libbumivondra.a")).expect("the library");
    assert!(library == LINKED, "touch the library, and cargo links it");
}

/// The entry of a dead spare.
const DEAD: u32 = 0xFF_FFFE;

/// The image of form A of a table with these entries.
fn image(spares: &[u32], bads: &[u32]) -> Vec<u8> {
    let mut bytes = b"PROFILE      \x00\x00\x00\x03\x90\x00\x26\x00\x02\x14\x20".to_vec();
    bytes.extend([spares.len() as u8, bads.len() as u8]);
    for list in [spares, bads] {
        for entry in list {
            bytes.extend(&entry.to_be_bytes()[1..]);
        }
        bytes.extend([0xFF; 3]);
    }
    bytes.resize(SECTOR_BYTES, 0);
    bytes
}

/// The image of form B of a table with this run number and these entries, each spare
/// with its cause.
fn image_b(run: u32, spares: &[(u32, u8)], bads: &[u32]) -> Vec<u8> {
    let bads_at = 16 + 4 * spares.len();
    let mut bytes = form_b::MAGIC.to_vec();
    bytes.extend(run.to_be_bytes());
    for number in [spares.len(), 16, bads.len(), bads_at] {
        bytes.extend((number as u16).to_be_bytes());
    }
    for (entry, cause) in spares {
        bytes.extend(&entry.to_be_bytes()[1..]);
        bytes.push(*cause);
    }
    for entry in bads {
        bytes.extend(&entry.to_be_bytes()[1..]);
    }
    bytes.resize(SECTOR_BYTES, 0);
    summed(bytes)
}

/// The bytes with the right sum.
fn summed(mut bytes: Vec<u8>) -> Vec<u8> {
    let sum: u32 = bytes[..form_b::SUM].iter().map(|&b| u32::from(b)).sum();
    bytes[form_b::SUM..].copy_from_slice(&(sum as u16).to_be_bytes());
    bytes
}

/// A drive that has started with an empty table.
fn started() -> (Drive, Vec<u8>) {
    started_with(&image(&[], &[]))
}

/// A drive that has started with the table of this image.
fn started_with(image: &[u8]) -> (Drive, Vec<u8>) {
    let (mut drive, mut buffer) = (Drive::new(), vec![7; BUFFER]);
    assert_eq!(drive.start(&mut buffer), Answer::Read(TABLE));
    assert_eq!(buffer, vec![0; BUFFER]);
    let read = drive.surface(&mut buffer, surface::GOOD, image);
    assert_eq!(read, Answer::Wait);
    (drive, buffer)
}

/// Feeds a command, and data if there are any, up to the last handshake.
fn command(drive: &mut Drive, buffer: &mut [u8], bytes: &[u8], data: &[u8]) -> Answer {
    assert_eq!(drive.raise(buffer), Answer::Offer(Offer::Command));
    assert_eq!(drive.lower(buffer, GO_ON), Answer::Wait);
    assert_eq!(drive.feed(buffer, bytes), Answer::Wait);
    let offered = drive.raise(buffer);
    if bytes[0] == 0 {
        assert_eq!(offered, Answer::Offer(Offer::Read));
    } else {
        let write = [Offer::Write, Offer::Verify][usize::from(bytes[0]) - 1];
        assert_eq!(offered, Answer::Offer(write));
        assert_eq!(drive.lower(buffer, GO_ON), Answer::Wait);
        assert_eq!(drive.feed(buffer, data), Answer::Wait);
        assert_eq!(drive.raise(buffer), Answer::Offer(Offer::Act));
    }
    drive.lower(buffer, GO_ON)
}

#[test]
fn a_write_and_a_read() {
    let (mut drive, mut buffer) = started();
    let data = [0x5A; SECTOR_BYTES];
    // 4928 is 1340 hex; its home lies behind cylinder 77.
    let asked = command(&mut drive, &mut buffer, &[1, 0, 0x13, 0x40], &data);
    assert_eq!(asked, Answer::Write(Sector(4992)));
    assert_eq!(buffer[4..], data);
    let done = drive.surface(&mut buffer, surface::GOOD, &[]);
    assert_eq!(done, Answer::Finished);
    assert_eq!(buffer[..4], [0, 0, 0x80, 0]);

    let asked = command(&mut drive, &mut buffer, &[0, 0, 0x13, 0x40, 10, 3], &[]);
    assert_eq!(asked, Answer::Read(Sector(4992)));
    let done = drive.surface(&mut buffer, surface::GOOD, &[0xA5; SECTOR_BYTES]);
    assert_eq!(done, Answer::Finished);
    assert_eq!(buffer[..4], [0; 4]);
    assert_eq!(buffer[4..], [0xA5; SECTOR_BYTES]);
}

#[test]
fn a_block_that_moves_and_the_store() {
    let (mut drive, mut buffer) = started();
    let data = [0x11; SECTOR_BYTES];
    let mut answer = command(&mut drive, &mut buffer, &[2, 0, 0, 17], &data);
    assert_eq!(answer, Answer::Write(Sector(17)));
    answer = drive.surface(&mut buffer, surface::GOOD, &[]);
    assert_eq!(answer, Answer::Read(Sector(17)));
    // The first verify fails, then 31 rereads of the trial on the same sector.
    answer = drive.surface(&mut buffer, surface::GOOD, &[0x12; SECTOR_BYTES]);
    assert_eq!(answer, Answer::Write(Sector(17)));
    answer = drive.surface(&mut buffer, surface::GOOD, &[]);
    for reread in 0..100 {
        assert_eq!(answer, Answer::Read(Sector(17)), "{reread}");
        answer = match reread {
            0..31 => drive.surface(&mut buffer, surface::TIMEOUT, &[]),
            _ => drive.surface(&mut buffer, surface::GOOD, &data),
        };
    }
    assert_eq!(answer, Answer::Write(Sector(4928)));
    answer = drive.surface(&mut buffer, surface::GOOD, &[]);
    for reread in 0..100 {
        assert_eq!(answer, Answer::Read(Sector(4928)), "{reread}");
        answer = drive.surface(&mut buffer, surface::GOOD, &data);
    }
    // The command has ended, and finishes after the store.
    assert_eq!((answer, drive.phase()), (Answer::Store, kind::STORE));
    assert!(drive.has_unstored() && drive.has_unstored_place());
    assert_eq!(buffer[..4], [0; 4]);
    let busy = Answer::Refused(Code::Place);
    assert_eq!(drive.reset(&mut buffer), busy);
    assert_eq!(drive.raise(&mut buffer), busy);
    // The last failure before the spare was a timeout.
    assert_eq!(stored(&drive), image_b(1, &[(17, cause::TIMEOUT)], &[]));
    answer = drive.surface(&mut buffer, surface::GOOD, &[]);
    assert_eq!(answer, Answer::Finished);
    assert_eq!(buffer[..4], [0x0C, 0x04, 0x80, 0]);
    assert!(!drive.has_unstored() && !drive.has_unstored_place());
    assert_eq!(drive.raise(&mut buffer), Answer::Offer(Offer::Command));
}

/// Moves block 17 to spare 0 by a plain write that times out, up to the store.
fn moved(drive: &mut Drive, buffer: &mut [u8]) {
    let asked = command(drive, buffer, &[1, 0, 0, 17], &[0x44; SECTOR_BYTES]);
    assert_eq!(asked, Answer::Write(Sector(17)));
    let asked = drive.surface(buffer, surface::TIMEOUT, &[]);
    assert_eq!(asked, Answer::Write(Sector(4928)));
    let asked = trial(drive, buffer, 0, surface::CRC);
    assert_eq!(asked, Answer::Store);
}

#[test]
fn stores_that_fail() {
    let (mut drive, mut buffer) = started();
    moved(&mut drive, &mut buffer);
    let done = drive.surface(&mut buffer, surface::TIMEOUT, &[]);
    assert_eq!(done, Answer::Finished);
    assert_eq!(buffer[..4], [0x05, 0x04, 0x80, 0]);
    // Numbers of no block store nothing, and show what is unstored.
    let done = command(&mut drive, &mut buffer, &READ_HEALTH, &[]);
    assert_eq!(
        (done, &buffer[4..8]),
        (Answer::Finished, &[31, 0, 0, 1][..])
    );
    // A first good read stores, and so does a write that was fed too much.
    let read = [0, 0, 0, 99, 0, 1];
    command(&mut drive, &mut buffer, &read, &[]);
    let asked = drive.surface(&mut buffer, surface::GOOD, &[0x66; SECTOR_BYTES]);
    assert_eq!(asked, Answer::Store);
    drive.surface(&mut buffer, surface::TIMEOUT, &[]);
    assert_eq!((&buffer[..4], buffer[4]), (&[0x05, 0, 0, 0][..], 0x66));
    let asked = command(&mut drive, &mut buffer, &[1, 0, 0, 99], &[0; 533]);
    assert_eq!(asked, Answer::Store);
    drive.surface(&mut buffer, surface::NO_SETTLE, &[]);
    assert_eq!(buffer[..4], [0x51, 0, 0, 0]);
    assert!(drive.is_latched() && drive.has_unstored_place());
    // Under the latch a read is made and fails, since a block's place is unstored.
    command(&mut drive, &mut buffer, &read, &[]);
    let done = drive.surface(&mut buffer, surface::GOOD, &[0x77; SECTOR_BYTES]);
    assert_eq!(done, Answer::Finished);
    assert_eq!((&buffer[..4], buffer[4]), (&[0x01, 0, 0, 0][..], 0x77));
    assert_eq!(drive.run_number(), 3);
}

#[test]
fn a_place_is_more_than_a_change() {
    let (mut drive, mut buffer) = started();
    let read = [0, 0, 0, 99, 0, 1];
    for (block, mark) in [(18, false), (17, true)] {
        match mark {
            true => moved(&mut drive, &mut buffer),
            false => assert_eq!(lost(&mut drive, &mut buffer, block), Answer::Store),
        }
        assert_eq!(drive.has_unstored_place(), mark);
        let mut latched = drive.clone();
        latched.surface(&mut buffer, surface::NO_SETTLE, &[]);
        assert_eq!(latched.has_unstored_place(), mark);
        command(&mut latched, &mut buffer, &read, &[]);
        let data = [0x66; SECTOR_BYTES];
        let done = latched.surface(&mut buffer, surface::GOOD, &data);
        assert_eq!(done, Answer::Finished);
        assert_eq!(buffer[..4], [u8::from(mark), 0, 0, 0]);
        drive.surface(&mut buffer, surface::GOOD, &[]);
    }
}

#[test]
fn a_start_at_any_time() {
    let (mut drive, mut buffer) = started();
    moved(&mut drive, &mut buffer);
    let (mut storing, mut other) = (drive.clone(), vec![0xEE; BUFFER]);
    assert_eq!(storing.start(&mut other), Answer::Read(TABLE));
    let (mut new, mut zeros) = (Drive::new(), vec![0; BUFFER]);
    new.start(&mut zeros);
    assert_eq!((storing, other), (new, zeros));
}

/// Answers a trial from its write on: so many rereads are answered like this, the
/// others bring the data part.
fn trial(drive: &mut Drive, buffer: &mut [u8], failures: usize, failure: u8) -> Answer {
    let data = buffer[4..].to_vec();
    drive.surface(buffer, surface::GOOD, &[]);
    for reread in 1..=100 {
        let (answer, bytes) = match (reread <= failures, failure) {
            (true, surface::CRC) => (surface::CRC, &data[..]),
            (true, _) => (failure, &[][..]),
            (false, _) => (surface::GOOD, &data[..]),
        };
        let answered = drive.surface(buffer, answer, bytes);
        if reread == 100 || answered == Answer::Finished {
            return answered;
        }
    }
    unreachable!("the hundredth reread is the last");
}

/// The image that a drive gives.
fn stored(drive: &Drive) -> Vec<u8> {
    let mut lent = [0xEE; SECTOR_BYTES];
    assert_eq!(drive.image(&mut lent), Answer::Wait);
    lent.to_vec()
}

#[test]
fn causes_of_entries() {
    // Block 17 is at spare 1, by an older no settle.
    let table = image_b(7, &[(DEAD, 0), (17, cause::NO_SETTLE)], &[17]);
    let (mut drive, mut buffer) = started_with(&table);
    let data = [0x33; SECTOR_BYTES];
    let asked = command(&mut drive, &mut buffer, &[1, 0, 0, 17], &data);
    assert_eq!(asked, Answer::Write(Sector(4929)));
    // On the present sector CRC errors are the last failures, on spare 2 a timeout of
    // its write, on spare 3 timeouts; spare 4 passes with CRC errors of its own.
    let asked = trial(&mut drive, &mut buffer, 31, surface::CRC);
    assert_eq!(asked, Answer::Write(Sector(4930)));
    let asked = drive.surface(&mut buffer, surface::TIMEOUT, &[]);
    assert_eq!(asked, Answer::Write(Sector(4931)));
    let asked = trial(&mut drive, &mut buffer, 100, surface::TIMEOUT);
    assert_eq!(asked, Answer::Write(Sector(4932)));
    let asked = trial(&mut drive, &mut buffer, 30, surface::CRC);
    assert_eq!(asked, Answer::Store);
    let moved = [
        (DEAD, 0),
        (DEAD, cause::CRC),
        (DEAD, cause::TIMEOUT),
        (DEAD, cause::TIMEOUT),
        (17, cause::TIMEOUT),
    ];
    assert_eq!(stored(&drive), image_b(8, &moved, &[]));
    let done = drive.surface(&mut buffer, surface::GOOD, &[]);
    assert_eq!((done, &buffer[..2]), (Answer::Finished, &[0x0C, 4][..]));

    // A no settle on spare 5 kills it. Under the latch nothing is stored.
    command(&mut drive, &mut buffer, &[1, 0, 0, 18], &data);
    let asked = drive.surface(&mut buffer, surface::TIMEOUT, &[]);
    assert_eq!(asked, Answer::Write(Sector(4933)));
    let done = trial(&mut drive, &mut buffer, 1, surface::NO_SETTLE);
    assert_eq!(done, Answer::Finished);
    let killed = [&moved[..], &[(DEAD, cause::NO_SETTLE)]].concat();
    assert_eq!(stored(&drive), image_b(8, &killed, &[]));
    assert!(drive.has_unstored() && !drive.has_unstored_place());
}

#[test]
fn run_numbers_stay_at_their_top() {
    for (run, wanted) in [
        (0, [1, 2]),
        (0xFFFF, [0x1_0000, 0x1_0001]),
        (u32::MAX - 1, [u32::MAX; 2]),
        (u32::MAX, [u32::MAX; 2]),
    ] {
        let (mut drive, mut buffer) = started_with(&image_b(run, &[], &[]));
        assert_eq!(stored(&drive), image_b(run, &[], &[]));
        for wanted in wanted {
            // The second time it is in the bad list already.
            assert_eq!(lost(&mut drive, &mut buffer, 17), Answer::Store);
            assert_eq!(stored(&drive), image_b(wanted, &[], &[17]));
            assert_eq!(Fields::of(drive.record()).run, wanted);
            drive.surface(&mut buffer, surface::TIMEOUT, &[]);
        }
    }
}

#[test]
fn the_table_is_shown_in_form_a() {
    let (mut drive, mut buffer) = started_with(&image_b(9, &[(5, 3), (DEAD, 1)], &[7]));
    let read = [0, 0xFF, 0xFF, 0xFF, 10, 3];
    let done = command(&mut drive, &mut buffer, &read, &[]);
    assert_eq!(done, Answer::Finished);
    assert_eq!(buffer[4..], image(&[5, DEAD], &[7]));
    assert!(!drive.has_unstored());
}

#[test]
fn either_form_into_the_other() {
    let (spares, bads): (Vec<u32>, Vec<u32>) = ((0..32).collect(), (50..150).collect());
    for (spares, bads) in [
        (&[][..], &[][..]),
        (&[5, DEAD, 9727, DEAD][..], &[5, 7][..]),
        (&spares, &bads),
    ] {
        let of_a = image(spares, bads);
        let with = |run, cause| {
            let spares: Vec<_> = spares.iter().map(|&entry| (entry, cause)).collect();
            image_b(run, &spares, bads)
        };
        let mut lent = [0xEE; SECTOR_BYTES];
        assert_eq!(convert(&of_a, &mut lent), Answer::Wait);
        assert_eq!(lent[..], with(0, cause::UNKNOWN));
        for past in [lent.to_vec(), with(u32::MAX, cause::NO_SETTLE)] {
            let mut back = [0xEE; SECTOR_BYTES];
            assert_eq!(convert(&past, &mut back), Answer::Wait);
            assert_eq!(back[..], of_a);
        }
    }
}

#[test]
fn converts_that_are_refused() {
    let (of_a, of_b) = (image(&[5], &[7]), image_b(1, &[(5, 2)], &[7]));
    let with = |place: usize, byte: u8| {
        let mut bytes = of_b.clone();
        bytes[place] = byte;
        bytes
    };
    let mut short_a = of_a.clone();
    short_a[25] = 0;
    let refused = |from: &[u8], length: usize, code: Code| {
        let mut lent = vec![0xEE; length];
        assert_eq!(convert(from, &mut lent), Answer::Refused(code));
        assert_eq!(lent, vec![0xEE; length]);
    };
    for length in [0, 1, 531, 533, 536] {
        refused(&of_a, length, Code::Buffer);
        refused(&vec![0xF0; length], SECTOR_BYTES, Code::Buffer);
    }
    for bytes in [vec![0; SECTOR_BYTES], short_a, with(3, 0x1F)] {
        refused(&bytes, SECTOR_BYTES, Code::Form);
        refused(&summed(bytes), SECTOR_BYTES, Code::Form);
    }
    // Counts and offsets, a block and its cause, a bad block, and a zero.
    for (place, byte) in [
        (8, 1),
        (9, 33),
        (11, 17),
        (13, 101),
        (15, 16),
        (16, 1),
        (19, 4),
        (20, 0xFF),
        (23, 1),
        (529, 1),
    ] {
        refused(&with(place, byte), SECTOR_BYTES, Code::Sum);
        refused(&summed(with(place, byte)), SECTOR_BYTES, Code::Field);
    }
    refused(&with(531, 0), SECTOR_BYTES, Code::Sum);
}

#[test]
fn short_data_ends_in_zeros() {
    for count in [0, 1, 511, 512, 531, 532] {
        let (mut drive, mut buffer) = started();
        // Another job's bytes stand in the data part.
        let other = [0xEE; SECTOR_BYTES];
        let done = command(&mut drive, &mut buffer, &[1, 0xFF, 0xFF, 0xFE], &other);
        assert_eq!((done, &buffer[4..]), (Answer::Finished, &other[..]));

        let mut wanted = [0; SECTOR_BYTES];
        wanted[..count].fill(0x5A);
        let fed = vec![0x5A; count];
        let asked = command(&mut drive, &mut buffer, &[2, 0, 0, 17], &fed);
        assert_eq!(asked, Answer::Write(Sector(17)));
        assert_eq!(buffer[4..], wanted, "{count}");
        let done = drive.surface(&mut buffer, surface::GOOD, &[]);
        assert_eq!(done, Answer::Read(Sector(17)));
        let done = drive.surface(&mut buffer, surface::GOOD, &wanted);
        assert_eq!(done, Answer::Finished);
        assert_eq!(buffer[..4], [0; 4]);
    }
}

/// Command bytes of a read of FFFFFD.
const READ_HEALTH: [u8; 6] = [0, 0xFF, 0xFF, 0xFD, 10, 3];

/// The buffer after a good read of FFFFFD that was not the first finish.
fn healthy(first: [u8; 4]) -> Vec<u8> {
    let mut buffer = vec![0; BUFFER];
    buffer[4..8].copy_from_slice(&first);
    buffer
}

#[test]
fn the_health_block_whatever_the_part_held() {
    let (spares, bads): (Vec<u32>, Vec<u32>) = ((0..32).collect(), (50..150).collect());
    let count: Vec<u8> = (0..=255).cycle().take(SECTOR_BYTES).collect();
    for (spares, bads, first) in [
        (&[][..], &[][..], [32, 0, 0, 0]),
        (&[DEAD, 17, DEAD], &[17], [29, 1, 0, 0]),
        (&spares[..16], &bads[..50], [16, 50, 0, 0]),
        (&spares, &bads, [0, 100, 0, 0]),
        (&[DEAD; 32], &[], [0, 0, 0, 0]),
    ] {
        let table = image(spares, bads);
        let parts = [
            &[0xFF; SECTOR_BYTES][..],
            &[0; SECTOR_BYTES],
            &count,
            &table,
        ];
        for part in parts {
            let (mut drive, mut buffer) = started_with(&table);
            let done = command(&mut drive, &mut buffer, &[1, 0xFF, 0xFF, 0xFE], part);
            assert_eq!((done, &buffer[4..]), (Answer::Finished, part));
            let done = command(&mut drive, &mut buffer, &READ_HEALTH, &[]);
            assert_eq!((done, buffer), (Answer::Finished, healthy(first)));
        }
    }
}

/// Reads a block that never comes: eleven timeouts enter it in the bad list.
fn lost(drive: &mut Drive, buffer: &mut [u8], block: u8) -> Answer {
    let mut answer = command(drive, buffer, &[0, 0, 0, block, 0, 1], &[]);
    for _ in 0..11 {
        assert_eq!(answer, Answer::Read(Sector(block.into())));
        answer = drive.surface(buffer, surface::TIMEOUT, &[]);
    }
    answer
}

#[test]
fn the_health_block_shows_mark_and_latch() {
    let (mut drive, mut buffer) = started();
    let done = command(&mut drive, &mut buffer, &READ_HEALTH, &[]);
    assert_eq!((done, buffer[2]), (Answer::Finished, 0x80));
    for (answer, status, first) in [
        (surface::TIMEOUT, 0x05, [32, 1, 0, 1]),
        (surface::GOOD, 0x05, [32, 1, 0, 0]),
        (surface::TIMEOUT, 0x05, [32, 2, 0, 1]),
        (surface::NO_SETTLE, 0x15, [32, 2, 1, 1]),
    ] {
        // A block in the bad list is not entered again, and what is unstored is stored.
        let block = 16 + first[1];
        assert_eq!(lost(&mut drive, &mut buffer, block), Answer::Store);
        let done = drive.surface(&mut buffer, answer, &[]);
        assert_eq!((done, buffer[0]), (Answer::Finished, status));
        let done = command(&mut drive, &mut buffer, &READ_HEALTH, &[]);
        assert_eq!((done, &buffer), (Answer::Finished, &healthy(first)));
    }
}

#[test]
fn the_health_block_without_a_table_and_on_writes() {
    let (mut drive, mut buffer) = (Drive::new(), vec![0; BUFFER]);
    buffer[4..].fill(0xEE);
    let done = command(&mut drive, &mut buffer, &READ_HEALTH, &[]);
    assert_eq!((done, &buffer[..4]), (Answer::Finished, &[1, 8, 0, 0][..]));
    assert_eq!(buffer[4..], [0xEE; SECTOR_BYTES]);
    for opcode in [1, 2] {
        for (count, status) in [(532, [0x01, 0, 0x40, 0]), (533, [0x41, 0, 0, 0])] {
            let bytes = [opcode, 0xFF, 0xFF, 0xFD];
            let done = command(&mut drive, &mut buffer, &bytes, &vec![0x5A; count]);
            assert_eq!((done, &buffer[..4]), (Answer::Finished, &status[..]));
            assert_eq!(buffer[4..], [0x5A; SECTOR_BYTES]);
        }
    }
}

#[test]
fn codes_in_their_order() {
    let (mut drive, mut buffer) = started();
    let refused = Answer::Refused;
    let mut short = [0; BUFFER - 1];
    assert_eq!(drive.raise(&mut short), refused(Code::Buffer));
    assert_eq!(drive.start(&mut short), refused(Code::Buffer));
    assert_eq!(drive.image(&mut buffer), refused(Code::Buffer));
    assert_eq!(drive.lower(&mut buffer, GO_ON), refused(Code::Place));
    assert_eq!(drive.feed(&mut buffer, &[]), refused(Code::Place));
    assert_eq!(drive.surface(&mut buffer, 9, &[]), refused(Code::Place));
    let asked = command(&mut drive, &mut buffer, &[0, 0, 0, 17, 0, 1], &[]);
    assert_eq!(asked, Answer::Read(Sector(17)));
    assert_eq!(drive.surface(&mut buffer, 4, &[]), refused(Code::Answer));
    assert_eq!(drive.surface(&mut buffer, 0, &[]), refused(Code::Bytes));
    assert_eq!(drive.surface(&mut buffer, 2, &[0]), refused(Code::Bytes));
    assert_eq!(drive.reset(&mut buffer), refused(Code::Place));
    assert_eq!(drive.raise(&mut short), refused(Code::Buffer));
}

#[test]
fn records_that_are_none() {
    let changes: [fn(&mut Fields); 12] = [
        |record| record.stage.kind = kind::TRIAL_READ + 1,
        |record| record.stage.kind = 255,
        |record| (record.stage.kind, record.stage.detail) = (kind::OFFER, 5),
        |record| (record.stage.kind, record.stage.detail) = (kind::START, 11),
        |record| (record.stage.kind, record.stage.detail) = (kind::STORE, 10),
        |record| (record.stage.kind, record.stage.detail) = (kind::STORE, 255),
        |record| record.nspares = 33,
        |record| (record.nspares, record.causes[0]) = (1, 4),
        |record| (record.nspares, record.spares[1], record.causes[1]) = (2, 1, 256),
        |record| (record.nbads, record.bads[0]) = (1, 9728),
        |record| record.count = 7,
        |record| record.fed = u16::MAX,
    ];
    for change in changes {
        let (drive, buffer) = started();
        let mut record = Fields::of(drive.record());
        change(&mut record);
        let wrong = Drive::from(record.record());
        let code = Answer::Refused(Code::Record);
        let (mut drive, mut lent) = (wrong.clone(), buffer.clone());
        assert_eq!(drive.raise(&mut lent), code);
        assert_eq!(drive.lower(&mut lent, GO_ON), code);
        assert_eq!(drive.feed(&mut lent, b"fed"), code);
        assert_eq!(drive.surface(&mut lent, 2, &[]), code);
        assert_eq!(drive.reset(&mut lent), code);
        assert_eq!(drive.image(&mut lent), code);
        // Code 1 comes before code 2.
        assert_eq!(drive.raise(&mut []), code);
        assert_eq!((&drive, &lent), (&wrong, &buffer));
        assert_eq!(drive.start(&mut lent), Answer::Read(TABLE));
    }
}

#[test]
fn flags_that_are_not_0_are_true() {
    for number in [1, 2, 256, u16::MAX] {
        let (drive, mut buffer) = started();
        let mut record = Fields::of(drive.record());
        (record.flags.latch, record.flags.changed) = (number, number);
        record.flags.moved = number;
        let mut drive = Drive::from(record.record());
        assert!(drive.is_latched() && drive.has_unstored() && drive.has_unstored_place());
        let done = command(&mut drive, &mut buffer, &READ_HEALTH, &[]);
        assert_eq!(done, Answer::Finished);
        assert_eq!(buffer[4..8], [32, 0, 1, 1]);
        // What the call left is a packing again.
        let left = Fields::of(drive.record()).flags;
        assert_eq!((left.latch, left.changed, left.fresh), (1, 1, 0));
        assert_eq!(left.moved, 1);
    }
}

#[test]
fn what_a_board_may_look_at() {
    let (mut drive, mut buffer) = (Drive::new(), vec![0; BUFFER]);
    assert_eq!((drive.phase(), drive.has_table()), (kind::IDLE, false));
    drive.start(&mut buffer);
    assert_eq!((drive.phase(), drive.has_table()), (kind::START, false));
    drive.surface(&mut buffer, surface::GOOD, &image(&[], &[]));
    assert_eq!((drive.phase(), drive.has_table()), (kind::IDLE, true));
    let asked = command(&mut drive, &mut buffer, &[2, 0, 0, 17], &[]);
    assert_eq!(
        (asked, drive.phase()),
        (Answer::Write(Sector(17)), kind::WRITE)
    );
    let asked = drive.surface(&mut buffer, surface::TIMEOUT, &[]);
    assert_eq!(
        (asked, drive.phase()),
        (Answer::Write(Sector(4928)), kind::TRIAL_WRITE)
    );
    assert!(!drive.has_unstored() && !drive.is_latched());
    // A spare under trial dies of answer 3.
    let done = drive.surface(&mut buffer, surface::NO_SETTLE, &[]);
    assert_eq!((done, drive.phase()), (Answer::Finished, kind::IDLE));
    assert!(drive.has_unstored() && drive.is_latched());
}

#[test]
fn places_of_sectors() {
    assert_eq!(TABLE.place(), (77, 2, 0));
    assert_eq!(Sector(9791).place(), (152, 3, 15));
    assert_eq!(Sector(9791).number(), 9791);
}

#[test]
fn the_parity_of_every_byte() {
    for byte in 0..=0xFF {
        let bit = parity(byte);
        assert_eq!(bit, reference::parity::parity(byte), "{byte:02X}");
        assert_eq!(bit, parity::TABLE[usize::from(byte)], "{byte:02X}");
        assert!(reference::parity::is_odd(byte, bit), "{byte:02X}");
    }
}
