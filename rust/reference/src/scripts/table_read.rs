//! Reads of FFFFFF: the data part is then the table in form A, and so is what the
//! image call gives once it is converted, whatever the part held before.

use super::bench::{Bench, RAM, TABLE_IMAGE};
use super::Stored;
use crate::controller::{Answer, Code, Offer, GO_ON};
use crate::drive::Call;
use crate::geometry::SECTOR_BYTES;
use crate::images::draft::Draft;
use crate::rng::Rng;

pub fn all() -> Vec<Stored> {
    vec![Stored::new("table-read", table_read())]
}

/// The seed of the tables' entries.
const SEED: u64 = 1;

/// A block that is in no list.
const BLOCK: u32 = 4000;

/// R and T of the reads, which a read of FFFFFF does not use.
const NUMBERS: [(u8, u8); 5] = [(0, 0), (0, 1), (10, 3), (255, 255), (255, 0)];

fn table_read() -> Bench {
    let mut bench =
        Bench::new("Reads of FFFFFF over other bytes, an image call and its convert after each.");
    let tables = [(0, 0), (16, 50), (32, 100)].map(|(spares, bads)| {
        let draft = Draft::of_size(&mut Rng::new(SEED), spares, bads);
        assert!(!draft.spares.contains(&BLOCK) && !draft.bads.contains(&BLOCK));
        draft
    });
    for (place, draft) in tables.iter().enumerate() {
        let other = &tables[(place + 1) % tables.len()];
        over_other_bytes(&mut bench, draft, other);
        over_a_block(&mut bench, draft);
    }
    in_pieces(&mut bench);
    over_an_older_image(&mut bench);
    under_the_latch(&mut bench);
    not_read(&mut bench);
    bench
}

/// The data part is this table's image of form A, and so is what the image call
/// gives, once it is converted.
#[track_caller]
fn shown(bench: &mut Bench, draft: &Draft) {
    bench.said(Answer::Finished);
    assert_eq!(bench.drive.data(), draft.bytes());
    bench.table_is(&draft.spares, &draft.bads);
    let image = bench.drive.call(&Call::Image).image.expect("an image");
    assert_eq!(bench.converted(&image), draft.bytes());
}

/// What the part holds before: in each place one of them at least is not the image.
fn others(draft: &Draft, other: &Draft) -> [(&'static str, Vec<u8>); 5] {
    let inverse = draft.bytes().iter().map(|byte| !byte).collect();
    let counting = (0..=u8::MAX).cycle().take(SECTOR_BYTES).collect();
    [
        ("FF all over", vec![0xFF; SECTOR_BYTES]),
        ("00 all over", vec![0; SECTOR_BYTES]),
        ("a count", counting),
        ("the image of another table", other.bytes()),
        ("another byte in every place", inverse),
    ]
}

fn over_other_bytes(bench: &mut Bench, draft: &Draft, other: &Draft) {
    let (spares, bads) = (draft.spares.len(), draft.bads.len());
    bench.note(&format!("Lists of {spares} and {bads}."));
    bench.started(&draft.spares, &draft.bads);
    bench.read(TABLE_IMAGE, 0, 0);
    bench.finished([0, 0, 0x80, 0]);
    shown(bench, draft);
    for ((words, bytes), (rereads, threshold)) in others(draft, other).iter().zip(NUMBERS) {
        bench.note(&format!("The part holds {words}."));
        bench.fill(bytes);
        bench.read(TABLE_IMAGE, rereads, threshold);
        bench.finished([0; 4]);
        shown(bench, draft);
    }
    bench.note("Once more over the same image.");
    bench.read(TABLE_IMAGE, 0, 0);
    bench.finished([0; 4]);
    shown(bench, draft);
}

fn over_a_block(bench: &mut Bench, draft: &Draft) {
    bench.note("Over a block that was written, one that was read, and short data.");
    bench.write(BLOCK, &[0x61; SECTOR_BYTES]);
    bench.good();
    bench.holds(0x61);
    bench.read(TABLE_IMAGE, 0, 1);
    shown(bench, draft);
    bench.read(BLOCK, 0, 1);
    bench.good();
    bench.holds(0x61);
    bench.read(TABLE_IMAGE, 0, 1);
    shown(bench, draft);
    bench.write(RAM, &[0x62; 5]);
    bench.read(TABLE_IMAGE, 0, 1);
    shown(bench, draft);
}

fn in_pieces(bench: &mut Bench) {
    bench.note("The command byte by byte, and with bytes after the sixth.");
    bench.started(&[5], &[6]);
    for pieces in [
        &[&[0][..], &[0xFF], &[0xFF], &[0xFF], &[1], &[2]][..],
        &[&[0, 0xFF], &[0xFF, 0xFF, 1, 2, 0, 0, 17]],
    ] {
        bench.fill(&[0x67; SECTOR_BYTES]);
        bench.ready();
        for piece in pieces {
            bench.feed(piece);
        }
        bench.raise();
        bench.said(Answer::Offer(Offer::Read));
        bench.lower(GO_ON);
        shown(bench, &Draft::new(&[5], &[6]));
    }
}

fn over_an_older_image(bench: &mut Bench) {
    bench.note("A read that brings no byte changes the table under its own older image.");
    bench.started(&[5], &[6]);
    bench.read(TABLE_IMAGE, 0, 0);
    shown(bench, &Draft::new(&[5], &[6]));
    bench.read(70, 0, 1);
    for _ in 0..11 {
        bench.timeout();
    }
    assert_eq!(bench.drive.data(), Draft::new(&[5], &[6]).bytes());
    bench.note("Its store times out; a read of FFFFFF shows the change all the same.");
    bench.said(Answer::Store);
    bench.timeout();
    bench.finished([0x05, 0, 0, 0]);
    assert_eq!(bench.drive.data(), Draft::new(&[5], &[6]).bytes());
    bench.read(TABLE_IMAGE, 0, 0);
    bench.finished([0; 4]);
    shown(bench, &Draft::new(&[5], &[6, 70]));
    bench.note("The store is done at the end of a block's read, and the image is the same.");
    bench.read(BLOCK, 0, 1);
    bench.good();
    bench.ended([0; 4]);
    bench.read(TABLE_IMAGE, 0, 0);
    bench.finished([0; 4]);
    shown(bench, &Draft::new(&[5], &[6, 70]));
    bench.note("A block in the list is written: a shorter image over the block's bytes.");
    bench.write(6, &[0x63; SECTOR_BYTES]);
    bench.trial_passes();
    bench.ended([0; 4]);
    bench.read(TABLE_IMAGE, 0, 0);
    shown(bench, &Draft::new(&[5], &[70]));
}

fn under_the_latch(bench: &mut Bench) {
    bench.note("Under the latch, with a change that no store will take.");
    bench.fill(&[0x64; SECTOR_BYTES]);
    bench.read(BLOCK, 0, 1);
    bench.no_settle();
    bench.finished([0x11, 0, 0, 0]);
    bench.read(TABLE_IMAGE, 0, 1);
    bench.finished([0; 4]);
    shown(bench, &Draft::new(&[5], &[70]));
    bench.read(71, 0, 1);
    for _ in 0..11 {
        bench.timeout();
    }
    bench.read(TABLE_IMAGE, 0, 1);
    bench.finished([0; 4]);
    shown(bench, &Draft::new(&[5], &[70, 71]));
}

fn not_read(bench: &mut Bench) {
    bench.note("Broken off at offer 02 the part stays, and so it does with no table.");
    bench.started(&[5], &[6]);
    bench.fill(&[0x65; SECTOR_BYTES]);
    bench.command(&[0, 0xFF, 0xFF, 0xFF, 0, 0]);
    bench.lower(0x54);
    bench.finished([0x80, 0, 0, 0]);
    bench.holds(0x65);
    bench.started_without_table();
    bench.fill(&[0x66; SECTOR_BYTES]);
    bench.read(TABLE_IMAGE, 0, 0);
    bench.finished([0x01, 0x08, 0, 0]);
    bench.holds(0x66);
    bench.image();
    bench.refused(Code::Place);
}
