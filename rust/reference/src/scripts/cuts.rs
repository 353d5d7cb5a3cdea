//! Power cuts (document 02, request 7): at every kind of access of a command, with
//! every fate of its sector, and what the next start and the next read find.

use super::bench::Bench;
use super::Stored;
use crate::controller::{Answer, Code, Offer};
use crate::geometry::TABLE;
use crate::image::DEAD;
use crate::surface::{Access, Fate, FATES};

pub fn all() -> Vec<Stored> {
    vec![
        Stored::new("cuts-of-a-write", of_a_write()),
        Stored::new("cuts-of-a-verify", of_a_verify()),
        Stored::new("cuts-of-a-read", of_a_read()),
        Stored::new("cuts-of-trials", of_trials()),
        Stored::new("cuts-of-stores", of_stores()),
        Stored::new("cuts-of-starts", of_starts()),
        Stored::new("cuts-in-the-handshake", in_the_handshake()),
        Stored::new("cuts-two-at-one-spare", two_at_one_spare()),
        Stored::new("cuts-without-a-table", without_a_table()),
    ]
}

/// What is written, and the bytes before it.
const DATA: u8 = 0x91;
const BEFORE: u8 = 0x90;

const BLOCK: u32 = 17;

/// Starts with this table, and writes the bytes before to the block, which is in no
/// bad list.
fn begun(bench: &mut Bench, spares: &[u32], bads: &[u32]) {
    bench.started(spares, bads);
    bench.write(BLOCK, &[BEFORE; 532]);
    bench.good();
    bench.finished([0, 0, 0x80, 0]);
}

/// Gives the word for a fate.
fn words(fate: Fate) -> &'static str {
    match fate {
        Fate::Old => "old",
        Fate::New => "new",
        Fate::Spoiled => "spoiled",
    }
}

/// Cuts the power at the pending access, and starts.
fn cut(bench: &mut Bench, fate: Fate) {
    let table = bench.pending().map(Access::sector) == Some(TABLE);
    bench.cut(fate);
    bench.said_read(4960);
    bench.holds(0);
    if table && fate == Fate::Spoiled {
        bench.no_settle();
    } else {
        bench.good();
    }
    bench.said(Answer::Wait);
}

/// Reads the block, whose sector is this one: it is good with these bytes, or the sector
/// is spoiled, and the block is entered in the bad list.
fn found(bench: &mut Bench, sector: u32, byte: Option<u8>) {
    bench.read(BLOCK, 0, 1);
    bench.said_read(sector);
    match byte {
        Some(byte) => {
            bench.good();
            bench.finished([0, 0, 0x80, 0]);
            bench.holds(byte);
        }
        None => {
            for _ in 0..11 {
                bench.timeout();
            }
            bench.ended([0x05, 0, 0x80, 0]);
        }
    }
}

/// Gives what the block's own sector holds after a cut of a write to it.
fn left(fate: Fate) -> Option<u8> {
    match fate {
        Fate::Old => Some(BEFORE),
        Fate::New => Some(DATA),
        Fate::Spoiled => None,
    }
}

fn of_a_write() -> Bench {
    let mut bench = Bench::new("A plain write, cut at each of its accesses.");
    for fate in FATES {
        bench.note(&format!("Its write, left {}.", words(fate)));
        begun(&mut bench, &[], &[]);
        bench.write(BLOCK, &[DATA; 532]);
        cut(&mut bench, fate);
        found(&mut bench, BLOCK, left(fate));
    }
    for fate in FATES {
        bench.note(&format!(
            "The write of a spare's trial, left {}.",
            words(fate)
        ));
        begun(&mut bench, &[], &[]);
        bench.write(BLOCK, &[DATA; 532]);
        bench.timeout();
        bench.said_write(4928);
        cut(&mut bench, fate);
        found(&mut bench, BLOCK, Some(BEFORE));
    }
    bench.note("A spare died before the cut, which no store has taken: it is tried again.");
    begun(&mut bench, &[], &[]);
    bench.write(BLOCK, &[DATA; 532]);
    bench.timeout();
    bench.timeout();
    bench.said_write(4929);
    cut(&mut bench, Fate::New);
    bench.table_is(&[], &[]);
    bench.write(BLOCK, &[DATA; 532]);
    bench.timeout();
    bench.said_write(4928);
    cut(&mut bench, Fate::Old);
    found(&mut bench, BLOCK, Some(BEFORE));
    stores_of_moves(&mut bench, 1);
    bench
}

/// Moves the block by a write, and cuts the power while the store is awaited.
fn stores_of_moves(bench: &mut Bench, opcode: u8) {
    for fate in FATES {
        bench.note(&format!("The store of a move, left {}.", words(fate)));
        begun(bench, &[DEAD], &[]);
        bench.send(opcode, BLOCK, &[&[DATA; 532]]);
        bench.timeout();
        bench.said_write(4929);
        bench.trial_passes();
        bench.said(Answer::Store);
        cut(bench, fate);
        match fate {
            Fate::Old => found(bench, BLOCK, Some(BEFORE)),
            Fate::New => found(bench, 4929, Some(DATA)),
            Fate::Spoiled => no_table(bench),
        }
    }
}

/// Shows that commands for the block fail without a table.
fn no_table(bench: &mut Bench) {
    bench.image();
    bench.refused(Code::Place);
    bench.read(BLOCK, 0, 1);
    bench.finished([0x01, 0x08, 0x80, 0]);
    for opcode in [1, 2] {
        bench.send(opcode, BLOCK, &[&[DATA; 532]]);
        bench.finished([0x41, 0x08, 0, 0]);
    }
}

fn of_a_verify() -> Bench {
    let mut bench = Bench::new("A write/verify, cut at each of its accesses.");
    for fate in FATES {
        bench.note(&format!("Its first write, left {}.", words(fate)));
        begun(&mut bench, &[], &[]);
        bench.verify(BLOCK, &[DATA; 532]);
        cut(&mut bench, fate);
        found(&mut bench, BLOCK, left(fate));
    }
    bench.note("Its first verify, the write done, and the write done but spoiling.");
    for spoils in [false, true] {
        begun(&mut bench, &[], &[]);
        bench.verify(BLOCK, &[DATA; 532]);
        match spoils {
            true => bench.spoiling(),
            false => bench.good(),
        };
        cut(&mut bench, Fate::Old);
        found(&mut bench, BLOCK, (!spoils).then_some(DATA));
    }
    for fate in FATES {
        bench.note(&format!("The write of its trial, left {}.", words(fate)));
        begun(&mut bench, &[], &[]);
        bench.verify(BLOCK, &[DATA; 532]);
        bench.spoiling();
        bench.timeout();
        bench.said_write(BLOCK);
        cut(&mut bench, fate);
        // What stood there was spoiled by the first write.
        let byte = (fate == Fate::New).then_some(DATA);
        found(&mut bench, BLOCK, byte);
    }
    stores_of_moves(&mut bench, 2);
    bench
}

/// Makes a read reach its threshold, up to the write of its trial.
fn read_to_trial(bench: &mut Bench, sector: u32) {
    bench.read(BLOCK, 0, 0);
    bench.said_read(sector);
    bench.timeout();
    bench.good();
    bench.said_write(sector);
}

fn of_a_read() -> Bench {
    let mut bench = Bench::new("A read, cut at each of its accesses: the same bytes or none.");
    bench.note("Its first read, a reread, a further read.");
    for timeouts in 0..3 {
        begun(&mut bench, &[], &[]);
        bench.read(BLOCK, 1, 0);
        for _ in 0..timeouts {
            bench.timeout();
        }
        cut(&mut bench, Fate::Old);
        found(&mut bench, BLOCK, Some(BEFORE));
    }
    for fate in FATES {
        bench.note(&format!("The write of its trial, left {}.", words(fate)));
        begun(&mut bench, &[], &[]);
        read_to_trial(&mut bench, BLOCK);
        cut(&mut bench, fate);
        let byte = (fate != Fate::Spoiled).then_some(BEFORE);
        found(&mut bench, BLOCK, byte);
    }
    for fate in FATES {
        bench.note(&format!(
            "The write of a spare's trial, left {}.",
            words(fate)
        ));
        begun(&mut bench, &[], &[]);
        read_to_trial(&mut bench, BLOCK);
        bench.timeout();
        bench.said_write(4928);
        cut(&mut bench, fate);
        found(&mut bench, BLOCK, Some(BEFORE));
    }
    stores_of_moves_on(&mut bench);
    bench
}

/// Moves the block on by a read, and cuts the power while the store is awaited.
fn stores_of_moves_on(bench: &mut Bench) {
    for fate in FATES {
        bench.note(&format!("The store of a move on, left {}.", words(fate)));
        begun(bench, &[BLOCK], &[]);
        read_to_trial(bench, 4928);
        bench.timeout();
        bench.said_write(4929);
        bench.trial_passes();
        bench.said(Answer::Store);
        cut(bench, fate);
        match fate {
            Fate::Old => found(bench, 4928, Some(BEFORE)),
            Fate::New => found(bench, 4929, Some(BEFORE)),
            Fate::Spoiled => no_table(bench),
        }
    }
}

fn of_trials() -> Bench {
    let mut bench = Bench::new("Trials, cut at the first reread, one in the middle, the last.");
    for rereads in [0, 50, 99] {
        bench.note(&format!("On the present sector, after {rereads} rereads."));
        begun(&mut bench, &[], &[]);
        bench.verify(BLOCK, &[DATA; 532]);
        bench.good();
        bench.crc(0x92);
        bench.said_write(BLOCK);
        bench.good();
        bench.good_rereads(rereads);
        bench.said_read(BLOCK);
        cut(&mut bench, Fate::Old);
        found(&mut bench, BLOCK, Some(DATA));
    }
    for rereads in [0, 50, 99] {
        bench.note(&format!("On a spare, after {rereads} rereads."));
        begun(&mut bench, &[], &[]);
        bench.write(BLOCK, &[DATA; 532]);
        bench.timeout();
        bench.said_write(4928);
        bench.good();
        bench.good_rereads(rereads);
        bench.said_read(4928);
        cut(&mut bench, Fate::Old);
        found(&mut bench, BLOCK, Some(BEFORE));
    }
    bench.note("A block in the bad list is still there, with its trial all but passed.");
    bench.started(&[], &[BLOCK]);
    bench.write(BLOCK, &[DATA; 532]);
    bench.good();
    bench.good_rereads(99);
    cut(&mut bench, Fate::Old);
    bench.table_is(&[], &[BLOCK]);
    found(&mut bench, BLOCK, Some(DATA));
    bench
}

fn of_stores() -> Bench {
    let mut bench = Bench::new("Stores that move nothing, cut, and what the next start finds.");
    for fate in [Fate::Old, Fate::New] {
        bench.note(&format!("A bad entry, left {}.", words(fate)));
        begun(&mut bench, &[], &[9]);
        bench.read(BLOCK, 0, 1);
        for _ in 0..11 {
            bench.timeout();
        }
        bench.said(Answer::Store);
        cut(&mut bench, fate);
        let bads: &[u32] = if fate == Fate::Old { &[9] } else { &[9, BLOCK] };
        bench.table_is(&[], bads);
        found(&mut bench, BLOCK, Some(BEFORE));
    }
    bench.note("A bad entry, left spoiled: there is no table any more, whatever start comes.");
    begun(&mut bench, &[], &[9]);
    bench.read(BLOCK, 0, 1);
    for _ in 0..11 {
        bench.timeout();
    }
    cut(&mut bench, Fate::Spoiled);
    no_table(&mut bench);
    bench.start();
    for _ in 0..10 {
        bench.said_read(4960);
        bench.crc(0x93);
    }
    bench.said(Answer::Wait);
    no_table(&mut bench);
    made_up(&mut bench);
    done_but_spoiling(&mut bench);
    bench
}

fn made_up(bench: &mut Bench) {
    bench.note("A store that timed out is made up by a good read, and cut there.");
    for fate in [Fate::Old, Fate::New] {
        begun(bench, &[], &[]);
        bench.read(18, 0, 1);
        for _ in 0..11 {
            bench.timeout();
        }
        bench.said(Answer::Store);
        bench.timeout();
        bench.finished([0x05, 0, 0, 0]);
        bench.read(BLOCK, 0, 1);
        bench.good();
        bench.said(Answer::Store);
        cut(bench, fate);
        let bads: &[u32] = if fate == Fate::Old { &[] } else { &[18] };
        bench.table_is(&[], bads);
        found(bench, BLOCK, Some(BEFORE));
    }
}

fn done_but_spoiling(bench: &mut Bench) {
    bench.note("A store that is done and spoils the table: the command is good, the start not.");
    begun(bench, &[], &[]);
    bench.write(BLOCK, &[DATA; 532]);
    bench.timeout();
    bench.trial_passes();
    bench.said(Answer::Store);
    bench.spoiling();
    bench.finished([0x04, 0x04, 0, 0]);
    bench.read(BLOCK, 0, 1);
    bench.said_read(4928);
    bench.good();
    bench.finished([0; 4]);
    bench.holds(DATA);
    bench.start();
    bench.no_settle();
    no_table(bench);
}

fn of_starts() -> Bench {
    let mut bench = Bench::new("Starts that are cut at each of their reads, and start again.");
    begun(&mut bench, &[40], &[]);
    bench.write(BLOCK, &[DATA; 532]);
    bench.good();
    bench.finished([0; 4]);
    bench.start();
    for reads in 0..10 {
        for _ in 0..reads {
            bench.timeout();
        }
        bench.said_read(4960);
        bench.start();
    }
    bench.note("Ten reads each time: the count begins anew.");
    for _ in 0..9 {
        bench.timeout();
    }
    bench.good();
    bench.said(Answer::Wait);
    found(&mut bench, BLOCK, Some(DATA));
    bench.note("One start after the other, and one behind a start in vain.");
    for _ in 0..3 {
        bench.restarted();
    }
    bench.start();
    bench.no_settle();
    bench.read(BLOCK, 0, 1);
    bench.finished([0x01, 0x08, 0x80, 0]);
    bench.restarted();
    found(&mut bench, BLOCK, Some(DATA));
    bench
}

/// A way into a phase, and words for that phase.
type Way = (&'static str, fn(&mut Bench));

/// Ways into the phases in which no answer is awaited.
const WAYS: [Way; 9] = [
    ("Idle.", |_| {}),
    ("Offer 01.", |bench| {
        bench.raise();
    }),
    ("Command bytes.", |bench| {
        bench.ready();
        bench.feed(&[1, 0, 0, BLOCK as u8]);
    }),
    ("Offer 02.", |bench| {
        bench.command(&[0, 0, 0, BLOCK as u8, 0, 0]);
    }),
    ("Offer 03.", |bench| {
        bench.command(&[1, 0, 0, BLOCK as u8]);
    }),
    ("Offer 04.", |bench| {
        bench.command(&[2, 0, 0, BLOCK as u8]);
    }),
    ("Data bytes.", |bench| {
        bench.up_to_data(1, BLOCK);
        bench.feed(&[DATA; 532]);
    }),
    ("Offer 06 of a write.", |bench| {
        bench.up_to_data(1, BLOCK);
        bench.feed(&[DATA; 532]);
        bench.raise();
    }),
    ("Offer 06 of a write/verify.", |bench| {
        bench.up_to_data(2, BLOCK);
        bench.feed(&[DATA; 532]);
        bench.raise();
    }),
];

fn in_the_handshake() -> Bench {
    let mut bench = Bench::new("Starts in idle, at each offer, and while bytes are taken.");
    for (words, way) in WAYS {
        bench.note(words);
        begun(&mut bench, &[], &[]);
        way(&mut bench);
        bench.restarted();
        bench.holds(0);
        bench.raise();
        bench.said(Answer::Offer(Offer::Command));
        bench.lower(0);
        found(&mut bench, BLOCK, Some(BEFORE));
    }
    unstored(&mut bench);
    bench
}

fn unstored(bench: &mut Bench) {
    bench.note("In idle, with a move whose store timed out: the old place, the old bytes.");
    begun(bench, &[], &[]);
    moves(bench, BLOCK, DATA);
    bench.timeout();
    bench.finished([0x05, 0x04, 0, 0]);
    bench.restarted();
    bench.table_is(&[], &[]);
    found(bench, BLOCK, Some(BEFORE));
    bench.note("The same in the middle of the next command.");
    moves(bench, BLOCK, DATA);
    bench.timeout();
    bench.finished([0x05, 0x04, 0, 0]);
    bench.write(18, &[0x96; 532]);
    cut(bench, Fate::New);
    bench.table_is(&[], &[]);
    found(bench, BLOCK, Some(BEFORE));
}

/// Moves a block to spare 0 by a write, up to its store.
fn moves(bench: &mut Bench, block: u32, byte: u8) {
    bench.write(block, &[byte; 532]);
    bench.said_write(block);
    bench.timeout();
    bench.said_write(4928);
    bench.trial_passes();
    bench.said(Answer::Store);
}

fn two_at_one_spare() -> Bench {
    let mut bench = Bench::new("Two blocks stand at one spare, at two times.");
    begun(&mut bench, &[], &[]);
    moves(&mut bench, BLOCK, DATA);
    bench.timeout();
    bench.finished([0x05, 0x04, 0, 0]);
    bench.note("The start reads the old table, and another block moves there.");
    bench.restarted();
    moves(&mut bench, 18, 0x94);
    bench.good();
    bench.finished([0x04, 0x04, 0x80, 0]);
    bench.table_is(&[18], &[]);
    bench.read(BLOCK, 0, 1);
    bench.said_read(BLOCK);
    bench.good();
    bench.finished([0; 4]);
    bench.holds(BEFORE);
    bench.read(18, 0, 1);
    bench.said_read(4928);
    bench.good();
    bench.finished([0; 4]);
    bench.holds(0x94);
    bench.note("It stays so behind the next start.");
    bench.restarted();
    found(&mut bench, BLOCK, Some(BEFORE));
    bench
}

fn without_a_table() -> Bench {
    let mut bench = Bench::new("The table is spoiled: no command for a block is good.");
    bench.started(&[], &[]);
    bench.spoil(TABLE);
    bench.start();
    for read in 0..10 {
        match read % 2 {
            0 => bench.crc(0x95),
            _ => bench.timeout(),
        };
    }
    bench.said(Answer::Wait);
    no_table(&mut bench);
    for opcode in [1, 2] {
        bench.send(opcode, BLOCK, &[&[DATA; 533]]);
        bench.finished([0x41, 0, 0, 0]);
        bench.send(opcode, 0xFF_FFFE, &[&[DATA; 532]]);
        bench.finished([0; 4]);
    }
    for number in [0xFF_FFFD, 0xFF_FFFF] {
        bench.read(number, 0, 0);
        bench.finished([0x01, 0x08, 0, 0]);
    }
    bench
}
