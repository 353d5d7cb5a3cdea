//! Lists with starts in them (document 02, request 7).

use super::*;

/// Gives the bytes that a sector held as every list here began.
fn held(number: u32) -> Vec<u8> {
    let found = Sectors::new().get(sector(number));
    found.expect("a sector not spoiled").to_vec()
}

/// A move whose store was done, and one whose store timed out.
const MOVED: [u8; 4] = [0x04, 0x04, 0, 0];
const MOVED_UNSTORED: [u8; 4] = [0x05, 0x04, 0, 0];

/// A finish of a command with no table.
const NO_TABLE: [u8; 4] = [0x01, 0x08, 0, 0];

impl List {
    /// Makes an accepted start, which zeroes the buffer and asks for 4960.
    fn start(&mut self) {
        self.buffer.fill(0);
        self.call(Call::Start, Answer::Read(TABLE));
    }

    /// Makes a start that reads this table.
    fn restarted(&mut self, spares: &[u32]) {
        self.start();
        self.table(0, &Draft::new(spares, &[]).bytes());
    }

    /// Makes a start that reads no image.
    fn started_in_vain(&mut self) {
        self.start();
        self.call(Call::Surface(3, vec![]), Answer::Wait);
    }

    /// Moves a block to a spare by a plain write that times out, with a store at its
    /// end.
    fn moves(&mut self, number: u8, from: u32, to: u32, status: [u8; 4]) {
        self.up_to_06(1, number, &NEW);
        self.call(Call::Lower(0x55), Answer::Write(sector(from)));
        self.call(Call::Surface(2, vec![]), Answer::Write(sector(to)));
        self.trial(to);
        self.call(Call::Surface(0, vec![]), Answer::Store);
        self.finished(status, &NEW);
    }

    /// Makes a copy, for another way to go on.
    fn copied(&self) -> List {
        List {
            ledger: self.ledger.clone(),
            buffer: self.buffer.clone(),
        }
    }
}

#[test]
fn a_later_image_leaves_the_candidates() {
    // Block 5 was never touched: it keeps what its first place held.
    let mut list = List::with(&[]);
    list.restarted(&[5]);
    let mut anew = list.copied();
    list.read(5, 4928, GOOD, &OLD);
    list.allowed();
    assert_eq!(list.ledger.good_reads(), 1);
    // What the second place held would be a candidate taken anew.
    anew.read(5, 4928, GOOD, &held(4928));
    anew.broken(Broken::GoodRead(block(5)));
}

#[test]
fn a_good_write_is_good_across_starts() {
    for starts in 1..4 {
        let mut list = List::with(&[]);
        list.write(5, 5, &NEW, GOOD);
        for _ in 0..starts {
            list.restarted(&[]);
        }
        let mut anew = list.copied();
        list.read(5, 5, GOOD, &NEW);
        list.allowed();
        anew.read(5, 5, GOOD, &OLD);
        anew.broken(Broken::GoodRead(block(5)));
    }
}

#[test]
fn a_cut_write_adds_its_bytes() {
    for opcode in [1, 2] {
        for (first, then) in [(OLD, NEW), (NEW, OLD)] {
            let mut list = under_way(&[opcode, 0, 0, 5]);
            list.restarted(&[]);
            list.read(5, 5, GOOD, &first);
            list.read(5, 5, GOOD, &first);
            list.allowed();
            // Either may come, but not both in turn, whatever starts stand between.
            list.restarted(&[]);
            list.read(5, 5, GOOD, &then);
            list.broken(Broken::GoodRead(block(5)));
        }
    }
    // Other bytes are none.
    let mut list = under_way(&[1, 0, 0, 5]);
    list.restarted(&[]);
    list.read(5, 5, GOOD, &[3; 532]);
    list.broken(Broken::GoodRead(block(5)));
}

#[test]
fn a_write_whose_write_was_done_long_ago_adds_its_bytes() {
    // The cut comes in the hundredth reread, or while the store is awaited.
    for stored in [false, true] {
        let mut list = List::with(&[]);
        list.up_to_06(2, 5, &NEW);
        list.call(Call::Lower(0x55), Answer::Write(sector(5)));
        list.call(Call::Surface(2, vec![]), Answer::Write(sector(4928)));
        list.trial(4928);
        if stored {
            list.call(Call::Surface(0, vec![]), Answer::Store);
        }
        list.restarted(&[5]);
        list.read(5, 4928, GOOD, &NEW);
        list.allowed();
        // It is no good write: the old bytes may come from the old place.
        let mut list = under_way(&[2, 0, 0, 5]);
        list.restarted(&[]);
        list.read(5, 5, GOOD, &OLD);
        list.allowed();
    }
}

#[test]
fn a_cut_write_that_asked_for_no_write_adds_nothing() {
    // At offer 06, while data is taken, and acted on without an access.
    for phase in 0..3 {
        let mut list = List::with(&[]);
        match phase {
            0 => list.up_to_06(1, 5, &NEW),
            1 => {
                list.command(&[1, 0, 0, 5]);
                list.call(Call::Lower(0x55), Answer::Wait);
                list.call(Call::Feed(NEW.to_vec()), Answer::Wait);
            }
            _ => {
                list.up_to_06(1, 5, &NEW);
                list.call(Call::Lower(0x55), Answer::Store);
            }
        }
        list.restarted(&[]);
        let mut other = list.copied();
        list.read(5, 5, GOOD, &OLD);
        list.allowed();
        other.read(5, 5, GOOD, &NEW);
        other.broken(Broken::GoodRead(block(5)));
    }
}

#[test]
fn a_cut_write_of_no_block_adds_nothing() {
    let mut list = List::with(&[]);
    let before = list.ledger.pages.clone();
    list.command(&[1, 0xFF, 0xFF, 0xFE]);
    list.call(Call::Lower(0x55), Answer::Wait);
    list.call(Call::Feed(NEW.to_vec()), Answer::Wait);
    list.call(Call::Raise, Answer::Offer(Offer::Act));
    list.call(Call::Lower(0x55), Answer::Wait);
    list.restarted(&[]);
    assert!(list.ledger.pages == before);
    list.allowed();
}

#[test]
fn the_rewriting_of_a_cut_read_adds_nothing() {
    let mut list = List::with(&[]);
    list.command(&[0, 0, 0, 5, 0, 0]);
    list.call(Call::Lower(0x55), Answer::Read(sector(5)));
    list.call(Call::Surface(2, vec![]), Answer::Read(sector(5)));
    list.call(Call::Surface(0, NEW.to_vec()), Answer::Write(sector(5)));
    list.restarted(&[]);
    let mut other = list.copied();
    list.read(5, 5, GOOD, &OLD);
    list.allowed();
    other.read(5, 5, GOOD, &NEW);
    other.broken(Broken::GoodRead(block(5)));
}

#[test]
fn a_start_ends_the_command() {
    // A finish behind it reports nothing, neither good nor failed.
    for status in [GOOD, FAILED, MOVED] {
        let mut list = under_way(&[0, 0, 0, 5, 0, 0]);
        list.restarted(&[]);
        list.finished(status, &NEW);
        list.allowed();
        assert_eq!(list.ledger.good_reads(), 0);
        list.read(5, 5, GOOD, &OLD);
        list.allowed();
    }
    // An offer does not stand any more: no lower acts on it.
    let mut list = List::with(&[]);
    list.command(&[0, 0, 0, 5, 0, 0]);
    list.restarted(&[]);
    list.call(Call::Lower(0x55), Answer::Read(sector(9)));
    list.allowed();
}

#[test]
fn a_refused_start_ends_nothing() {
    let mut list = under_way(&[1, 0, 0, 5]);
    list.call(Call::Start, Answer::Refused(Code::Buffer));
    list.finished(GOOD, &NEW);
    list.read(5, 5, GOOD, &NEW);
    list.allowed();
    list.read(5, 5, GOOD, &OLD);
    list.broken(Broken::GoodRead(block(5)));
}

#[test]
fn a_move_reported_good_binds_the_next_start() {
    // Its store was not done: the next start reads the old table.
    let mut list = List::with(&[]);
    list.moves(5, 5, 4928, MOVED);
    list.allowed();
    list.restarted(&[]);
    list.read(5, 5, GOOD, &OLD);
    list.broken(Broken::GoodRead(block(5)));
    // Stored, it is read at its spare.
    let mut list = List::with(&[]);
    list.moves(5, 5, 4928, MOVED);
    list.restarted(&[5]);
    list.read(5, 4928, GOOD, &NEW);
    list.allowed();
}

#[test]
fn a_move_reported_failed_binds_nothing() {
    for (spares, at, bytes) in [(&[][..], 5, &OLD), (&[5], 4928, &NEW)] {
        let mut list = List::with(&[]);
        list.moves(5, 5, 4928, MOVED_UNSTORED);
        // The block stands at its spare all the same.
        list.read(5, 4928, FAILED, &NEW);
        list.restarted(spares);
        list.read(5, at, GOOD, bytes);
        list.allowed();
    }
}

#[test]
fn a_good_read_of_an_unstored_place_binds_the_next_start() {
    let mut list = List::with(&[]);
    list.moves(5, 5, 4928, [0x15, 0x04, 0, 0]);
    // Alone it is allowed.
    list.read(5, 4928, GOOD, &NEW);
    list.allowed();
    list.restarted(&[]);
    list.read(5, 5, GOOD, &OLD);
    list.broken(Broken::GoodRead(block(5)));
}

#[test]
fn nothing_is_good_without_a_table() {
    // Before any image of the list, and after a start that reads none.
    let begun = || {
        let mut list = List::begun();
        list.call(Call::Surface(3, vec![]), Answer::Wait);
        list
    };
    let again = || {
        let mut list = List::with(&[]);
        list.started_in_vain();
        list
    };
    for list in [begun(), again()] {
        for command in 0..3 {
            let mut failed = list.copied();
            let mut good = list.copied();
            for (list, status) in [(&mut failed, NO_TABLE), (&mut good, GOOD)] {
                match command {
                    0 => list.command(&[0, 0, 0, 5, 0, 0]),
                    opcode => list.up_to_06(opcode, 5, &OLD),
                }
                list.buffer[..STATUS].copy_from_slice(&status);
                list.buffer[STATUS..].copy_from_slice(&OLD);
                list.call(Call::Lower(0x55), Answer::Finished);
            }
            failed.allowed();
            good.broken(Broken::NoTable(block(5)));
        }
        // FFFFFE is no block.
        let mut list = list;
        list.command(&[0, 0xFF, 0xFF, 0xFE, 0, 0]);
        list.call(Call::Lower(0x55), Answer::Finished);
        list.allowed();
    }
}

#[test]
fn a_later_image_gives_the_sectors_anew() {
    // Back to the old place, and on to a new one.
    for (spares, at) in [(&[][..], 5), (&[9, 5], 4929)] {
        let mut list = List::with(&[]);
        list.moves(5, 5, 4928, MOVED_UNSTORED);
        list.restarted(spares);
        let mut kept = list.copied();
        list.read(5, at, GOOD, &OLD);
        list.allowed();
        kept.read(5, 4928, FAILED, &NEW);
        kept.broken(Broken::FirstAccess {
            number: 5,
            wanted: Some(sector(at)),
            found: sector(4928),
        });
    }
    // A block that was not moved goes where the image says.
    let mut list = List::with(&[9]);
    list.restarted(&[]);
    list.read(9, 4928, FAILED, &OLD);
    list.broken(Broken::FirstAccess {
        number: 9,
        wanted: Some(sector(9)),
        found: sector(4928),
    });
}

#[test]
fn a_start_without_an_image_leaves_the_sectors() {
    let mut list = List::with(&[]);
    list.moves(5, 5, 4928, MOVED_UNSTORED);
    list.started_in_vain();
    list.read(5, 4928, FAILED, &NEW);
    list.read(9, 9, FAILED, &NEW);
    list.allowed();
    list.read(5, 5, FAILED, &NEW);
    list.broken(Broken::FirstAccess {
        number: 5,
        wanted: Some(sector(4928)),
        found: sector(5),
    });
}

#[test]
fn a_start_that_is_cut_reads_no_image() {
    let mut list = List::with(&[]);
    list.start();
    list.call(Call::Surface(2, vec![]), Answer::Read(TABLE));
    list.restarted(&[5]);
    list.read(5, 4928, GOOD, &OLD);
    list.allowed();
}

#[test]
fn the_first_image_of_any_start_gives_the_candidates() {
    let mut list = List::begun();
    list.call(Call::Surface(3, vec![]), Answer::Wait);
    list.started_in_vain();
    list.restarted(&[5]);
    let mut other = list.copied();
    list.read(5, 4928, GOOD, &held(4928));
    list.allowed();
    // The home of a listed block gives none.
    other.read(5, 4928, GOOD, &OLD);
    other.broken(Broken::GoodRead(block(5)));
}

#[test]
fn two_blocks_at_one_spare_at_two_times() {
    let mut list = List::with(&[]);
    list.moves(5, 5, 4928, MOVED_UNSTORED);
    list.restarted(&[]);
    list.moves(9, 9, 4928, MOVED);
    list.read(9, 4928, GOOD, &NEW);
    list.read(5, 5, GOOD, &OLD);
    list.allowed();
    // At one time they clash: with no start between, or with an image that kept the
    // first one there.
    let mut list = List::with(&[]);
    list.moves(5, 5, 4928, MOVED_UNSTORED);
    list.moves(9, 9, 4928, MOVED);
    list.broken(Broken::SameSector(block(5), block(9), sector(4928)));
    let mut list = List::with(&[]);
    list.restarted(&[5]);
    list.moves(9, 9, 4928, MOVED);
    list.broken(Broken::SameSector(block(5), block(9), sector(4928)));
}

#[test]
fn a_good_read_settles_what_a_cut_left_open() {
    // Two cut writes, then a failed one: three candidates and the old bytes.
    let others = [[7; 532], [8; 532]];
    let mut list = List::with(&[]);
    for bytes in &others {
        list.up_to_06(1, 5, bytes);
        list.call(Call::Lower(0x55), Answer::Write(sector(5)));
        list.restarted(&[]);
    }
    list.write(5, 5, &NEW, FAILED);
    for bytes in [&OLD, &NEW, &others[0], &others[1]] {
        let mut list = list.copied();
        list.read(5, 5, GOOD, bytes);
        list.allowed();
        list.restarted(&[]);
        list.read(5, 5, GOOD, bytes);
        list.allowed();
        list.read(5, 5, GOOD, &[9; 532]);
        list.broken(Broken::GoodRead(block(5)));
    }
}
