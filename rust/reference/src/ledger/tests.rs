//! Lists written by hand, most of which no controller makes.

mod dense;
mod starts;

use super::*;
use crate::controller::{Code, BUFFER};
use crate::images::draft::Draft;
use crate::images::draft_b::{summed, DraftB};

/// A ledger and the buffer that the last call left.
struct List {
    ledger: Ledger,
    buffer: Vec<u8>,
}

fn sector(number: u32) -> Sector {
    Sector::new(number).expect("a sector")
}

fn block(number: u32) -> Block {
    Block::new(number).expect("a block")
}

const OLD: [u8; 532] = [0x01; 532];
const NEW: [u8; 532] = [0x02; 532];

impl List {
    /// A list whose read of 4960 is awaited; sector 5 holds the old bytes and
    /// sector 6 is spoiled.
    fn begun() -> List {
        let mut sectors = Sectors::new();
        sectors.hold(sector(5), &OLD);
        sectors.spoil(sector(6));
        List {
            ledger: Ledger::new(&sectors),
            buffer: vec![0; BUFFER],
        }
    }

    /// The same with this table read.
    fn with(spares: &[u32]) -> List {
        let mut list = List::begun();
        list.table(0, &Draft::new(spares, &[]).bytes());
        list
    }

    fn table(&mut self, answer: u8, bytes: &[u8]) {
        let call = Call::Surface(answer, bytes.to_vec());
        self.call(call, Answer::Wait);
    }

    fn call(&mut self, call: Call, answer: Answer) {
        self.ledger.call(&call, answer, &self.buffer);
    }

    /// Handshake and command bytes up to the lower that acts; its answer and
    /// what follows is for the caller to say.
    fn command(&mut self, bytes: &[u8]) {
        self.call(Call::Raise, Answer::Offer(Offer::Command));
        self.call(Call::Lower(0x55), Answer::Wait);
        self.call(Call::Feed(bytes.to_vec()), Answer::Wait);
        let offer = match bytes[0] {
            0 => Offer::Read,
            1 => Offer::Write,
            _ => Offer::Verify,
        };
        self.call(Call::Raise, Answer::Offer(offer));
    }

    /// A read of a block whose only access is at this sector.
    fn read(&mut self, number: u8, at: u32, status: [u8; 4], data: &[u8]) {
        self.command(&[0, 0, 0, number, 0, 0]);
        self.call(Call::Lower(0x55), Answer::Read(sector(at)));
        self.finished(status, data);
    }

    /// The awaited access is answered, and the command finished.
    fn finished(&mut self, status: [u8; 4], data: &[u8]) {
        self.buffer[..STATUS].copy_from_slice(&status);
        self.buffer[STATUS..].copy_from_slice(data);
        self.call(Call::Surface(0, vec![]), Answer::Finished);
    }

    /// Up to the offer 06 of a write that feeds these bytes.
    fn up_to_06(&mut self, opcode: u8, number: u8, data: &[u8]) {
        self.command(&[opcode, 0, 0, number]);
        self.call(Call::Lower(0x55), Answer::Wait);
        let laid = data.len().min(532);
        self.buffer[STATUS..STATUS + laid].copy_from_slice(&data[..laid]);
        self.call(Call::Feed(data.to_vec()), Answer::Wait);
        self.buffer[STATUS + laid..].fill(0);
        self.call(Call::Raise, Answer::Offer(Offer::Act));
    }

    /// The accesses of a trial after its write was asked for: the write is done, and
    /// a hundred rereads are asked for, the last one still to be answered.
    fn trial(&mut self, at: u32) {
        self.call(Call::Surface(0, vec![]), Answer::Read(sector(at)));
        for _ in 1..100 {
            self.call(Call::Surface(2, vec![]), Answer::Read(sector(at)));
        }
    }

    /// A write whose only access is at this sector.
    fn write(&mut self, number: u8, at: u32, data: &[u8], status: [u8; 4]) {
        self.up_to_06(1, number, data);
        self.call(Call::Lower(0x55), Answer::Write(sector(at)));
        let data = self.buffer[STATUS..].to_vec();
        self.finished(status, &data);
    }

    #[track_caller]
    fn allowed(&self) {
        assert_eq!(self.ledger.verdict(), Ok(()));
    }

    #[track_caller]
    fn broken(&self, broken: Broken) {
        assert_eq!(self.ledger.verdict(), Err(broken));
    }
}

const GOOD: [u8; 4] = [0; 4];
const FAILED: [u8; 4] = [0x05, 0, 0, 0];

#[test]
fn what_was_found_at_the_start() {
    let mut list = List::with(&[]);
    list.read(5, 5, GOOD, &OLD);
    list.read(5, 5, GOOD, &OLD);
    list.allowed();
    assert_eq!(list.ledger.good_reads(), 2);
    list.read(5, 5, GOOD, &NEW);
    list.broken(Broken::GoodRead(block(5)));
}

#[test]
fn a_spoiled_sector_has_no_candidate() {
    let mut list = List::with(&[]);
    list.read(6, 6, FAILED, &OLD);
    list.allowed();
    list.read(6, 6, GOOD, &OLD);
    list.broken(Broken::GoodRead(block(6)));
}

#[test]
fn a_failed_read_may_bring_anything() {
    let mut list = List::with(&[]);
    list.read(5, 5, FAILED, &NEW);
    list.read(5, 5, GOOD, &OLD);
    list.allowed();
}

#[test]
fn a_good_write_replaces() {
    let mut list = List::with(&[]);
    list.write(5, 5, &NEW, GOOD);
    list.read(5, 5, GOOD, &NEW);
    list.allowed();
    list.read(5, 5, GOOD, &OLD);
    list.broken(Broken::GoodRead(block(5)));
}

#[test]
fn a_failed_write_adds() {
    // Either the old bytes or the new ones may come, but not both in turn.
    for (first, then) in [(OLD, NEW), (NEW, OLD)] {
        let mut list = List::with(&[]);
        list.write(5, 5, &NEW, FAILED);
        list.read(5, 5, GOOD, &first);
        list.read(5, 5, GOOD, &first);
        list.allowed();
        list.read(5, 5, GOOD, &then);
        list.broken(Broken::GoodRead(block(5)));
    }
}

#[test]
fn a_failed_write_without_an_access_adds_nothing() {
    let mut list = List::with(&[]);
    list.up_to_06(1, 5, &NEW);
    list.buffer[0] = 0x11;
    list.call(Call::Lower(0x55), Answer::Finished);
    list.read(5, 5, GOOD, &NEW);
    list.broken(Broken::GoodRead(block(5)));
}

#[test]
fn a_write_reported_good_without_an_access() {
    // The bytes are its own all the same; the read shows that it was none.
    let mut list = List::with(&[]);
    list.up_to_06(1, 5, &NEW);
    list.call(Call::Lower(0x55), Answer::Finished);
    list.allowed();
    list.read(5, 5, GOOD, &OLD);
    list.broken(Broken::GoodRead(block(5)));
}

#[test]
fn a_write_broken_off_is_neither() {
    for reset in [false, true] {
        let mut list = List::with(&[]);
        list.up_to_06(2, 5, &NEW);
        if reset {
            list.call(Call::Reset, Answer::Wait);
        } else {
            list.buffer[..4].copy_from_slice(&[0x80, 0, 0, 0]);
            list.call(Call::Lower(0x54), Answer::Finished);
        }
        let mut other = List {
            ledger: list.ledger.clone(),
            buffer: list.buffer.clone(),
        };
        list.read(5, 5, GOOD, &OLD);
        list.allowed();
        other.read(5, 5, GOOD, &NEW);
        other.broken(Broken::GoodRead(block(5)));
    }
}

/// A list in which a command for block 5, with these command bytes, awaits its
/// first access.
fn under_way(bytes: &[u8]) -> List {
    let mut list = List::with(&[]);
    let first = match bytes[0] {
        0 => {
            list.command(bytes);
            Answer::Read(sector(5))
        }
        opcode => {
            list.up_to_06(opcode, 5, &NEW);
            Answer::Write(sector(5))
        }
    };
    list.call(Call::Lower(0x55), first);
    list
}

/// What breaks a command off, and an answer to it. Another handshake byte may
/// answer finished itself.
const BREAKS: [(Call, Answer); 3] = [
    (Call::Lower(0x54), Answer::Wait),
    (Call::Lower(0x54), Answer::Finished),
    (Call::Reset, Answer::Wait),
];

/// Such lists after each break, and after a finish with this status and these
/// bytes.
fn broken_off(bytes: &[u8], status: [u8; 4], data: &[u8]) -> [List; 3] {
    BREAKS.map(|(call, answer)| {
        let mut list = under_way(bytes);
        list.buffer[..STATUS].copy_from_slice(&status);
        list.buffer[STATUS..].copy_from_slice(data);
        list.call(call, answer);
        list.finished(status, data);
        list
    })
}

#[test]
fn a_write_under_way_that_is_broken_off_is_neither() {
    for opcode in [1, 2] {
        for status in [GOOD, FAILED] {
            let lists = || broken_off(&[opcode, 0, 0, 5], status, &NEW);
            for mut list in lists() {
                // Reported good it would have replaced the old bytes.
                list.read(5, 5, GOOD, &OLD);
                list.allowed();
            }
            for mut list in lists() {
                // Reported failed it would have added the new ones.
                list.read(5, 5, GOOD, &NEW);
                list.broken(Broken::GoodRead(block(5)));
            }
        }
    }
}

#[test]
fn a_read_under_way_that_is_broken_off_gives_nothing() {
    for mut list in broken_off(&[0, 0, 0, 5, 0, 0], GOOD, &NEW) {
        list.allowed();
        assert_eq!(list.ledger.good_reads(), 0);
        list.read(5, 5, GOOD, &OLD);
        list.allowed();
        assert_eq!(list.ledger.good_reads(), 1);
    }
}

#[test]
fn a_command_broken_off_moves_no_block() {
    for (call, answer) in BREAKS {
        let mut list = under_way(&[0, 0, 0, 5, 0, 0]);
        list.call(call, answer);
        list.call(Call::Surface(0, vec![]), Answer::Read(sector(9)));
        list.finished([0, 0x04, 0, 0], &OLD);
        list.read(5, 5, GOOD, &OLD);
        list.allowed();
    }
}

#[test]
fn a_refused_byte_or_reset_breaks_nothing_off() {
    for call in [Call::Lower(0x54), Call::Reset] {
        let mut list = under_way(&[1, 0, 0, 5]);
        list.call(call, Answer::Refused(Code::Place));
        list.finished(GOOD, &NEW);
        list.read(5, 5, GOOD, &NEW);
        list.allowed();
    }
}

/// So many bytes of 07, then this byte up to 532.
fn ending_in(count: usize, byte: u8) -> [u8; 532] {
    let mut bytes = [byte; 532];
    bytes[..count].fill(7);
    bytes
}

/// A list with these bytes in the data part, then a write of so many bytes of 07
/// to block 5.
fn short_write(part: &[u8], count: usize, status: [u8; 4]) -> List {
    let mut list = List::with(&[]);
    list.buffer[STATUS..].copy_from_slice(part);
    list.write(5, 5, &vec![7; count], status);
    list
}

#[test]
fn short_data_ends_in_zeros() {
    for count in [0, 1, 511, 512, 531, 532] {
        let mut list = short_write(&NEW, count, GOOD);
        list.read(5, 5, GOOD, &ending_in(count, 0));
        list.allowed();
    }
}

#[test]
fn what_was_there_behind_short_data_is_forbidden() {
    for count in [0, 1, 511, 512, 531] {
        let mut list = short_write(&NEW, count, GOOD);
        list.read(5, 5, GOOD, &ending_in(count, 0x02));
        list.broken(Broken::GoodRead(block(5)));
    }
    let mut list = short_write(&NEW, 532, GOOD);
    list.read(5, 5, GOOD, &ending_in(532, 0x02));
    list.allowed();
}

#[test]
fn a_failed_write_of_short_data_adds_zeros() {
    for (read, allowed) in [
        (OLD, true),
        (ending_in(512, 0), true),
        (ending_in(512, 0x01), false),
        (ending_in(512, 0x02), false),
    ] {
        let mut list = short_write(&NEW, 512, FAILED);
        list.read(5, 5, GOOD, &read);
        assert_eq!(list.ledger.verdict().is_ok(), allowed, "{}", read[531]);
    }
}

#[test]
fn the_data_part_has_no_say_in_a_writes_bytes() {
    // A controller that forgets the zeros is found out, whatever its buffer shows.
    let mut list = List::with(&[]);
    list.buffer[STATUS..].copy_from_slice(&NEW);
    list.command(&[1, 0, 0, 5]);
    list.call(Call::Lower(0x55), Answer::Wait);
    list.call(Call::Feed(vec![7; 512]), Answer::Wait);
    list.buffer[STATUS..].copy_from_slice(&ending_in(512, 0x02));
    list.call(Call::Raise, Answer::Offer(Offer::Act));
    list.call(Call::Lower(0x55), Answer::Write(sector(5)));
    list.finished(GOOD, &ending_in(512, 0x02));
    list.read(5, 5, GOOD, &ending_in(512, 0x02));
    list.broken(Broken::GoodRead(block(5)));
}

#[test]
fn bytes_of_a_write_broken_off_reach_no_later_one() {
    let mut list = List::with(&[]);
    list.up_to_06(1, 5, &[9; 532]);
    list.buffer[..4].copy_from_slice(&[0x80, 0, 0, 0]);
    list.call(Call::Lower(0x54), Answer::Finished);
    list.write(5, 5, &[7; 3], GOOD);
    list.read(5, 5, GOOD, &ending_in(3, 0));
    list.allowed();
}

#[test]
fn data_come_in_pieces_and_too_many() {
    let mut list = List::with(&[]);
    list.command(&[1, 0, 0, 5]);
    list.call(Call::Lower(0x55), Answer::Wait);
    list.call(Call::Feed(vec![7; 530]), Answer::Wait);
    list.call(Call::Feed(vec![8; 9]), Answer::Wait);
    list.call(Call::Feed(vec![9; 9]), Answer::Wait);
    list.call(Call::Raise, Answer::Offer(Offer::Act));
    list.call(Call::Lower(0x55), Answer::Write(sector(5)));
    let mut wanted = [7; 532];
    wanted[530..].fill(8);
    list.finished(GOOD, &wanted);
    list.read(5, 5, GOOD, &wanted);
    list.allowed();
}

#[test]
fn refused_calls_change_nothing() {
    let mut list = List::with(&[]);
    let refused = Answer::Refused(Code::Place);
    list.call(Call::Raise, Answer::Offer(Offer::Command));
    list.call(Call::Feed(vec![1, 0, 0, 9]), refused);
    list.call(Call::Lower(0x55), Answer::Wait);
    list.call(Call::Feed(vec![9; 9]), Answer::Refused(Code::Buffer));
    list.call(Call::Feed(vec![0, 0, 0]), Answer::Wait);
    list.call(Call::Reset, refused);
    list.call(Call::Feed(vec![5, 0, 0]), Answer::Wait);
    list.call(Call::Raise, Answer::Offer(Offer::Read));
    list.call(Call::Lower(0x54), Answer::Refused(Code::Buffer));
    list.call(Call::Start, Answer::Refused(Code::Buffer));
    list.call(Call::Lower(0x55), Answer::Read(sector(5)));
    list.call(Call::Image, Answer::Wait);
    list.call(
        Call::Surface(0, NEW.to_vec()),
        Answer::Refused(Code::Buffer),
    );
    list.finished(GOOD, &OLD);
    list.allowed();
    assert_eq!(list.ledger.good_reads(), 1);
}

#[test]
fn the_first_access_is_at_the_blocks_sector() {
    let mut list = List::with(&[]);
    list.read(5, 5, FAILED, &OLD);
    list.allowed();
    list.read(5, 6, FAILED, &OLD);
    list.broken(Broken::FirstAccess {
        number: 5,
        wanted: Some(sector(5)),
        found: sector(6),
    });
    // Later accesses may be elsewhere.
    let mut list = List::with(&[]);
    list.command(&[0, 0, 0, 5, 0, 0]);
    list.call(Call::Lower(0x55), Answer::Read(sector(5)));
    list.call(Call::Surface(2, vec![]), Answer::Write(sector(4928)));
    list.finished(FAILED, &OLD);
    list.allowed();
}

#[test]
fn an_access_without_a_sector() {
    // No table: a malformed image, or a whole one with answer 1.
    let whole = Draft::new(&[], &[]).bytes();
    for (answer, bytes) in [(0, &vec![0; 532]), (1, &whole)] {
        let mut list = List::begun();
        list.table(answer, bytes);
        list.read(5, 5, FAILED, &OLD);
        list.broken(Broken::FirstAccess {
            number: 5,
            wanted: None,
            found: sector(5),
        });
    }
    // A number of no block.
    let mut list = List::with(&[]);
    list.command(&[0, 0xFF, 0xFF, 0xFE, 0, 0]);
    list.call(Call::Lower(0x55), Answer::Read(sector(5)));
    list.broken(Broken::FirstAccess {
        number: 0xFF_FFFE,
        wanted: None,
        found: sector(5),
    });
}

#[test]
fn numbers_of_no_block_have_no_rule() {
    let mut list = List::with(&[]);
    list.command(&[0, 0xFF, 0xFF, 0xFF, 0, 0]);
    list.buffer[STATUS..].copy_from_slice(&NEW);
    list.call(Call::Lower(0x55), Answer::Finished);
    list.read(5, 5, GOOD, &OLD);
    list.allowed();
}

#[test]
fn the_health_block_is_ignored() {
    // Block 5 has two candidates and block 7 a spare.
    let mut list = List::with(&[7]);
    list.write(5, 5, &NEW, FAILED);
    let before = list.ledger.clone();
    // Whatever the status and the bytes.
    for status in [GOOD, [0, 0, 0x80, 0], [0, 0x04, 0, 0], [0x01, 0x08, 0, 0]] {
        for data in [OLD, NEW, [0; 532]] {
            list.command(&[0, 0xFF, 0xFF, 0xFD, 0, 0]);
            list.buffer[..STATUS].copy_from_slice(&status);
            list.buffer[STATUS..].copy_from_slice(&data);
            list.call(Call::Lower(0x55), Answer::Finished);
        }
    }
    list.allowed();
    assert_eq!(list.ledger.good_reads(), 0);
    assert!(list.ledger.pages == before.pages && list.ledger.places == before.places);
    // Either candidate may still come, and no other bytes.
    for (read, allowed) in [(OLD, true), (NEW, true), ([0; 532], false)] {
        let mut list = List {
            ledger: list.ledger.clone(),
            buffer: list.buffer.clone(),
        };
        list.read(5, 5, GOOD, &read);
        assert_eq!(list.ledger.verdict().is_ok(), allowed);
    }
}

#[test]
fn writes_to_the_health_block_are_ignored() {
    // Even if they were reported good.
    let mut list = List::with(&[]);
    let before = list.ledger.pages.clone();
    for opcode in [1, 2] {
        list.command(&[opcode, 0xFF, 0xFF, 0xFD]);
        list.call(Call::Lower(0x55), Answer::Wait);
        list.call(Call::Feed(NEW.to_vec()), Answer::Wait);
        list.call(Call::Raise, Answer::Offer(Offer::Act));
        list.call(Call::Lower(0x55), Answer::Finished);
    }
    list.allowed();
    assert!(list.ledger.pages == before);
}

#[test]
fn the_table_is_taken_when_it_comes() {
    let mut list = List::begun();
    list.call(Call::Surface(2, vec![]), Answer::Read(TABLE));
    list.call(Call::Surface(0, vec![0; 532]), Answer::Read(TABLE));
    list.table(0, &Draft::new(&[0xFF_FFFE, 7, 5], &[]).bytes());
    let found = Sectors::new();
    let held = |number: u32| found.get(sector(number)).expect("held").to_vec();
    list.read(7, 4929, GOOD, &held(4929));
    list.read(5, 4930, GOOD, &held(4930));
    list.read(8, 8, GOOD, &held(8));
    list.allowed();
    // An image that comes to a store is no table.
    list.command(&[0, 0, 0, 7, 0, 0]);
    list.call(Call::Lower(0x55), Answer::Read(sector(4929)));
    list.call(Call::Surface(0, held(4929)), Answer::Store);
    let other = Draft::new(&[], &[]).bytes();
    list.buffer[STATUS..].copy_from_slice(&held(4929));
    list.call(Call::Surface(0, other), Answer::Finished);
    list.read(7, 4929, GOOD, &held(4929));
    list.allowed();
}

#[test]
fn a_table_of_form_b_gives_the_sectors() {
    let found = Sectors::new();
    let held = |number: u32| found.get(sector(number)).expect("held").to_vec();
    let draft = DraftB::new(u32::MAX, &[(0xFF_FFFE, 3), (7, 1), (5, 0)], &[7, 9]);
    let mut list = List::begun();
    list.table(0, &draft.bytes());
    list.read(7, 4929, GOOD, &held(4929));
    list.read(5, 4930, GOOD, &held(4930));
    list.read(8, 8, GOOD, &held(8));
    list.allowed();
}

#[test]
fn refused_images_of_form_b_are_no_table() {
    let draft = DraftB::new(1, &[(7, 1)], &[9]);
    let mut wrong_sum = draft.bytes();
    wrong_sum[531] ^= 1;
    let mut not_zero = draft.bytes();
    not_zero[529] = 1;
    for bytes in [
        draft.with(|it| it.begin[3] = 0x1F).bytes(),
        wrong_sum,
        not_zero.clone(),
        summed(not_zero),
        draft.with(|it| it.spares[0].1 = 4).bytes(),
        draft.with(|it| it.bad_offset = 21).bytes(),
        draft.with(|it| it.bads[0] = 0xFF_FFFE).bytes(),
    ] {
        let mut list = List::begun();
        list.table(0, &bytes);
        list.read(5, 5, FAILED, &OLD);
        list.broken(Broken::FirstAccess {
            number: 5,
            wanted: None,
            found: sector(5),
        });
    }
}

#[test]
fn converts_are_no_calls_of_the_list() {
    let mut list = List::begun();
    let image = Draft::new(&[7], &[]).bytes();
    list.call(Call::Convert(image), Answer::Wait);
    // The read of 4960 is still awaited.
    list.table(0, &DraftB::new(0, &[(5, 2)], &[]).bytes());
    let held = Sectors::new().get(sector(4928)).expect("held");
    list.read(5, 4928, GOOD, &held);
    list.allowed();
}

#[test]
fn a_move_changes_the_sector() {
    let mut list = List::with(&[]);
    list.up_to_06(2, 5, &NEW);
    list.call(Call::Lower(0x55), Answer::Write(sector(5)));
    list.trial(5);
    list.call(Call::Surface(2, vec![]), Answer::Write(sector(4928)));
    list.trial(4928);
    list.finished([0x04, 0x04, 0, 0], &NEW);
    list.read(5, 4928, GOOD, &NEW);
    list.allowed();
    let mut other = List {
        ledger: list.ledger.clone(),
        buffer: list.buffer.clone(),
    };
    list.read(5, 5, GOOD, &NEW);
    list.broken(Broken::FirstAccess {
        number: 5,
        wanted: Some(sector(4928)),
        found: sector(5),
    });
    // Another block in the same spare.
    other.up_to_06(2, 9, &NEW);
    other.call(Call::Lower(0x55), Answer::Write(sector(9)));
    other.call(Call::Surface(0, vec![]), Answer::Read(sector(4928)));
    other.allowed();
    other.finished([0, 0x04, 0, 0], &NEW);
    other.broken(Broken::SameSector(block(5), block(9), sector(4928)));
}

/// A plain write to block 5 times out, and the spare gets its trial (document 02,
/// request 4).
fn timed_out() -> List {
    let mut list = List::with(&[]);
    list.up_to_06(1, 5, &NEW);
    list.call(Call::Lower(0x55), Answer::Write(sector(5)));
    list.call(Call::Surface(2, vec![]), Answer::Write(sector(4928)));
    list.trial(4928);
    list
}

#[test]
fn a_plain_write_may_move_its_block() {
    let mut list = timed_out();
    list.finished([0x04, 0x04, 0, 0], &NEW);
    list.read(5, 4928, GOOD, &NEW);
    list.allowed();
    // Its bytes are the only ones.
    list.read(5, 4928, GOOD, &OLD);
    list.broken(Broken::GoodRead(block(5)));
}

#[test]
fn a_plain_write_without_a_spare_adds_its_bytes() {
    for bytes in [&OLD, &NEW] {
        let mut list = timed_out();
        list.finished([0x05, 0x40, 0, 0], &NEW);
        // The block keeps its sector.
        list.read(5, 5, GOOD, bytes);
        list.allowed();
    }
}

#[test]
fn the_rewriting_of_a_read_adds_nothing() {
    let mut list = List::with(&[]);
    list.command(&[0, 0, 0, 5, 0, 0]);
    list.call(Call::Lower(0x55), Answer::Read(sector(5)));
    list.call(Call::Surface(2, vec![]), Answer::Read(sector(5)));
    list.call(Call::Surface(0, NEW.to_vec()), Answer::Write(sector(5)));
    list.trial(5);
    list.finished([0x05, 0x40, 0, 0], &NEW);
    list.allowed();
    list.read(5, 5, GOOD, &NEW);
    list.broken(Broken::GoodRead(block(5)));
}

#[test]
fn a_freed_sector_may_be_anothers() {
    // Block 5 leaves its home, then block 9 comes there: no moment has both.
    let mut list = List::with(&[]);
    for (number, from, to) in [(5, 5, 4928), (9, 9, 5)] {
        list.up_to_06(2, number, &NEW);
        list.call(Call::Lower(0x55), Answer::Write(sector(from)));
        list.call(Call::Surface(0, vec![]), Answer::Read(sector(to)));
        list.finished([0, 0x04, 0, 0], &NEW);
    }
    list.allowed();
}

#[test]
fn in_words() {
    let wanted = Some(sector(5));
    let found = sector(6);
    let number = 5;
    for (broken, words) in [
        (
            Broken::GoodRead(block(5)),
            "a good read of block 5 gave other bytes",
        ),
        (
            Broken::FirstAccess {
                number,
                wanted,
                found,
            },
            "the first access for 5 was at 6 and not at 5",
        ),
        (
            Broken::FirstAccess {
                number,
                wanted: None,
                found,
            },
            "the first access for 5 was at 6, and it has no sector",
        ),
        (
            Broken::SameSector(block(1), block(2), found),
            "blocks 1 and 2 had both sector 6",
        ),
        (
            Broken::NoTable(block(5)),
            "a command for block 5 was good without a table",
        ),
    ] {
        assert_eq!(broken.to_string(), words);
    }
}
