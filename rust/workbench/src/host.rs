//! The host: its commands as handshakes on the board, and what each came to.

use controller::{Answer, Code, Offer, GO_ON};
use reference::drive::Call;
use reference::geometry::{home, spare, Block, Sector};
use reference::image::{three_bytes, Cause, Entry, Spare, Table};

use crate::board::{Accessed, Board, Cut};
use crate::clock::{Time, READ_HANDSHAKES, WRITE_HANDSHAKES};
use crate::{bus, status};

/// A read's retry count and threshold.
#[derive(Clone, Copy, Debug, PartialEq, Eq)]
pub struct Retry {
    pub retries: u8,
    pub threshold: u8,
}

/// What a host sends if the plan says nothing else.
pub const USUAL: Retry = Retry {
    retries: 10,
    threshold: 3,
};

/// How a host's line ended.
#[derive(Clone, Copy, Debug, PartialEq, Eq)]
pub enum End {
    /// With these status bytes.
    Finished([u8; 4]),
    Offered(Offer),
    /// The controller waits for the host.
    Waits,
    Refused(Code),
    /// The power failed, so that nothing was reported.
    Cut(Cut),
}

/// A change of the table.
#[derive(Clone, Copy, Debug, PartialEq, Eq)]
pub enum Change {
    Moved {
        block: Block,
        from: Sector,
        spare: usize,
        cause: Cause,
    },
    Died {
        spare: usize,
    },
    EnteredBad,
    RemovedBad,
}

/// What a host's line came to.
#[derive(Clone, Debug, PartialEq, Eq)]
pub struct Report {
    pub accesses: Vec<Accessed>,
    pub end: End,
    pub changes: Vec<Change>,
    /// What it would have taken on the drive, with the handshakes before it.
    pub took: Time,
    /// It is a good read that a comparison wanted to bring other bytes.
    pub other_bytes: bool,
}

impl Report {
    /// Whether a command finished well.
    pub fn good(&self) -> bool {
        matches!(self.end, End::Finished(bytes) if status::good(bytes))
    }

    /// Whether the power failed.
    pub fn cut(&self) -> bool {
        matches!(self.end, End::Cut(_))
    }
}

/// What was counted in a run.
#[derive(Clone, Copy, Debug, Default, PartialEq, Eq)]
pub struct Tally {
    /// Commands that were acted on and finished.
    pub commands: u64,
    pub failed: u64,
    /// All accesses that were answered, those of starts and stores too.
    pub accesses: u64,
    pub moves: u64,
    /// Power cuts.
    pub cuts: u64,
}

/// The host and its board.
#[derive(Clone, Debug)]
pub struct Host {
    pub board: Board,
    pub tally: Tally,
}

impl Host {
    pub fn new(board: Board) -> Host {
        let tally = Tally::default();
        Host { board, tally }
    }

    /// Power on.
    pub fn start(&mut self) -> Report {
        self.perform(&[Call::Start], Time::ZERO)
    }

    /// Raises CMD.
    pub fn raise(&mut self) -> Report {
        self.perform(&[Call::Raise], Time::ZERO)
    }

    /// Lowers CMD with a byte on the bus.
    pub fn lower(&mut self, byte: u8) -> Report {
        self.perform(&[Call::Lower(byte)], Time::ZERO)
    }

    /// The reset line.
    pub fn reset(&mut self) -> Report {
        self.perform(&[Call::Reset], Time::ZERO)
    }

    /// A read command.
    pub fn read(&mut self, number: u32, retry: Retry) -> Report {
        let mut command = command_bytes(0x00, number);
        command.extend([retry.retries, retry.threshold]);
        let calls = [
            Call::Raise,
            Call::Lower(GO_ON),
            Call::Feed(command),
            Call::Raise,
            Call::Lower(GO_ON),
        ];
        let report = self.command(&calls, READ_HANDSHAKES);
        if let End::Finished(_) = report.end {
            bus::carry(self.board.data());
        }
        report
    }

    /// A write command, or a write/verify.
    pub fn write(&mut self, number: u32, verify: bool, data: &[u8]) -> Report {
        let opcode = if verify { 0x02 } else { 0x01 };
        let calls = [
            Call::Raise,
            Call::Lower(GO_ON),
            Call::Feed(command_bytes(opcode, number)),
            Call::Raise,
            Call::Lower(GO_ON),
            Call::Feed(data.to_vec()),
            Call::Raise,
            Call::Lower(GO_ON),
        ];
        self.command(&calls, WRITE_HANDSHAKES)
    }

    /// Makes the calls of a command. CMD is not raised again if offer 01 was made.
    fn command(&mut self, calls: &[Call], handshakes: Time) -> Report {
        let stands = self.board.last() == Answer::Offer(Offer::Command);
        let report = self.perform(if stands { &calls[1..] } else { calls }, handshakes);
        if let End::Finished(status) = report.end {
            self.tally.commands += 1;
            self.tally.failed += u64::from(!status::good(status));
            self.tally.moves += u64::from(status::spared(status));
        }
        report
    }

    /// Makes calls, behind handshakes that take so long.
    fn perform(&mut self, calls: &[Call], handshakes: Time) -> Report {
        let before = self.board.table();
        let begun = self.board.clock().now();
        self.board.clock_mut().pass(handshakes);
        let (accesses, end) = self.make(calls);
        self.tally.accesses += accesses.len() as u64;
        self.tally.cuts += u64::from(matches!(end, End::Cut(_)));
        let changes = match calls {
            [Call::Start] => vec![],
            _ => changes(before.as_ref(), self.board.table().as_ref()),
        };
        Report {
            accesses,
            end,
            changes,
            took: self.board.clock().now() - begun,
            other_bytes: false,
        }
    }

    /// Makes calls until one finishes a command or is refused, or the power fails.
    fn make(&mut self, calls: &[Call]) -> (Vec<Accessed>, End) {
        let mut accesses = vec![];
        let mut end = End::Waits;
        for call in calls {
            end = match self.board.turn(call, &mut accesses) {
                Ok(Answer::Finished) => {
                    bus::carry(&self.board.status());
                    End::Finished(self.board.status())
                }
                Ok(Answer::Offer(offer)) => {
                    bus::carry(&[offer.byte()]);
                    End::Offered(offer)
                }
                Ok(Answer::Refused(code)) => End::Refused(code),
                Ok(_) => End::Waits,
                Err(cut) => End::Cut(cut),
            };
            if !matches!(end, End::Offered(_) | End::Waits) {
                break;
            }
        }
        (accesses, end)
    }
}

/// Opcode and number of a command.
fn command_bytes(opcode: u8, number: u32) -> Vec<u8> {
    let mut bytes = vec![opcode];
    bytes.extend(three_bytes(number));
    bytes
}

/// Returns what a command changed in the table. Its own block is the only one that a
/// command enters or removes.
fn changes(before: Option<&Table>, after: Option<&Table>) -> Vec<Change> {
    let (Some(before), Some(after)) = (before, after) else {
        return vec![];
    };
    let mut changes = spare_changes(before.spares(), after.spares());
    match before.bads().len().cmp(&after.bads().len()) {
        std::cmp::Ordering::Less => changes.push(Change::EnteredBad),
        std::cmp::Ordering::Greater => changes.push(Change::RemovedBad),
        std::cmp::Ordering::Equal => {}
    }
    changes
}

fn spare_changes(old: &[Entry], new: &[Entry]) -> Vec<Change> {
    let differing = (0..new.len()).filter(|&k| old.get(k) != Some(&new[k]));
    differing
        .map(|k| match new[k].spare {
            Spare::Dead => Change::Died { spare: k },
            Spare::Moved(block) => moved(old, block, k, new[k].cause),
        })
        .collect()
}

/// Returns the move of a block to spare `k`.
fn moved(old: &[Entry], block: Block, k: usize, cause: Cause) -> Change {
    let was = old
        .iter()
        .position(|entry| entry.spare == Spare::Moved(block))
        .and_then(spare);
    Change::Moved {
        block,
        from: was.unwrap_or(home(block)),
        spare: k,
        cause,
    }
}

#[cfg(test)]
mod tests {
    use super::*;
    use crate::board::Purpose;
    use crate::faults::{Effect, Fault, Kind};
    use crate::platter::Platter;
    use crate::power::{Fate, Order, When};
    use reference::surface::{Access, Left};

    fn started() -> Host {
        let mut host = Host::new(Board::new(Platter::blank()));
        assert_eq!(host.start().end, End::Waits);
        host
    }

    fn sector(number: u32) -> Sector {
        Sector::new(number).expect("a sector")
    }

    #[test]
    fn written_and_read_back() {
        let mut host = started();
        let written = host.write(4928, false, &[7; 532]);
        assert_eq!(written.end, End::Finished([0, 0, 0x80, 0]));
        assert_eq!(written.accesses[0].sector, sector(4992));
        let read = host.read(4928, USUAL);
        assert_eq!(read.end, End::Finished([0; 4]));
        assert_eq!(host.board.data(), [7; 532]);
        assert_eq!(host.tally.commands, 2);
        assert_eq!(host.tally.accesses, 3);
        assert!(host.board.history().allowed());
    }

    #[test]
    fn a_move_and_a_move_on() {
        let mut host = started();
        for number in [17, 4928] {
            let spoils = Fault::All(Effect::Unreadable);
            host.board.faults.add(sector(number), Kind::Writes, spoils);
        }
        let report = host.write(17, true, &[7; 532]);
        let block = Block::new(17).expect("a block");
        let from = sector(17);
        assert_eq!(
            report.changes,
            [
                Change::Died { spare: 0 },
                Change::Moved {
                    block,
                    from,
                    spare: 1,
                    cause: Cause::Crc
                }
            ]
        );
        assert_eq!(report.end, End::Finished([0x08, 0x04, 0x80, 0]));
        let spoils = Fault::All(Effect::Unreadable);
        host.board.faults.add(sector(4929), Kind::Writes, spoils);
        let report = host.write(17, true, &[8; 532]);
        let from = sector(4929);
        assert_eq!(
            report.changes,
            [
                Change::Died { spare: 1 },
                Change::Moved {
                    block,
                    from,
                    spare: 2,
                    cause: Cause::Crc
                }
            ]
        );
        assert_eq!(host.tally.moves, 2);
        assert!(host.board.history().allowed());
    }

    #[test]
    fn bytes_that_change_under_the_controller_break_the_history() {
        let mut host = started();
        host.write(5, true, &[7; 532]);
        assert!(host.board.history().allowed());
        change(&mut host, 5, 8);
        assert!(host.read(5, USUAL).good());
        host.start();
        assert!(!host.board.history().allowed());
        assert_eq!(
            host.board.history().verdict(),
            "broken, after start 1: a good read of block 5 gave other bytes"
        );
    }

    /// Writes these bytes over a sector that holds other ones.
    fn change(host: &mut Host, number: u32, byte: u8) {
        let other = vec![byte; 532];
        let platter = host.board.platter_mut();
        let left = Left::Held(other.clone());
        platter.leave(Access::Write(sector(number)), &other, &left);
    }

    #[test]
    fn the_history_reaches_across_starts() {
        let mut host = started();
        host.write(5, true, &[7; 532]);
        host.start();
        assert!(host.read(5, USUAL).good());
        assert!(host.board.history().allowed());
        host.start();
        change(&mut host, 5, 8);
        host.start();
        assert!(host.board.history().allowed());
        assert!(host.read(5, USUAL).good());
        assert_eq!(host.board.history().starts(), 4);
        assert_eq!(
            host.board.history().verdict(),
            "broken, after start 4: a good read of block 5 gave other bytes"
        );
    }

    /// A write of block 5 at which the power fails, and what the next start and read find.
    fn cut_write(fate: Fate) -> (Host, Report) {
        let mut host = started();
        host.write(5, false, &[7; 532]);
        let when = When::Access(1);
        host.board.power.order(Order { when, fate });
        let cut = host.write(5, false, &[8; 532]);
        assert_eq!(
            cut.end,
            End::Cut(Cut {
                purpose: Purpose::Write,
                sector: sector(5),
                access: 1,
                fate
            })
        );
        assert!(cut.accesses.is_empty() && !host.board.is_on());
        assert_eq!(host.board.table(), None);
        assert!(host.board.data().iter().all(|&byte| byte == 0xA5));
        assert_eq!(host.start().end, End::Waits);
        let read = host.read(5, USUAL);
        (host, read)
    }

    #[test]
    fn a_write_that_the_power_cuts_is_old_new_or_unreadable() {
        for (fate, byte) in [(Fate::Old, 7), (Fate::New, 8)] {
            let (host, read) = cut_write(fate);
            assert_eq!(read.end, End::Finished([0, 0, 0x80, 0]));
            assert!(host.board.data().iter().all(|&held| held == byte));
            assert!(host.board.history().allowed());
            assert_eq!((host.tally.commands, host.tally.cuts), (2, 1));
        }
        let (host, read) = cut_write(Fate::Unreadable);
        assert!(!read.good());
        assert_eq!(host.board.platter().unreadable(), [sector(5)]);
        assert!(host.board.history().allowed());
    }

    #[test]
    fn a_raised_line_is_used_and_a_second_raise_refused() {
        let mut host = started();
        assert_eq!(host.raise().end, End::Offered(Offer::Command));
        assert_eq!(host.read(5, USUAL).end, End::Finished([0, 0, 0x80, 0]));
        host.raise();
        assert_eq!(host.raise().end, End::Refused(Code::Place));
        assert_eq!(host.read(5, USUAL).end, End::Finished([0; 4]));
        host.raise();
        assert_eq!(host.lower(0).end, End::Finished([0x80, 0, 0, 0]));
        host.raise();
        host.lower(GO_ON);
        // Command bytes are awaited, none came, and the command's raise gives offer 01.
        assert_eq!(host.read(5, USUAL).end, End::Finished([0; 4]));
        assert_eq!(host.tally.commands, 3);
    }
}
