//! A drive on the bench: it makes calls, writes down the script, keeps the
//! sectors, and has the ledger look on.

use crate::controller::{Answer, Code, Offer, BUFFER, GO_ON, TRIAL_REREADS};
use crate::drive::{Call, Drive};
use crate::geometry::{Sector, SECTOR_BYTES, TABLE};
use crate::image;
use crate::images::draft::Draft;
use crate::images::draft_b::DraftB;
use crate::ledger::{Broken, Ledger};
use crate::script::{self, Line};
use crate::surface::{cut_obeys, obeys, Access, Fate, Left, Outcome, Sectors};

/// The numbers of no block that have a meaning: the buffer, the table, and the
/// health block.
pub const RAM: u32 = 0xFF_FFFE;
pub const TABLE_IMAGE: u32 = 0xFF_FFFF;
pub const HEALTH: u32 = 0xFF_FFFD;

/// What a command with an invalid number finishes with.
pub const INVALID: [u8; 4] = [0x01, 0, 0x40, 0];

/// What a command with too many bytes finishes with.
pub const TOO_MUCH: [u8; 4] = [0x41, 0, 0, 0];

/// No read makes more accesses: 1 + 255 + 90 reads, then 33 trials, and the store.
pub const MOST_ACCESSES: usize = 346 + 33 * TRIAL_ACCESSES + 1;

/// A write and the rereads of a trial.
const TRIAL_ACCESSES: usize = 1 + TRIAL_REREADS as usize;

/// A write/verify makes two accesses before its trials, and a read more of them.
const _: () = assert!(MOST_ACCESSES == 3680);

/// What the ledger said of the lists on this bench.
#[derive(Clone, Copy, Debug, Default, PartialEq, Eq)]
pub struct Tally {
    /// Calls made, all told.
    pub calls: usize,
    /// Lists on which the surface kept its rules, and the calls in them.
    pub lists: usize,
    pub listed_calls: usize,
    /// The good reads of blocks in them.
    pub good_reads: u64,
    /// Lists on which it did not, and those of them that the ledger disallowed.
    pub other_lists: usize,
    pub disallowed: usize,
    /// The most accesses that a command asked for.
    pub most_accesses: usize,
    /// The starts that stand in lists on which the surface kept its rules.
    pub starts: usize,
    /// Cuts that left the sector of a pending write old, new or spoiled.
    pub cuts: [usize; 3],
}

/// The bench.
pub struct Bench {
    pub drive: Drive,
    sectors: Sectors,
    text: String,
    ledger: Option<Ledger>,
    /// The next start begins another list.
    anew: bool,
    /// The surface kept its rules in this list.
    obeyed: bool,
    list_calls: usize,
    list_starts: usize,
    pending: Option<Access>,
    last: Answer,
    accesses: usize,
    tally: Tally,
}

impl Bench {
    /// A drive that was never started, with an empty table on its surface; the
    /// script begins with a comment.
    pub fn new(about: &str) -> Bench {
        let mut sectors = Sectors::new();
        sectors.hold(TABLE, &Draft::new(&[], &[]).bytes());
        Bench {
            drive: Drive::new(),
            sectors,
            text: format!("# {about}\n"),
            ledger: None,
            anew: true,
            obeyed: true,
            list_calls: 0,
            list_starts: 0,
            pending: None,
            last: Answer::Wait,
            accesses: 0,
            tally: Tally::default(),
        }
    }

    /// The script, and what the ledger said.
    pub fn finish(mut self) -> (String, Tally) {
        self.end_list();
        (self.text, self.tally)
    }

    /// Whether the ledger allows the list so far.
    pub fn verdict(&self) -> Result<(), Broken> {
        self.ledger.as_ref().map_or(Ok(()), Ledger::verdict)
    }

    /// How many calls were made.
    pub fn calls(&self) -> usize {
        self.tally.calls
    }

    /// How many accesses the last command has asked for so far.
    pub fn accesses(&self) -> usize {
        self.accesses
    }

    /// The access that is awaited.
    pub fn pending(&self) -> Option<Access> {
        self.pending
    }

    /// Gives the sectors as they are.
    pub fn sectors(&self) -> &Sectors {
        &self.sectors
    }

    /// Lets a sector hold these bytes, which no access did: the next start begins
    /// another list.
    pub fn hold(&mut self, sector: Sector, bytes: &[u8]) {
        self.sectors.hold(sector, bytes);
        self.anew = true;
    }

    /// Spoils a sector in the same way.
    pub fn spoil(&mut self, sector: Sector) {
        self.sectors.spoil(sector);
        self.anew = true;
    }

    /// Lets the next start begin another list.
    pub fn list_anew(&mut self) {
        self.anew = true;
    }

    /// A comment line after an empty one.
    pub fn note(&mut self, words: &str) {
        self.text += &format!("\n# {words}\n");
    }

    /// A line of the script as it stands, of which no call comes.
    pub fn skipped(&mut self, line: &str) {
        assert!(line.is_empty() || line.starts_with('#'));
        self.text += &format!("{line}\n");
    }

    /// Makes a call.
    pub fn call(&mut self, call: Call) -> Answer {
        self.lend(None, call)
    }

    /// Makes a call that is lent so many bytes.
    pub fn lend(&mut self, lend: Option<usize>, call: Call) -> Answer {
        let line = Line { lend, call };
        let spelled = script::show(&line);
        self.spelled(line, &spelled)
    }

    /// Makes a call that the script has in this spelling.
    pub fn spelled(&mut self, line: Line, spelled: &str) -> Answer {
        assert_eq!(
            script::parse(spelled.as_bytes()).as_ref(),
            Ok(&line),
            "{spelled}"
        );
        self.make(line, spelled, None)
    }

    /// Answers the pending access.
    pub fn outcome(&mut self, outcome: Outcome) -> Answer {
        let line = Line {
            lend: None,
            call: Call::Surface(outcome.answer, outcome.bytes),
        };
        let spelled = script::show(&line);
        self.make(line, &spelled, Some(outcome.left))
    }

    /// Starts, which cuts off the pending access; this is done to its sector.
    pub fn cut_leaving(&mut self, left: Left) -> Answer {
        let line = Line {
            lend: None,
            call: Call::Start,
        };
        let spelled = script::show(&line);
        self.make(line, &spelled, Some(left))
    }

    fn make(&mut self, line: Line, spelled: &str, left: Option<Left>) -> Answer {
        self.text += spelled;
        self.text.push('\n');
        let before = self.drive.clone();
        let returned = self.drive.lend(line.lend, &line.call);
        let answer = returned.answer;
        self.last = answer;
        self.tally.calls += 1;
        assert!(
            self.drive.record.valid(),
            "{spelled}: a call left a damaged record"
        );

        let refused = matches!(answer, Answer::Refused(_));
        if refused || !line.call.may_change() {
            assert_eq!(self.drive, before, "{spelled}: something changed");
        }
        if refused {
            let code = Answer::Refused(Code::Record);
            assert_ne!(answer, code, "{spelled}: a call left a damaged record");
        } else if let Some(access) = self.pending {
            match &line.call {
                Call::Start => self.settle_cut(access, &before, left),
                Call::Surface(number, bytes) => {
                    self.settle(access, &before, *number, bytes, left);
                }
                _ => {}
            }
        }
        if line.call.may_change() {
            self.enlist(&line.call, answer);
            if !refused {
                self.follow(&line.call, answer);
            }
        }
        answer
    }

    /// Shows a call to the ledger, or begins another list with it.
    fn enlist(&mut self, call: &Call, answer: Answer) {
        let start = *call == Call::Start && !matches!(answer, Answer::Refused(_));
        if start && self.anew {
            self.end_list();
            self.ledger = Some(Ledger::new(&self.sectors));
            self.anew = false;
            self.obeyed = true;
            self.list_calls = 0;
            self.list_starts = 0;
        } else if let Some(ledger) = &mut self.ledger {
            ledger.call(call, answer, &self.drive.buffer);
            self.list_calls += 1;
            self.list_starts += usize::from(start);
        }
    }

    /// Does to the sector of an access what its cut leaves, and sees whether that keeps
    /// the rules.
    fn settle_cut(&mut self, access: Access, asked: &Drive, left: Option<Left>) {
        let sent = sent(asked, access);
        let left = left.unwrap_or(Left::Alone);
        if !cut_obeys(access, &sent, &left) {
            self.obeyed = false;
        }
        if let Access::Write(_) = access {
            let which = match left {
                Left::Alone => 0,
                Left::Held(_) => 1,
                Left::Spoiled => 2,
            };
            self.tally.cuts[which] += 1;
        }
        self.sectors.leave(access, &left);
    }

    /// An accepted answer: does it keep the rules, and what does it leave?
    fn settle(
        &mut self,
        access: Access,
        asked: &Drive,
        answer: u8,
        bytes: &[u8],
        left: Option<Left>,
    ) {
        let sent = sent(asked, access);
        let left = left.unwrap_or(match (access, answer) {
            (Access::Write(_), 0) => Left::Held(sent.clone()),
            _ => Left::Alone,
        });
        let outcome = Outcome {
            answer,
            bytes: bytes.to_vec(),
            left,
        };
        if !obeys(&self.sectors, access, &sent, &outcome) {
            self.obeyed = false;
        }
        self.sectors.leave(access, &outcome.left);
    }

    /// Keeps what is awaited, and counts the accesses of a command.
    fn follow(&mut self, call: &Call, answer: Answer) {
        self.pending = match answer {
            Answer::Read(sector) => Some(Access::Read(sector)),
            Answer::Write(sector) => Some(Access::Write(sector)),
            Answer::Store => Some(Access::Write(TABLE)),
            _ => None,
        };
        if matches!(call, Call::Lower(_) | Call::Start) {
            self.accesses = 0;
        }
        let read_or_write = matches!(answer, Answer::Read(_) | Answer::Write(_));
        if (read_or_write || answer == Answer::Store) && *call != Call::Start {
            self.accesses += 1;
            assert!(self.accesses <= MOST_ACCESSES, "a command goes on and on");
            self.tally.most_accesses = self.tally.most_accesses.max(self.accesses);
        }
    }

    /// The ledger's last word on a list.
    fn end_list(&mut self) {
        let Some(ledger) = self.ledger.take() else {
            return;
        };
        match ledger.verdict() {
            Ok(()) if self.obeyed => {
                self.tally.lists += 1;
                self.tally.listed_calls += self.list_calls;
                self.tally.starts += self.list_starts;
                self.tally.good_reads += ledger.good_reads();
            }
            Ok(()) => self.tally.other_lists += 1,
            Err(broken) => {
                assert!(!self.obeyed, "the ledger does not allow a list: {broken}");
                self.tally.other_lists += 1;
                self.tally.disallowed += 1;
            }
        }
    }

    /// What the pending access of a write sends.
    pub fn sent(&self) -> Vec<u8> {
        self.pending
            .map_or(vec![], |access| sent(&self.drive, access))
    }

    // The calls.

    pub fn start(&mut self) -> Answer {
        self.call(Call::Start)
    }

    /// Starts, which cuts off the pending access, with this fate of its sector.
    pub fn cut(&mut self, fate: Fate) -> Answer {
        let access = self.pending.expect("an access is awaited");
        self.cut_leaving(fate.left(access, &self.sent()))
    }

    pub fn raise(&mut self) -> Answer {
        self.call(Call::Raise)
    }

    pub fn lower(&mut self, byte: u8) -> Answer {
        self.call(Call::Lower(byte))
    }

    pub fn feed(&mut self, bytes: &[u8]) -> Answer {
        self.call(Call::Feed(bytes.to_vec()))
    }

    pub fn surface(&mut self, answer: u8, bytes: &[u8]) -> Answer {
        self.call(Call::Surface(answer, bytes.to_vec()))
    }

    pub fn reset(&mut self) -> Answer {
        self.call(Call::Reset)
    }

    pub fn image(&mut self) -> Answer {
        self.call(Call::Image)
    }

    pub fn convert(&mut self, image: &[u8]) -> Answer {
        self.call(Call::Convert(image.to_vec()))
    }

    // Answers of a surface that keeps its rules.

    /// The pending access is good: a read brings what is held, a write leaves
    /// its bytes.
    pub fn good(&mut self) -> Answer {
        let bytes = match self.pending {
            Some(Access::Read(sector)) => {
                let held = self.sectors.get(sector);
                held.expect("a sector not spoiled").to_vec()
            }
            Some(Access::Write(_)) => vec![],
            None => panic!("no access is awaited"),
        };
        self.surface(0, &bytes)
    }

    /// The pending write is done but spoils the sector.
    pub fn spoiling(&mut self) -> Answer {
        self.outcome(Outcome::done(Left::Spoiled))
    }

    /// The pending read meets a CRC error and brings 532 such bytes.
    pub fn crc(&mut self, byte: u8) -> Answer {
        self.surface(1, &[byte; SECTOR_BYTES])
    }

    pub fn timeout(&mut self) -> Answer {
        self.surface(2, &[])
    }

    pub fn no_settle(&mut self) -> Answer {
        self.surface(3, &[])
    }

    /// The trial whose write is awaited: the write is done, so many rereads time
    /// out, and then the others are good.
    pub fn trial(&mut self, failures: u32) -> Answer {
        self.good();
        for _ in 0..failures {
            self.timeout();
        }
        self.good_rereads(TRIAL_REREADS - failures)
    }

    /// So many accesses are good.
    pub fn good_rereads(&mut self, count: u32) -> Answer {
        for _ in 0..count {
            self.good();
        }
        self.last
    }

    /// The trial whose write is awaited passes without a failure.
    pub fn trial_passes(&mut self) -> Answer {
        self.trial(0)
    }

    /// The trial whose write is awaited fails, since every reread times out.
    pub fn trial_fails(&mut self) -> Answer {
        self.trial(TRIAL_REREADS)
    }

    // Longer ways.

    /// Starts with this table, in form A.
    pub fn started(&mut self, spares: &[u32], bads: &[u32]) {
        self.started_from(&Draft::new(spares, bads).bytes());
    }

    /// Starts with this table, in form B.
    pub fn started_b(&mut self, draft: &DraftB) {
        self.started_from(&draft.bytes());
    }

    /// Starts with these bytes in 4960.
    fn started_from(&mut self, image: &[u8]) {
        self.hold(TABLE, image);
        self.restarted();
    }

    /// A start that reads the table as it stands on the surface.
    pub fn restarted(&mut self) {
        self.start();
        self.good();
        assert_eq!(self.last, Answer::Wait);
    }

    /// A start that gets no table.
    pub fn started_without_table(&mut self) {
        self.start();
        self.no_settle();
        assert_eq!(self.last, Answer::Wait);
    }

    /// Answers the store at the end of a command, which is awaited, as done.
    #[track_caller]
    pub fn stored(&mut self) -> Answer {
        self.said(Answer::Store);
        self.good()
    }

    /// From idle to command bytes being taken.
    pub fn ready(&mut self) {
        self.raise();
        assert_eq!(self.last, Answer::Offer(Offer::Command));
        self.lower(GO_ON);
        assert_eq!(self.last, Answer::Wait);
    }

    /// From idle to the offer that follows these command bytes.
    pub fn command(&mut self, bytes: &[u8]) -> Answer {
        self.ready();
        self.feed(bytes);
        self.raise()
    }

    /// From idle to the first access of a read, or its finish.
    pub fn read(&mut self, number: u32, rereads: u8, threshold: u8) -> Answer {
        let [high, middle, low] = image::three_bytes(number);
        let offer = self.command(&[0, high, middle, low, rereads, threshold]);
        assert_eq!(offer, Answer::Offer(Offer::Read));
        self.lower(GO_ON)
    }

    /// From idle to the first access of a write, or its finish.
    pub fn write(&mut self, number: u32, data: &[u8]) -> Answer {
        self.send(1, number, &[data])
    }

    /// A write to FFFFFE brings these bytes into the data part.
    #[track_caller]
    pub fn fill(&mut self, bytes: &[u8]) {
        self.write(RAM, bytes);
        self.said(Answer::Finished);
        assert_eq!(self.drive.data(), bytes);
    }

    /// From idle to the first access of a write/verify, or its finish.
    pub fn verify(&mut self, number: u32, data: &[u8]) -> Answer {
        self.send(2, number, &[data])
    }

    /// From idle to the first access of a command that brings data in pieces.
    pub fn send(&mut self, opcode: u8, number: u32, pieces: &[&[u8]]) -> Answer {
        self.up_to_data(opcode, number);
        for piece in pieces {
            self.feed(piece);
        }
        assert_eq!(self.raise(), Answer::Offer(Offer::Act));
        self.lower(GO_ON)
    }

    /// From idle to data bytes being taken.
    pub fn up_to_data(&mut self, opcode: u8, number: u32) {
        let [high, middle, low] = image::three_bytes(number);
        let offer = self.command(&[opcode, high, middle, low]);
        let wanted = match opcode {
            1 => Offer::Write,
            _ => Offer::Verify,
        };
        assert_eq!(offer, Answer::Offer(wanted));
        assert_eq!(self.lower(GO_ON), Answer::Wait);
    }

    // What is expected.

    /// The last call answered so.
    #[track_caller]
    pub fn said(&self, answer: Answer) {
        assert_eq!(self.last, answer, "{}", self.tail());
    }

    #[track_caller]
    pub fn said_read(&self, sector: u32) {
        let sector = Sector::new(sector).expect("a sector");
        self.said(Answer::Read(sector));
    }

    #[track_caller]
    pub fn said_write(&self, sector: u32) {
        let sector = Sector::new(sector).expect("a sector");
        self.said(Answer::Write(sector));
    }

    #[track_caller]
    pub fn refused(&self, code: Code) {
        self.said(Answer::Refused(code));
    }

    /// The last call finished with these status bytes.
    #[track_caller]
    pub fn finished(&self, status: [u8; 4]) {
        self.said(Answer::Finished);
        assert_eq!(self.drive.status(), status, "{}", self.tail());
    }

    /// Answers the store at the end of a command as done, and asserts that the command
    /// finishes with these status bytes.
    #[track_caller]
    pub fn ended(&mut self, status: [u8; 4]) {
        self.stored();
        self.finished(status);
    }

    /// The data part is this byte over and over.
    #[track_caller]
    pub fn holds(&self, byte: u8) {
        assert_eq!(self.drive.data(), [byte; SECTOR_BYTES], "{}", self.tail());
    }

    /// The table has these lists; an image call shows them in the transcript.
    #[track_caller]
    pub fn table_is(&mut self, spares: &[u32], bads: &[u32]) {
        let last = self.last;
        self.image();
        self.said(Answer::Wait);
        self.last = last;
        assert_eq!(self.drive.record.spares, spares, "{}", self.tail());
        assert_eq!(self.drive.record.bads, bads, "{}", self.tail());
    }

    /// Asserts that the table has this run number and these spares with their causes;
    /// an image call shows them in the transcript.
    #[track_caller]
    pub fn history_is(&mut self, run: u32, spares: &[(u32, u8)]) {
        let last = self.last;
        self.image();
        self.said(Answer::Wait);
        self.last = last;
        let record = &self.drive.record;
        assert_eq!(record.run, run, "{}", self.tail());
        let numbers = record.spares.iter().copied();
        let entries: Vec<(u32, u8)> = numbers.zip(record.causes).collect();
        assert_eq!(entries, spares, "{}", self.tail());
    }

    /// Converts an image of either form; gives the other one.
    #[track_caller]
    pub fn converted(&mut self, image: &[u8]) -> Vec<u8> {
        self.convert(image);
        self.said(Answer::Wait);
        // The drive has no part in it.
        let returned = Drive::new().call(&Call::Convert(image.to_vec()));
        returned.image.expect("the second buffer")
    }

    /// The last lines of the script, for messages.
    fn tail(&self) -> String {
        let mut lines: Vec<&str> = self.text.lines().rev().take(6).collect();
        lines.reverse();
        lines.join("\n")
    }
}

/// What a write sends: a store the image, others the data part.
fn sent(drive: &Drive, access: Access) -> Vec<u8> {
    match access {
        Access::Read(_) => vec![],
        Access::Write(TABLE) => drive.record.stored_image().to_vec(),
        Access::Write(_) => drive.data().to_vec(),
    }
}

/// The length of the buffer, and lengths that are wrong.
pub const WRONG_LENGTHS: [usize; 7] = [0, 1, 4, 532, BUFFER - 1, BUFFER + 1, 600];
