//! A simulated host over the simulated surface: random scripts, and the ledger's
//! word on them.

mod temper;

use temper::Temper;

use super::bench::{Bench, Tally};
use crate::controller::{
    Answer, Awaited, Awaits, Offer, Phase, Place, Rereads, Stage, BUFFER, GO_ON, TRIAL_REREADS,
};
use crate::drive::Call;
use crate::geometry::{BLOCKS, TABLE};
use crate::image::{self, form_b, DEAD};
use crate::images::draft::{distinct, Draft};
use crate::images::draft_b::{summed, DraftB};
use crate::rng::Rng;
use crate::script::{show, Line};
use crate::surface::{near_miss, plain_bytes, Mood, Outcome, Policy};
use crate::text::show_bytes_varied;

/// After how many of four starts the surface breaks its rules.
type Lies = u32;

/// What random scripts have.
const SOMETIMES: Lies = 1;

/// A random script of about so many calls, in the temper of its seed.
pub fn random(seed: u64, calls: usize) -> String {
    let (text, _) = simulate(seed, calls, SOMETIMES, Temper::of(seed));
    text
}

/// A random script, and what the ledger said of its lists.
fn simulate(seed: u64, calls: usize, lies: Lies, temper: &'static Temper) -> (String, Tally) {
    let mut host = Host::new(seed, lies, temper);
    host.restart();
    while host.bench.calls() < calls {
        host.step();
    }
    host.bench.finish()
}

/// Of a trial on a spare: the surface turns to a mood in which it may well pass, so
/// that few commands go through all spares. One in so many.
const RELIEF: u32 = 2;
const RELIEVED: [Mood; 2] = [Mood::Calm, Mood::Marginal];

/// Of a trial: it is to end with so many failures, as far as the surface's rules
/// and its lies allow. One in so many.
const AIMED: u32 = 2;
const AIMS: [u32; 8] = [0, 12, 29, 30, 30, 31, 31, 32];

/// So many times as often a command goes on as long as it can while all spares are
/// unused, since the longest read needs them all.
const UNUSED: u32 = 4;

/// Of a store: it is not done, besides what the mood brings. Of one that is not done:
/// it is a no settle, else a timeout. One in so many.
const STORE_FAILS: u32 = 6;
const STORE_NO_SETTLE: u32 = 4;

/// Of a stray start while a trial is under way: it is made. One in so many.
const BROKEN_OFF: u32 = 8;

/// The last read that a read command may make: all before cost 89.
const LAST: Stage = Stage::Further { spent: 89 };

/// Blocks that the host likes: few, so that commands meet again.
const FAVOURITES: [u32; 12] = [0, 1, 17, 18, 255, 256, 4927, 4928, 4960, 9000, 9726, 9727];

const NO_BLOCKS: [u32; 8] = [
    9728, 0x00_FFFE, 0x00_FFFF, 0x01_0011, 0x80_0000, 0xFF_0000, 0xFF_FFFB, 0xFF_FFFC,
];

struct Host {
    bench: Bench,
    rng: Rng,
    policy: Policy,
    lies: Lies,
    temper: &'static Temper,
    /// The command is to go on as long as it can.
    longest: bool,
    /// The failures that the trial under way is to end with, if it is to.
    aim: Option<u32>,
    /// The number of the last command, which is often that of the next.
    last_number: u32,
    /// What is still to be fed.
    command: Vec<Vec<u8>>,
    data: Vec<Vec<u8>>,
}

impl Host {
    fn new(seed: u64, lies: Lies, temper: &'static Temper) -> Host {
        let mut rng = Rng::new(seed);
        let mut policy = Policy::new(rng.word());
        policy.moods = temper.moods;
        Host {
            bench: Bench::new(&format!("A random script, seed {seed}.")),
            rng,
            policy,
            lies,
            temper,
            longest: false,
            aim: None,
            last_number: FAVOURITES[0],
            command: vec![],
            data: vec![],
        }
    }

    /// A call in the plain spelling or another.
    fn say(&mut self, lend: Option<usize>, call: Call) -> Answer {
        let line = Line { lend, call };
        let spelled = if self.rng.one_in(8) {
            varied(&line, &mut self.rng)
        } else {
            show(&line)
        };
        self.bench.spelled(line, &spelled)
    }

    /// What the host or the surface does next.
    fn step(&mut self) {
        if self.rng.one_in(self.temper.stray) {
            return self.stray();
        }
        match self.bench.drive.record.phase {
            Phase::Idle => {
                self.idle();
            }
            Phase::Offered(offer) => {
                if offer == Offer::Command {
                    self.plan();
                }
                let byte = if self.rng.one_in(self.temper.wrong) {
                    self.rng.other_byte(GO_ON)
                } else {
                    GO_ON
                };
                self.say(None, Call::Lower(byte));
            }
            Phase::Command => {
                let piece = self.command.pop();
                self.feed_or_raise(piece);
            }
            Phase::Data => {
                let piece = self.data.pop();
                self.feed_or_raise(piece);
            }
            _ => self.answer(),
        }
    }

    fn feed_or_raise(&mut self, piece: Option<Vec<u8>>) {
        match piece {
            Some(bytes) => self.say(None, Call::Feed(bytes)),
            None => self.say(None, Call::Raise),
        };
    }

    /// A raise, or a restart when not much can be done any more.
    fn idle(&mut self) {
        let record = &self.bench.drive.record;
        // The latch is not dull while it fails every block's command.
        let latched = record.latch && !record.placed;
        let dull = !record.known || latched || record.spares.len() == 32;
        let Temper {
            restart,
            dull_restart,
            ..
        } = *self.temper;
        if dull && self.rng.one_in(dull_restart) || self.rng.one_in(restart) {
            self.restart();
        } else {
            self.say(None, Call::Raise);
        }
    }

    /// Answers for the surface, or cuts the power.
    fn answer(&mut self) {
        if !self.longest && self.rng.one_in(self.cut_chance()) {
            return self.cut();
        }
        let access = self.bench.pending().expect("an access is awaited");
        let sent = self.bench.sent();
        if let Phase::Trying(_, trial) = self.bench.drive.record.phase {
            if trial.awaits == Awaits::Write {
                self.plan_trial(trial.place);
            }
        }
        self.policy.no_settle = match self.bench.drive.record.phase {
            Phase::Storing { .. } => STORE_NO_SETTLE,
            _ if self.rereads().is_some() => self.temper.no_settle * 10,
            _ => self.temper.no_settle,
        };
        let mood = self.policy.mood;
        self.policy.mood = self.steered().unwrap_or(mood);
        let outcome = match self.near_verify() {
            Some(bytes) => Outcome::new(0, bytes),
            None => self.policy.answer(self.bench.sectors(), access, &sent),
        };
        self.policy.mood = mood;
        self.bench.outcome(outcome);
    }

    /// Gives the chance that the power is cut at the access that is awaited, one in so
    /// many: more often at writes than at reads.
    fn cut_chance(&self) -> u32 {
        let often = match self.bench.drive.record.phase {
            Phase::Starting { .. } | Phase::Reading(..) => 8,
            Phase::Trying(_, trial) if trial.awaits != Awaits::Write => 120,
            _ => 1,
        };
        self.temper.cut * often
    }

    /// Cuts the power and switches it on again. The sectors are as the cut leaves them,
    /// so that the list goes on.
    fn cut(&mut self) {
        let access = self.bench.pending().expect("an access is awaited");
        let sent = self.bench.sent();
        let left = self.policy.cut(access, &sent);
        self.longest = false;
        self.bench.cut_leaving(left);
        self.calm_or_not();
        // What was under way is often looked at.
        if self.rng.one_in(2) {
            self.policy.mood = Mood::Fine;
        }
    }

    /// Chooses the mood in which a start is answered.
    fn calm_or_not(&mut self) {
        self.policy.mood = Mood::Calm;
        if self.rng.one_in(self.temper.bad_start) {
            self.policy.turn();
        }
    }

    /// Chooses how a trial is to go whose write is awaited.
    fn plan_trial(&mut self, place: Place) {
        if matches!(place, Place::Spare(_)) && self.rng.one_in(RELIEF) {
            self.policy.mood = self.rng.pick(&RELIEVED);
        }
        let aims = self.rng.one_in(AIMED);
        self.aim = aims.then(|| self.rng.pick(&AIMS));
    }

    /// The mood of the next answer alone, where the command or its trial is to end
    /// in some way.
    fn steered(&mut self) -> Option<Mood> {
        let phase = self.bench.drive.record.phase;
        if self.longest {
            return Some(match phase {
                Phase::Reading(_, reading) if reading.stage == LAST => Mood::Fine,
                _ => Mood::Garbled,
            });
        }
        if matches!(phase, Phase::Storing { .. }) {
            return self.rng.one_in(STORE_FAILS).then_some(Mood::Stuck);
        }
        let (aim, rereads) = (self.aim?, self.rereads()?);
        // Of the rereads that are left so many are still to fail.
        let wanted = aim.saturating_sub(rereads.failures);
        let fails = self.rng.below(TRIAL_REREADS - rereads.made) < wanted;
        Some(if fails { Mood::Blind } else { Mood::Fine })
    }

    /// The rereads that the trial under way has made, if one more is awaited.
    fn rereads(&self) -> Option<Rereads> {
        match self.bench.drive.record.phase {
            Phase::Trying(_, trial) => match trial.awaits {
                Awaits::Write => None,
                Awaits::Reread(rereads) => Some(rereads),
            },
            _ => None,
        }
    }

    /// Where the surface lies, a first verify often and a reread of a trial now and
    /// then brings nearly the data part.
    fn near_verify(&mut self) -> Option<Vec<u8>> {
        let drive = &self.bench.drive;
        // Out of 20.
        let often = match drive.record.phase {
            Phase::Verifying { .. } => 15,
            Phase::Trying(..) => 2,
            _ => return None,
        };
        let read = drive.record.phase.awaited() == Some(Awaited::Read);
        let near = read && self.policy.lies && self.rng.below(20) < often;
        near.then(|| near_miss(&mut self.rng, drive.data()))
    }

    /// Chooses the next command, its pieces in the order of their popping.
    fn plan(&mut self) {
        if self.rng.one_in(self.temper.turn) {
            self.policy.turn();
        }
        let unused = self.bench.drive.record.spares.is_empty();
        let long = |n| self.rng.one_in(if unused { n / UNUSED } else { n });
        self.longest = self.temper.longest.is_some_and(long);
        if self.longest {
            return self.plan_longest();
        }
        self.last_number = self.number();
        let number = self.last_number;
        let rng = &mut self.rng;
        let opcode = match rng.below(30) {
            0 => 3 + rng.below(253) as u8,
            1..=14 => 0,
            15..=21 => 1,
            _ => 2,
        };
        let [_, high, middle, low] = number.to_be_bytes();
        let rereads = match rng.below(self.temper.most_rereads) {
            0 => 255,
            1 => 30,
            _ => rng.pick(&[0, 0, 0, 1, 1, 2, 3, 6]),
        };
        let threshold = rng.pick(&[0, 1, 1, 2, 3, 255]);
        let mut command = vec![opcode, high, middle, low, rereads, threshold];
        match rng.below(16) {
            0 => command.truncate(rng.place(7)),
            1 => command.extend([7; 5]),
            2 if opcode != 0 => command.truncate(4),
            _ => {}
        }
        self.command = pieces(rng, command);
        self.plan_data();
    }

    /// Chooses the data of the next command.
    fn plan_data(&mut self) {
        let rng = &mut self.rng;
        let mut data = plain_bytes(rng);
        match rng.below(16) {
            0 => data.truncate(rng.place(533)),
            1 => data.truncate(rng.place(20)),
            2 => data.push(9),
            3 => data.resize(533 + rng.place(600), 9),
            _ => {}
        }
        self.data = pieces(rng, data);
    }

    /// The number of the next command.
    fn number(&mut self) -> u32 {
        let rng = &mut self.rng;
        if self.temper.roams && rng.one_in(2) {
            return rng.below(BLOCKS);
        }
        match rng.below(20) {
            0 => 0xFF_FFFE,
            1 => 0xFF_FFFF,
            2 => rng.pick(&NO_BLOCKS),
            3 => rng.below(BLOCKS),
            4..=10 => rng.pick(&FAVOURITES),
            11 => 0xFF_FFFD,
            _ => self.last_number,
        }
    }

    /// The next command is a read with R 255, of which the last read alone is
    /// good and no trial passes.
    fn plan_longest(&mut self) {
        let [_, high, middle, low] = self.rng.below(BLOCKS).to_be_bytes();
        let threshold = self.rng.pick(&[0, 1, 255]);
        self.command = vec![vec![0, high, middle, low, 255, threshold]];
    }

    /// Starts with the surface as it is or prepared in some way. Where it is prepared, or
    /// begins or ceases to lie, another list begins.
    fn restart(&mut self) {
        let held = self.bench.sectors().get(TABLE);
        let whole = held.is_some_and(|held| image::read(&held).is_ok());
        match self.rng.below(16) {
            0 => self.bench.spoil(TABLE),
            1 => {
                let bytes = self.damaged_image();
                self.bench.hold(TABLE, &bytes);
            }
            2..=8 if whole => {}
            _ => {
                let bytes = self.whole_image();
                self.bench.hold(TABLE, &bytes);
            }
        }
        let lies = self.rng.below(4) < self.lies;
        if lies != self.policy.lies {
            self.bench.list_anew();
        }
        self.policy.lies = lies;
        self.longest = false;
        self.calm_or_not();
        self.say(None, Call::Start);
    }

    /// An image of a table in either form.
    fn whole_image(&mut self) -> Vec<u8> {
        let table = self.table();
        match self.rng.one_in(2) {
            true => DraftB::of(&table, &mut self.rng).bytes(),
            false => table.bytes(),
        }
    }

    /// The same with one byte changed, often with a sum that is right again.
    fn damaged_image(&mut self) -> Vec<u8> {
        let mut bytes = self.whole_image();
        let rng = &mut self.rng;
        let place = match rng.one_in(2) {
            true => rng.place(bytes.len()),
            false => rng.place(40),
        };
        bytes[place] = rng.other_byte(bytes[place]);
        match bytes.starts_with(&form_b::BEGIN) && rng.one_in(2) {
            true => summed(bytes),
            false => bytes,
        }
    }

    /// A convert of some image, whole or not.
    fn stray_convert(&mut self) {
        let record = &self.bench.drive.record;
        let mut bytes = match self.rng.below(8) {
            0..=2 if record.known => record.stored_image().to_vec(),
            3..=5 => self.damaged_image(),
            _ => self.whole_image(),
        };
        if self.rng.one_in(8) {
            let length = self.length();
            bytes.resize(length, 0);
        }
        let lend = self.rng.one_in(8).then(|| self.length());
        self.say(lend, Call::Convert(bytes));
    }

    /// A table in which favourite blocks are moved or bad.
    fn table(&mut self) -> Draft {
        let rng = &mut self.rng;
        let spares = rng.pick(&[0, 0, 1, 3, 6, 29, 31, 32]);
        let bads = rng.pick(&[0, 0, 1, 3, 6, 99, 100]);
        let mut lists = vec![];
        for count in [spares, bads] {
            let mut list = vec![];
            for number in distinct(rng, count, 0, BLOCKS) {
                let favourite = rng.pick(&FAVOURITES);
                let liked = rng.one_in(2) && !list.contains(&favourite);
                let entry = if liked { favourite } else { number };
                if !list.contains(&entry) {
                    list.push(entry);
                }
            }
            lists.push(list);
        }
        for spare in &mut lists[0] {
            if rng.one_in(2) {
                *spare = DEAD;
            }
        }
        Draft::new(&lists[0], &lists[1])
    }

    /// A call that no sensible host makes now, or something besides.
    fn stray(&mut self) {
        let lend = self.rng.one_in(4).then(|| self.length());
        match self.rng.below(63) {
            0 => {
                let trying = matches!(self.bench.drive.record.phase, Phase::Trying(..));
                if !trying || self.rng.one_in(BROKEN_OFF) {
                    self.restart();
                }
            }
            1..=3 => {
                self.say(lend, Call::Reset);
            }
            4..=12 => {
                self.say(lend, Call::Image);
            }
            13..=16 => {
                self.bench.skipped("");
                self.bench.skipped("# aside");
            }
            17..=20 => {
                self.say(lend, Call::Raise);
            }
            21..=23 => {
                let byte = self.rng.pick(&[GO_ON, GO_ON, 0, 0x54, 0xAA]);
                self.say(lend, Call::Lower(byte));
            }
            24..=28 => {
                let bytes = self.few_bytes();
                self.say(lend, Call::Feed(bytes));
            }
            29..=31 => {
                // Lent a wrong length it is refused; others are in `restart`.
                let length = self.length();
                if length != BUFFER {
                    self.say(Some(length), Call::Start);
                }
            }
            60..=62 => self.stray_convert(),
            _ => self.stray_answer(),
        }
    }

    /// A length to lend, most often a wrong one.
    fn length(&mut self) -> usize {
        match self.rng.below(4) {
            0 => self.rng.place(601),
            _ => self.rng.pick(&[0, 531, 532, 533, 535, 536, 537, 600]),
        }
    }

    fn few_bytes(&mut self) -> Vec<u8> {
        let count = self.rng.pick(&[0, 0, 1, 2, 4, 6]);
        vec![self.rng.byte(); count]
    }

    /// A surface answer that is refused, whatever is awaited.
    fn stray_answer(&mut self) {
        let answer = match self.rng.below(3) {
            0 => 4 + self.rng.below(252) as u8,
            _ => self.rng.below(4) as u8,
        };
        let count = self.rng.pick(&[0, 1, 531, 532, 533]);
        let lend = self.rng.one_in(8).then(|| self.length());
        let taken = match (self.bench.drive.record.phase.awaited(), answer) {
            (Some(Awaited::Read), 0 | 1) => count == 532,
            (Some(_), 0 | 2 | 3) => count == 0,
            _ => false,
        };
        // What would be taken is for the policy to say.
        if !taken || lend.is_some_and(|length| length != BUFFER) {
            let bytes = vec![self.rng.byte(); count];
            self.say(lend, Call::Surface(answer, bytes));
        }
    }
}

/// Bytes cut in pieces, the first one last.
fn pieces(rng: &mut Rng, mut bytes: Vec<u8>) -> Vec<Vec<u8>> {
    let mut pieces = vec![];
    while bytes.len() > 1 && rng.one_in(4) {
        let from = rng.place(bytes.len());
        pieces.push(bytes.split_off(from));
    }
    pieces.push(bytes);
    pieces
}

/// A line in a spelling that varies.
fn varied(line: &Line, rng: &mut Rng) -> String {
    let zeros = |rng: &mut Rng| "0".repeat(rng.place(4));
    let call = match &line.call {
        Call::Lower(byte) => format!("lower {byte:02X}"),
        Call::Feed(bytes) => format!("feed{}", show_bytes_varied(bytes, rng)),
        Call::Surface(answer, bytes) => format!(
            "surface {}{answer}{}",
            zeros(rng),
            show_bytes_varied(bytes, rng)
        ),
        Call::Convert(bytes) => format!("convert{}", show_bytes_varied(bytes, rng)),
        call => show(&Line {
            lend: None,
            call: call.clone(),
        }),
    };
    match line.lend {
        Some(length) => format!("lend {}{length} {call}", zeros(rng)),
        None => call,
    }
}

#[cfg(test)]
mod tests;
