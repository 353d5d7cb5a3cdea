//! An exhaustive search of a small world (document 02, request 7): short sequences of
//! commands for one or two blocks, few unused spares, every kind of outcome at every
//! kind of access, and power cuts there with every fate of the sector.
//!
//! The ledger looks on, and every way must be allowed. What is folded: the rereads of a
//! trial are all good, or all time out, or so many of them come before answer 3 or a
//! cut (`before_an_end`); of the further reads of a read, and of the reads of a start,
//! either the next one is good, or the one after a timeout, or none. A CRC error brings
//! the same wrong bytes always. Ways that come to a state once more are not gone again.

mod choices;
mod sizes;
#[cfg(test)]
mod tests;

pub use sizes::{Size, Table, LARGE, SMALL};

use std::collections::hash_map::DefaultHasher;
use std::collections::HashSet;
use std::fmt;
use std::hash::{Hash, Hasher};

use crate::controller::{Answer, GO_ON};
use crate::drive::{Call, Drive};
use crate::geometry::{SECTOR_BYTES, TABLE};
use crate::ledger::{Broken, Ledger};
use crate::surface::{Access, Sectors};
use choices::{Choice, Then};

/// Makes a call on a drive. A wrong one stands for a wrong controller.
type Make = fn(&mut Drive, &Call) -> Answer;

/// Shows a call to the ledger. A wrong one stands for a wrong ledger.
type Show = fn(&mut Ledger, &Call, Answer, &[u8]);

/// What a search looked at.
#[derive(Clone, Copy, Debug, Default, PartialEq, Eq)]
pub struct Tally {
    /// The ways taken: a command, an outcome or a cut, each from some state.
    pub ways: u64,
    /// The states from which ways were taken, no two alike.
    pub states: u64,
    /// Those of them in which the drive is idle.
    pub idle: u64,
    /// The accesses that were answered or cut off.
    pub accesses: u64,
    /// The cuts among them.
    pub cuts: u64,
    /// The good reads of blocks that the ledger allowed.
    pub good_reads: u64,
}

impl Tally {
    /// Adds what another search looked at.
    pub fn add(&mut self, other: Tally) {
        self.ways += other.ways;
        self.states += other.states;
        self.idle += other.idle;
        self.accesses += other.accesses;
        self.cuts += other.cuts;
        self.good_reads += other.good_reads;
    }
}

impl fmt::Display for Tally {
    fn fmt(&self, f: &mut fmt::Formatter) -> fmt::Result {
        write!(
            f,
            "{} ways from {} states ({} idle), {} accesses, {} cuts, {} good reads",
            self.ways, self.states, self.idle, self.accesses, self.cuts, self.good_reads
        )
    }
}

/// A way that the ledger does not allow.
#[derive(Clone, Debug, PartialEq, Eq)]
pub struct Violation {
    pub broken: Broken,
    /// What was done from the first start on.
    pub way: Vec<String>,
}

impl fmt::Display for Violation {
    fn fmt(&self, f: &mut fmt::Formatter) -> fmt::Result {
        write!(f, "{}: {}", self.broken, self.way.join("; "))
    }
}

/// A command of the menu.
#[derive(Clone, Copy, Debug, PartialEq, Eq)]
enum Order {
    Write,
    Verify,
    /// A read with R 0 and this T.
    Read(u8),
}

const MENU: [Order; 4] = [Order::Write, Order::Verify, Order::Read(0), Order::Read(1)];

/// What may still be done.
#[derive(Clone, Copy, Debug, PartialEq, Eq, Hash)]
struct Left {
    commands: u8,
    cuts: u8,
}

/// The drive, its surface, and the ledger at some point of a way.
#[derive(Clone)]
struct State {
    drive: Drive,
    sectors: Sectors,
    ledger: Ledger,
    pending: Option<Access>,
    left: Left,
}

impl State {
    /// Tells states apart. What the buffer holds matters while an access is awaited
    /// only.
    fn key(&self) -> (u64, u64) {
        let hashed = |seed: u8| {
            let mut hasher = DefaultHasher::new();
            (seed, self.left, &self.drive.record, &self.sectors).hash(&mut hasher);
            self.ledger.hash_standing(&mut hasher);
            if self.pending.is_some() {
                self.drive.data().hash(&mut hasher);
            }
            hasher.finish()
        };
        (hashed(1), hashed(2))
    }

    /// Gives what the pending access sends.
    fn sent(&self) -> Vec<u8> {
        match self.pending {
            Some(Access::Write(TABLE)) => self.drive.record.stored_image().to_vec(),
            Some(Access::Write(_)) => self.drive.data().to_vec(),
            _ => vec![],
        }
    }
}

/// A search under way.
struct Search {
    make: Make,
    show: Show,
    blocks: Vec<u32>,
    commands: u8,
    seen: HashSet<(u64, u64)>,
    tally: Tally,
    way: Vec<String>,
}

/// Goes all ways of a world.
pub fn search(size: Size) -> Result<Tally, Violation> {
    search_with(size, make, show)
}

/// Makes a call on the controller.
fn make(drive: &mut Drive, call: &Call) -> Answer {
    drive.call(call).answer
}

/// Shows a call to the ledger.
fn show(ledger: &mut Ledger, call: &Call, answer: Answer, buffer: &[u8]) {
    ledger.call(call, answer, buffer);
}

/// Searches in the same way with other calls or another ledger.
fn search_with(size: Size, make: Make, show: Show) -> Result<Tally, Violation> {
    let sectors = size.sectors();
    let mut drive = Drive::new();
    let answer = drive.call(&Call::Start).answer;
    assert_eq!(answer, Answer::Read(TABLE));
    let state = State {
        ledger: Ledger::new(&sectors),
        drive,
        sectors,
        pending: Some(Access::Read(TABLE)),
        left: Left {
            commands: size.commands,
            cuts: size.cuts,
        },
    };
    let mut search = Search {
        make,
        show,
        blocks: size.blocks(),
        commands: size.commands,
        seen: HashSet::new(),
        tally: Tally::default(),
        way: vec![],
    };
    search.go(&state)?;
    Ok(search.tally)
}

impl Search {
    /// Goes all ways from a state, unless it was met before.
    fn go(&mut self, state: &State) -> Result<(), Violation> {
        if !self.seen.insert(state.key()) {
            return Ok(());
        }
        self.tally.states += 1;
        let Some(access) = state.pending else {
            self.tally.idle += 1;
            return self.idle(state);
        };
        let held = state.sectors.get(access.sector());
        let phase = state.drive.record.phase;
        for choice in choices::all(phase, held.is_some(), state.left.cuts > 0) {
            self.step(state, choice.words(), |search, state| {
                search.choose(state, choice)
            })?;
        }
        Ok(())
    }

    /// Takes one way from a state, and goes on from where it leads.
    fn step(
        &mut self,
        from: &State,
        words: String,
        take: impl FnOnce(&mut Search, &mut State) -> Result<(), Violation>,
    ) -> Result<(), Violation> {
        self.tally.ways += 1;
        let mut state = from.clone();
        self.way.push(words);
        take(self, &mut state)?;
        self.go(&state)?;
        self.way.pop();
        Ok(())
    }

    /// Goes on from a drive that is idle: all blocks are looked at, and each command of
    /// the menu may come, or a cut.
    fn idle(&mut self, state: &State) -> Result<(), Violation> {
        self.look(state)?;
        if state.left.cuts > 0 {
            self.step(state, String::from("cut in idle"), |search, state| {
                search.cut(state)
            })?;
        }
        if state.left.commands == 0 {
            return Ok(());
        }
        for block in self.blocks.clone() {
            for order in MENU {
                let words = format!("{order:?} {block}");
                self.step(state, words, |search, state| {
                    search.order(state, order, block)
                })?;
            }
        }
        Ok(())
    }

    /// Makes a call, shows it to the ledger, and hears what it says.
    fn call(&mut self, state: &mut State, call: &Call) -> Result<Answer, Violation> {
        let answer = (self.make)(&mut state.drive, call);
        assert!(!matches!(answer, Answer::Refused(_)), "{call:?}");
        let before = state.ledger.good_reads();
        (self.show)(&mut state.ledger, call, answer, &state.drive.buffer);
        self.tally.good_reads += state.ledger.good_reads() - before;
        state.pending = match answer {
            Answer::Read(sector) => Some(Access::Read(sector)),
            Answer::Write(sector) => Some(Access::Write(sector)),
            Answer::Store => Some(Access::Write(TABLE)),
            _ => None,
        };
        match state.ledger.verdict() {
            Ok(()) => Ok(answer),
            Err(broken) => Err(Violation {
                broken,
                way: self.way.clone(),
            }),
        }
    }

    /// Makes the calls of a command up to the lower that acts on it.
    fn order(&mut self, state: &mut State, order: Order, block: u32) -> Result<(), Violation> {
        let [_, high, middle, low] = block.to_be_bytes();
        // Each command writes bytes of its own.
        let byte = 1 + self.commands - state.left.commands;
        state.left.commands -= 1;
        let (bytes, data) = match order {
            Order::Read(threshold) => (vec![0, high, middle, low, 0, threshold], None),
            Order::Write => (vec![1, high, middle, low], Some(byte)),
            Order::Verify => (vec![2, high, middle, low], Some(byte)),
        };
        let mut calls = vec![
            Call::Raise,
            Call::Lower(GO_ON),
            Call::Feed(bytes),
            Call::Raise,
            Call::Lower(GO_ON),
        ];
        if let Some(byte) = data {
            calls.extend([
                Call::Feed(vec![byte; SECTOR_BYTES]),
                Call::Raise,
                Call::Lower(GO_ON),
            ]);
        }
        for call in calls {
            self.call(state, &call)?;
        }
        Ok(())
    }

    /// Does to the pending access what a choice says.
    fn choose(&mut self, state: &mut State, choice: Choice) -> Result<(), Violation> {
        for _ in 0..choice.before {
            self.answer(state, choice.lead)?;
        }
        self.answer(state, choice.then)
    }

    /// Answers the pending access, or cuts it off.
    fn answer(&mut self, state: &mut State, then: Then) -> Result<(), Violation> {
        self.tally.accesses += 1;
        let access = state.pending.expect("an access is awaited");
        if let Then::Cut(fate) = then {
            let left = fate.left(access, &state.sent());
            state.sectors.leave(access, &left);
            return self.cut(state);
        }
        let outcome = then.outcome(&state.sectors, access, state.sent());
        let call = Call::Surface(outcome.answer, outcome.bytes);
        state.sectors.leave(access, &outcome.left);
        self.call(state, &call).map(|_| ())
    }

    /// Cuts the power, and starts the drive.
    fn cut(&mut self, state: &mut State) -> Result<(), Violation> {
        self.tally.cuts += 1;
        state.left.cuts -= 1;
        self.call(state, &Call::Start).map(|_| ())
    }

    /// Looks at all blocks, at once and behind a start that reads the table: each good
    /// answer that the sectors allow is heard, and stores are done.
    fn look(&mut self, state: &State) -> Result<(), Violation> {
        self.look_once(state.clone())?;
        let mut state = state.clone();
        if state.sectors.get(TABLE).is_none() {
            return Ok(());
        }
        self.way.push(String::from("start"));
        self.call(&mut state, &Call::Start)?;
        self.answer(&mut state, Then::Good)?;
        self.look_once(state)?;
        self.way.pop();
        Ok(())
    }

    /// Reads each block once, where its sector is not spoiled.
    fn look_once(&mut self, mut state: State) -> Result<(), Violation> {
        for block in self.blocks.clone() {
            let mut after = state.clone();
            after.left.commands = 1;
            self.way.push(format!("look at {block}"));
            self.order(&mut after, Order::Read(1), block)?;
            while let Some(access) = after.pending {
                let spoiled = after.sectors.get(access.sector()).is_none();
                if spoiled && matches!(access, Access::Read(_)) {
                    break;
                }
                self.answer(&mut after, Then::Good)?;
            }
            self.way.pop();
            if after.pending.is_none() {
                state = after;
            }
        }
        Ok(())
    }
}
