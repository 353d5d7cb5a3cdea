//! Runs a plan, and keeps what it says line by line.

use std::cell::RefCell;
use std::collections::BTreeSet;
use std::io::{self, BufRead, Write};
use std::path::PathBuf;
use std::rc::Rc;

use reference::image::Table;

use super::kept::{Kept, Room};
use super::log::{Card, Log};
use crate::clock::Time;
use crate::picture::Outcome;
use crate::plan::{self, Line};
use crate::run::{Run, Settings};

/// The lines of a plan that are kept, and those of them where something happened.
const STEPS: Room = Room {
    plain: (400, 100),
    noted: (500, 100),
};

/// What one line said: while little is kept in all, and then.
const SAID: Room = Room {
    plain: (60, 20),
    noted: (20, 10),
};
const LESS_SAID: Room = Room {
    plain: (2, 1),
    noted: (1, 1),
};
const MUCH_SAID: usize = 4000;

/// The plan's own lines that are shown.
const SOURCE: Room = Room {
    plain: (2000, 200),
    noted: (1, 1),
};

/// What a line of a plan is.
#[derive(Clone, Copy, Debug, PartialEq, Eq)]
pub enum Kind {
    /// A heading.
    Say,
    /// A fault or a power cut that is ordered.
    Order,
    /// An expectation, and whether it is met.
    Expect(bool),
    /// Bytes in lines, which stand below each other.
    Dump,
    /// Lines of a plan in words, in columns.
    Help,
    /// A table of power cuts.
    Cuts,
    Other,
}

/// A line of a plan that was done.
#[derive(Clone, Debug)]
pub struct Step {
    pub number: usize,
    /// As it stands in the plan; of a heading its words.
    pub text: String,
    pub kind: Kind,
    pub said: Kept<String>,
    pub cards: Kept<Card>,
    /// The time of the run when the line was done.
    pub at: Time,
}

/// All that a page tells.
pub struct Told {
    pub name: String,
    pub steps: Kept<Step>,
    /// The plan's lines.
    pub source: Kept<String>,
    pub summary: Vec<String>,
    pub last_line: String,
    pub good: bool,
    pub allowed: bool,
    pub verdict: String,
    /// How many are met, and how many there are.
    pub expectations: (u32, u32),
    /// What the run would have taken on the drive.
    pub took: Time,
    pub on: bool,
    /// The table that the controller knows, or of a drive that is off the stored one.
    pub table: Option<Table>,
    /// The table is on the platter as it is known.
    pub stored: bool,
    pub unreadable: Vec<u32>,
    pub log: Log,
    /// The files that the plan read.
    pub inputs: Vec<PathBuf>,
    /// The numbers of the lines that the story has, and of those that the plan has here.
    lines: BTreeSet<usize>,
    sources: BTreeSet<usize>,
}

/// What a run said since it was last asked.
#[derive(Clone, Default)]
struct Said(Rc<RefCell<Vec<u8>>>);

impl Write for Said {
    fn write(&mut self, bytes: &[u8]) -> io::Result<usize> {
        self.0.borrow_mut().extend_from_slice(bytes);
        Ok(bytes.len())
    }

    fn flush(&mut self) -> io::Result<()> {
        Ok(())
    }
}

impl Said {
    /// Hands back the lines, and forgets them.
    fn take(&self) -> Vec<String> {
        let bytes = self.0.take();
        let text = String::from_utf8_lossy(&bytes);
        text.lines().map(String::from).collect()
    }
}

impl Told {
    /// Runs a plan.
    pub fn run(name: &str, settings: Settings, mut plan: impl BufRead) -> Result<Told, String> {
        let settings = Settings {
            log: true,
            ..settings
        };
        let said = Said::default();
        let run = Run::new(settings, said.clone());
        let mut run = run.map_err(|message| format!(": {message}"))?;
        let mut lines = Lines::default();
        loop {
            match run.next(&mut plan) {
                Ok(Some(text)) => lines.add(&mut run, &text, said.take()),
                Ok(None) => break,
                Err(stop) => return Err(stop.told(run.number())),
            }
        }
        Told::ended(name, run, lines, &said)
    }

    /// Tells how a run ended.
    fn ended(name: &str, mut run: Run<Said>, lines: Lines, said: &Said) -> Result<Told, String> {
        let log = std::mem::take(run.log());
        let (number, expectations) = (run.number(), run.expectations());
        let board = &run.host().board;
        let (history, platter) = (board.history(), board.platter());
        let stored = platter.table().map(|(_, table)| table);
        let sectors = platter.unreadable();
        let numbers = lines.steps.things().into_iter().map(|step| step.number);
        let mut told = Told {
            name: name.to_string(),
            lines: numbers.collect(),
            sources: lines
                .source
                .places()
                .map(|place| place as usize + 1)
                .collect(),
            steps: lines.steps,
            source: lines.source,
            summary: vec![],
            last_line: String::new(),
            good: false,
            allowed: history.allowed(),
            verdict: history.verdict(),
            expectations,
            took: board.clock().now(),
            on: board.is_on(),
            stored: !board.has_unstored(),
            table: match board.is_on() {
                true => board.table(),
                false => stored,
            },
            unreadable: sectors.iter().map(|sector| sector.number()).collect(),
            log,
            inputs: run.inputs(),
        };
        told.good = run.finish().map_err(|stop| stop.told(number))?.0;
        told.sum_up(said.take());
        Ok(told)
    }

    /// Keeps the summary of a run, whose first line is its heading.
    fn sum_up(&mut self, said: Vec<String>) {
        let mut lines = said.into_iter().filter(|line| !line.is_empty());
        self.last_line = lines.next_back().unwrap_or_default();
        let lines = lines
            .skip(1)
            .map(|line| line.strip_prefix("  ").unwrap_or(&line).to_string());
        self.summary = lines.collect();
    }

    /// Says whether the story has the line of this number.
    pub fn has_line(&self, number: usize) -> bool {
        self.lines.contains(&number)
    }

    /// Says whether the plan has the line of this number here.
    pub fn has_source(&self, number: usize) -> bool {
        self.sources.contains(&number)
    }
}

/// The lines of a plan that were done.
struct Lines {
    steps: Kept<Step>,
    source: Kept<String>,
    said: usize,
}

impl Default for Lines {
    fn default() -> Lines {
        Lines {
            steps: Kept::new(STEPS),
            source: Kept::new(SOURCE),
            said: 0,
        }
    }
}

impl Lines {
    /// Adds a line that was done, what it said, and its commands.
    fn add(&mut self, run: &mut Run<Said>, text: &str, said: Vec<String>) {
        let cards = run.log().take();
        self.source.push(text.trim_end().to_string(), 1, false);
        let Some((kind, text)) = kind(text, &said) else {
            return;
        };
        let room = match self.said < MUCH_SAID {
            true => SAID,
            false => LESS_SAID,
        };
        let mut kept = Kept::new(room);
        for line in said {
            let noted = is_unmet(&line);
            kept.push(line, 1, noted);
        }
        self.said += kept.kept();
        let step = Step {
            number: run.number(),
            text,
            kind,
            said: kept,
            cards,
            at: run.host().board.clock().now(),
        };
        let noted = step.noted();
        self.steps.push(step, 1, noted);
    }
}

impl Step {
    fn noted(&self) -> bool {
        let cards = self.cards.things();
        matches!(self.kind, Kind::Say | Kind::Cuts | Kind::Expect(false))
            || cards.iter().any(|card| card.noted())
    }

    /// Says how the line ended, which is what is most of note of its commands.
    pub fn outcome(&self) -> Outcome {
        let rank = |outcome: &Outcome| match outcome {
            Outcome::None => 0,
            Outcome::Good => 1,
            Outcome::Refused => 2,
            Outcome::Failed => 3,
            Outcome::Cut => 4,
        };
        let outcomes = self.cards.things().into_iter().map(|card| card.outcome);
        outcomes.max_by_key(rank).unwrap_or(Outcome::None)
    }

    /// Says whether a command of the line moved its block.
    pub fn moved(&self) -> bool {
        self.cards.things().into_iter().any(|card| card.moved)
    }
}

/// Says whether a line of the output tells of what is not as it should be.
pub fn is_unmet(line: &str) -> bool {
    line.starts_with("  NOT ")
}

/// Says what a line is that said this, with its text; nothing of one that does nothing.
fn kind(text: &str, said: &[String]) -> Option<(Kind, String)> {
    let kind = match plan::parse(text) {
        Ok(Line::Nothing) | Err(_) => return None,
        Ok(Line::Say(words)) if words.is_empty() => return None,
        Ok(Line::Say(words)) => return Some((Kind::Say, words)),
        Ok(Line::Fault(_) | Line::Power(_) | Line::CutsFrom) => Kind::Order,
        Ok(Line::Expect(_)) => Kind::Expect(said.is_empty()),
        Ok(Line::Dump(_)) => Kind::Dump,
        Ok(Line::Help(_)) => Kind::Help,
        Ok(Line::CutsTo) => Kind::Cuts,
        Ok(_) => Kind::Other,
    };
    Some((kind, text.trim().to_string()))
}
