//! What went wrong first in a run, and what a run came to.

use std::io::Write;
use std::path::PathBuf;

use reference::geometry::Sector;

use super::{Run, Stop};
use crate::board::{Accessed, Cut, Purpose};
use crate::clock::Time;
use crate::faults::Random;
use crate::host::{End, Report, Tally};
use crate::power::Fate;
use crate::show::first_access;
use crate::{status, surface};

/// Why a run is not whole.
#[derive(Clone, Copy, Debug, PartialEq, Eq)]
pub enum Why {
    /// A block had to move, and no spare was left.
    NoSpare,
    /// The heads did not settle.
    Latch,
    /// A block could not be read.
    Unreadable,
    /// A store of the table was not done.
    NotStored,
    /// A start found no table.
    NoTable,
    /// A power cut left a block, the table or the drive as the plan does not want it.
    PowerCut,
    /// All commands were good, and not as the plan expects.
    Expectation,
    /// A command failed otherwise.
    Other,
}

impl Why {
    pub const ALL: [Why; 8] = [
        Why::Unreadable,
        Why::NoSpare,
        Why::Latch,
        Why::NotStored,
        Why::NoTable,
        Why::PowerCut,
        Why::Expectation,
        Why::Other,
    ];

    /// Returns it in words.
    pub fn words(self) -> &'static str {
        match self {
            Why::NoSpare => "no spare",
            Why::Latch => "latch",
            Why::Unreadable => "unreadable block",
            Why::NotStored => "table not stored",
            Why::NoTable => "no table found",
            Why::PowerCut => "lost at a power cut",
            Why::Expectation => "expectation not met",
            Why::Other => "failed otherwise",
        }
    }
}

/// What went wrong first, and in which line.
#[derive(Clone, Debug, PartialEq, Eq)]
pub struct Wrong {
    pub line: usize,
    pub command: String,
    pub why: Why,
}

/// What is kept of a run's commands that were not good.
#[derive(Clone, Debug, Default)]
pub(super) struct Watch {
    first: Option<Wrong>,
    /// The line of the first expectation that was not met.
    unmet_in: Option<usize>,
    /// Sectors that power cuts left unreadable.
    spoiled: Vec<Sector>,
}

/// What a run came to.
#[derive(Clone, Debug)]
pub struct Ended {
    /// Nothing, if it is whole.
    pub wrong: Option<Wrong>,
    /// What is told of a run that stopped, behind the plan's name.
    pub stopped: Option<String>,
    /// The verdict on the history, if that is broken.
    pub broken: Option<String>,
    pub tally: Tally,
    pub time: Time,
    /// Random faults that came beside those of the plan, and sectors that died of random
    /// faults.
    pub faults: u64,
    pub deaths: usize,
    pub spares: usize,
    /// The files that the plan read.
    pub inputs: Vec<PathBuf>,
}

impl<W: Write> Run<W> {
    /// Looks at a report, and keeps the first that is not as a whole run has it.
    pub(super) fn watch(&mut self, name: &str, report: &Report) {
        if let End::Cut(cut) = report.end {
            self.watch.spoiled.extend(spoiled(cut));
        }
        if self.watch.first.is_none() {
            self.watch.first = self.why(report).map(|why| Wrong {
                line: self.number,
                command: name.to_string(),
                why,
            });
        }
    }

    /// Counts an expectation that is not met.
    pub(super) fn not_met(&mut self) {
        self.unmet += 1;
        self.watch.unmet_in.get_or_insert(self.number);
    }

    /// Returns why a command failed, if it did.
    fn why(&self, report: &Report) -> Option<Why> {
        let End::Finished(bytes) = report.end else {
            return None;
        };
        if status::good(bytes) {
            return None;
        }
        let [one, two, ..] = bytes;
        let unread = unread(&report.accesses);
        Some(match unread {
            _ if two & status::NO_TABLE != 0 && self.host.tally.cuts > 0 => Why::PowerCut,
            _ if two & status::NO_TABLE != 0 => Why::NoTable,
            _ if two & status::NO_SPARE != 0 => Why::NoSpare,
            _ if one & status::LATCHED != 0 => Why::Latch,
            Some(sector) if self.watch.spoiled.contains(&sector) => Why::PowerCut,
            Some(_) => Why::Unreadable,
            None if self.host.board.has_unstored() => Why::NotStored,
            None => Why::Other,
        })
    }

    /// Returns what the run came to that ended so.
    pub fn ended(self, played: Result<(), Stop>) -> Ended {
        let stopped = played.err().map(|stop| stop.told(self.number));
        let board = &self.host.board;
        let history = board.history();
        Ended {
            wrong: self.wrong(stopped.is_some()),
            stopped,
            broken: (!history.allowed()).then(|| history.verdict()),
            tally: self.host.tally,
            time: board.clock().now(),
            faults: board.faults.beside().map_or(0, Random::faults),
            deaths: board.faults.dead().len(),
            spares: self.spares(),
            inputs: self.inputs(),
        }
    }

    /// Returns what went wrong first: a command, a line that could not be done, or an
    /// expectation.
    fn wrong(&self, stopped: bool) -> Option<Wrong> {
        let at = |line, why| Wrong {
            line,
            command: String::from("the plan"),
            why,
        };
        let power = self.host.tally.cuts > 0 || self.host.board.power.ordered() > 0;
        let other_bytes = self.compared.other > 0;
        let unmet = match power && other_bytes {
            true => Why::PowerCut,
            false => Why::Expectation,
        };
        let undone = match power {
            true => Why::PowerCut,
            false => Why::Other,
        };
        let first = self.watch.first.clone();
        first
            .or_else(|| stopped.then(|| at(self.number, undone)))
            .or_else(|| Some(at(self.watch.unmet_in?, unmet)))
    }

    /// Returns how many spares are used, by the table that the controller knows or else
    /// by the one on the platter.
    fn spares(&self) -> usize {
        let board = &self.host.board;
        let stored = || board.platter().table().map(|(_, table)| table);
        let table = board.table().or_else(stored);
        table.map_or(0, |table| table.spares().len())
    }
}

/// Returns the sector of a read command of which no read was good.
fn unread(accesses: &[Accessed]) -> Option<Sector> {
    let first = first_access(accesses).filter(|access| access.purpose == Purpose::Read)?;
    let mut reads = accesses.iter().filter(|a| a.purpose == Purpose::Read);
    reads
        .all(|access| access.answer != surface::GOOD)
        .then_some(first.sector)
}

/// Returns the sector that a power cut made unreadable.
fn spoiled(cut: Cut) -> Option<Sector> {
    let spoils = !cut.purpose.reads() && cut.fate == Fate::Unreadable;
    spoils.then_some(cut.sector)
}
