//! What happened to each sector in a run.

use std::collections::BTreeMap;

use reference::geometry::spare;

use super::kept::{Kept, Room};
use crate::board::{Accessed, Purpose};
use crate::host::{Change, End, Report};
use crate::show::{self, spare_name};
use crate::{surface, trace, trials};

/// The events of one sector: while few are kept in all, and then.
const EVENTS: Room = Room {
    plain: (6, 6),
    noted: (12, 8),
};
const FEWER_EVENTS: Room = Room {
    plain: (1, 1),
    noted: (1, 1),
};
const MANY_EVENTS: usize = 20_000;

/// What a command did to a sector.
#[derive(Clone, Debug, PartialEq, Eq)]
pub struct Event {
    pub line: usize,
    /// The command.
    pub name: String,
    pub words: String,
}

/// The accesses of a sector, counted.
#[derive(Clone, Copy, Debug, Default, PartialEq, Eq)]
pub struct Counts {
    pub reads: u64,
    pub rereads: u64,
    pub writes: u64,
    pub stores: u64,
    pub crc: u64,
    pub timeouts: u64,
    pub no_settles: u64,
}

/// What happened to a sector.
#[derive(Clone, Debug)]
pub struct Story {
    pub counts: Counts,
    pub events: Kept<Event>,
    /// Something happened beside accesses that went well.
    pub noted: bool,
}

/// What happened to all sectors that were met.
#[derive(Clone, Debug, Default)]
pub struct Sectors {
    stories: BTreeMap<u32, Story>,
    kept: usize,
}

impl Sectors {
    /// Keeps what a command of this line did to its sectors.
    pub fn command(&mut self, line: usize, name: &str, report: &Report) {
        for (sector, accesses) in by_sector(report) {
            let (words, noted) = told(sector, &accesses, report);
            let room = match self.kept < MANY_EVENTS {
                true => EVENTS,
                false => FEWER_EVENTS,
            };
            let story = self.stories.entry(sector).or_insert_with(|| Story {
                counts: Counts::default(),
                events: Kept::new(room),
                noted: false,
            });
            story.counts.add(&accesses);
            story.noted |= noted;
            let name = name.to_string();
            let event = Event { line, name, words };
            if story.events.last() == Some(&mut event.clone()) {
                story.events.lengthen(1);
                continue;
            }
            self.kept -= story.events.kept();
            story.events.set_room(room);
            story.events.push(event, 1, noted);
            self.kept += story.events.kept();
        }
    }

    /// Lists the sectors that were met, in their order.
    pub fn iter(&self) -> impl Iterator<Item = (u32, &Story)> {
        self.stories.iter().map(|(&sector, story)| (sector, story))
    }

    /// Finds what happened to a sector.
    pub fn get(&self, sector: u32) -> Option<&Story> {
        self.stories.get(&sector)
    }
}

impl Counts {
    fn add(&mut self, accesses: &[Accessed]) {
        for accessed in accesses {
            let place = match accessed.purpose {
                Purpose::Read => &mut self.reads,
                Purpose::Reread => &mut self.rereads,
                Purpose::Write | Purpose::TrialWrite => &mut self.writes,
                Purpose::Store => &mut self.stores,
            };
            *place += 1;
            match accessed.answer {
                surface::CRC => self.crc += 1,
                surface::TIMEOUT => self.timeouts += 1,
                surface::NO_SETTLE => self.no_settles += 1,
                _ => {}
            }
        }
    }

    /// Says the counts in words.
    pub fn words(self) -> String {
        let counts = [
            (self.reads, "read", "reads"),
            (self.rereads, "reread of a trial", "rereads of trials"),
            (self.writes, "write", "writes"),
            (self.stores, "store", "stores"),
            (self.crc, "CRC error", "CRC errors"),
            (self.timeouts, "timeout", "timeouts"),
            (self.no_settles, "no settle", "no settles"),
        ];
        show::met(counts).join(", ")
    }

    /// Says whether an access went wrong.
    pub fn failed(self) -> bool {
        self.crc + self.timeouts + self.no_settles > 0
    }
}

/// Sorts the accesses of a command by their sectors. A sector that only changed its use,
/// or where the power failed, has none.
fn by_sector(report: &Report) -> BTreeMap<u32, Vec<Accessed>> {
    let mut sectors: BTreeMap<u32, Vec<Accessed>> = BTreeMap::new();
    for accessed in &report.accesses {
        let number = accessed.sector.number();
        sectors.entry(number).or_default().push(*accessed);
    }
    if let End::Cut(cut) = report.end {
        sectors.entry(cut.sector.number()).or_default();
    }
    for change in &report.changes {
        if let Change::Moved { from, .. } = change {
            sectors.entry(from.number()).or_default();
        }
    }
    sectors
}

/// Says what a command did to a sector, and whether that is of note.
fn told(sector: u32, accesses: &[Accessed], report: &Report) -> (String, bool) {
    let in_trial = |a: &&Accessed| matches!(a.purpose, Purpose::TrialWrite | Purpose::Reread);
    let plain: Vec<Accessed> = accesses.iter().filter(|a| !in_trial(a)).copied().collect();
    let mut words = show::folded(&plain);
    let own = words.len();
    let wrong = |a: &Accessed| a.answer != surface::GOOD;
    let trials = trials::of(report).into_iter();
    let trials = trials.filter(|trial| trial.sector.number() == sector);
    words.extend(trials.map(|trial| format!("trial: {}", trial.course.words())));
    if accesses.last().is_some_and(|last| last.unreadable) {
        words.push(String::from("unreadable from here on"));
    }
    words.extend(changes(sector, report));
    words.extend(cut(sector, report));
    let noted = words.len() > own || plain.iter().any(wrong);
    (words.join("; "), noted)
}

/// Says how a command changed the use of a sector.
fn changes(sector: u32, report: &Report) -> Vec<String> {
    let at = |k: usize| spare(k).map(|sector| sector.number()) == Some(sector);
    let first = report.accesses.iter().find(|a| !show::is_store(a));
    let own = first.is_some_and(|a| a.sector.number() == sector);
    let told = |change: &Change| match change {
        Change::Moved {
            block, from, spare, ..
        } if from.number() == sector => {
            let (block, spare) = (block.number(), spare_name(*spare));
            Some(format!("block {block} moved from here to {spare}"))
        }
        Change::Moved {
            block, from, spare, ..
        } if at(*spare) => {
            let (block, from) = (block.number(), from.number());
            Some(format!("block {block} moved here from sector {from}"))
        }
        Change::Died { spare } if at(*spare) => Some(String::from("dead from here on")),
        Change::EnteredBad if own => Some(String::from("its block entered in the bad list")),
        Change::RemovedBad if own => Some(String::from("its block removed from the bad list")),
        _ => None,
    };
    report.changes.iter().filter_map(told).collect()
}

/// Says that the power failed at an access of a sector.
fn cut(sector: u32, report: &Report) -> Option<String> {
    match report.end {
        End::Cut(cut) if cut.sector.number() == sector => {
            let verb = trace::verb(cut.purpose);
            let left = show::left(cut).map_or(String::new(), |left| format!(", {left}"));
            Some(format!("the power fails at a {verb} of it{left}"))
        }
        _ => None,
    }
}
