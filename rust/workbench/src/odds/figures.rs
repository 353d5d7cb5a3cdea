//! What is counted of many runs.

use std::collections::BTreeMap;

use super::{Odds, Outcome, Why};
use crate::clock::Time;

/// How a run ended.
#[derive(Clone, Copy, Debug, PartialEq, Eq)]
pub enum Ending {
    /// Every command was good, and all was as the plan expects.
    Whole,
    /// By what went wrong first.
    Failed(Why),
    /// The ledger does not allow the run.
    Broken,
}

/// So many endings there are.
pub const ENDINGS: usize = Why::ALL.len() + 2;

impl Ending {
    /// Returns all endings: the good one, the failures, and the one that must not be.
    pub fn all() -> [Ending; ENDINGS] {
        std::array::from_fn(|at| match at {
            0 => Ending::Whole,
            _ => Why::ALL
                .get(at - 1)
                .map_or(Ending::Broken, |&why| Ending::Failed(why)),
        })
    }

    /// Returns its place among all.
    pub fn place(self) -> usize {
        let all = Ending::all();
        all.iter().position(|&ending| ending == self).unwrap_or(0)
    }

    /// Returns it in words.
    pub fn words(self) -> &'static str {
        match self {
            Ending::Whole => "whole",
            Ending::Failed(why) => why.words(),
            Ending::Broken => "history broken",
        }
    }
}

/// The least, the sum and the most of a figure of all runs.
#[derive(Clone, Copy, Debug, PartialEq, Eq)]
pub struct Range<T> {
    pub least: T,
    pub sum: T,
    pub most: T,
}

/// So many runs of each ending.
pub type Counts = [u64; ENDINGS];

/// All that is counted.
#[derive(Clone, Debug)]
pub struct Figures {
    pub runs: u64,
    pub counts: Counts,
    /// The first seed of each ending.
    pub first: [Option<u32>; ENDINGS],
    pub faults: Range<u64>,
    pub deaths: Range<u64>,
    pub spares: Range<u64>,
    pub time: Range<Time>,
    /// The endings of the runs in which so many sectors died.
    pub by_deaths: BTreeMap<u64, Counts>,
}

impl Figures {
    /// Counts the runs, one at least.
    pub fn of(odds: &Odds) -> Figures {
        let runs = &odds.runs;
        let mut figures = Figures {
            runs: runs.len() as u64,
            counts: Counts::default(),
            first: [None; ENDINGS],
            faults: range(runs, |run| run.faults),
            deaths: range(runs, |run| run.deaths),
            spares: range(runs, |run| run.spares),
            time: range(runs, |run| run.time),
            by_deaths: BTreeMap::new(),
        };
        for run in runs {
            let place = run.ending.place();
            figures.counts[place] += 1;
            figures.first[place].get_or_insert(run.seed);
            figures.by_deaths.entry(run.deaths).or_default()[place] += 1;
        }
        figures
    }

    /// Returns how many runs ended so.
    pub fn count(&self, ending: Ending) -> u64 {
        self.counts[ending.place()]
    }

    /// Returns the endings that were met, with the whole runs and the broken histories
    /// always among them.
    pub fn met(&self) -> Vec<Ending> {
        let always = [Ending::Whole, Ending::Broken];
        let all = Ending::all().into_iter();
        all.filter(|&ending| always.contains(&ending) || self.count(ending) > 0)
            .collect()
    }
}

/// Returns the least, the sum and the most of a figure of the runs, one at least.
fn range<T>(runs: &[Outcome], figure: impl Fn(&Outcome) -> T) -> Range<T>
where
    T: Copy + Default + Ord + std::iter::Sum,
{
    let figures = || runs.iter().map(&figure);
    Range {
        least: figures().min().unwrap_or_default(),
        sum: figures().sum(),
        most: figures().max().unwrap_or_default(),
    }
}

/// Returns a quotient in hundredths, rounded; 0 of nothing.
pub fn hundredths(number: u64, of: u64) -> u64 {
    (number * 100 + of / 2).checked_div(of).unwrap_or(0)
}

/// Returns a share of the runs in per cent, with one decimal: "41.2 %".
pub fn percent(number: u64, of: u64) -> String {
    let tenths = (number * 1000 + of / 2).checked_div(of).unwrap_or(0);
    format!("{}.{} %", tenths / 10, tenths % 10)
}
