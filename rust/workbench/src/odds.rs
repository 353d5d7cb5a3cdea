//! The odds of a plan: it is run many times, each time with other random faults beside
//! those that it orders, and what the runs came to is counted. The runs are shared among
//! threads; the same seeds give the same odds.

mod figures;
mod json;
#[cfg(test)]
mod tests;
mod text;

use std::io;
use std::path::PathBuf;
use std::sync::atomic::{AtomicU32, Ordering};
use std::sync::mpsc;
use std::thread;

use crate::faults::{Random, Share};
use crate::progress::Progress;
use crate::run::{Ended, Run, Settings, Why};
pub use figures::{percent, Counts, Ending, Figures, Range, ENDINGS};
pub use json::json;
pub use text::text;

/// A plan that was read, and the random faults that it gets.
#[derive(Clone, Debug)]
pub struct Ask {
    /// The name that the workbench was called by.
    pub program: String,
    /// The plan's name, as it was asked for.
    pub name: String,
    /// The lines of the plan.
    pub plan: Vec<u8>,
    /// The plan's file, if it is in one.
    pub file: Option<PathBuf>,
    /// Where the files are sought that it names.
    pub folder: PathBuf,
    /// At so many accesses a fault comes.
    pub rate: Share,
    /// So many of the sectors that meet a fault die of it.
    pub dying: Share,
}

/// What one run came to.
#[derive(Clone, Copy, Debug, PartialEq, Eq)]
pub struct Outcome {
    pub seed: u32,
    pub ending: Ending,
    pub faults: u64,
    pub deaths: u64,
    pub spares: u64,
    pub time: crate::clock::Time,
}

/// What all runs came to.
#[derive(Clone, Debug)]
pub struct Odds<'a> {
    pub ask: &'a Ask,
    /// The run without random faults.
    pub without: Ended,
    /// The runs, in the order of their seeds, which are 1, 2 and so on.
    pub runs: Vec<Outcome>,
}

impl Ask {
    /// Returns the settings of the run with this seed, or of the one without random faults.
    pub fn settings(&self, seed: Option<u32>) -> Settings {
        let random = |seed: u32| Random::new(seed.into(), self.rate, self.dying);
        Settings {
            plan: self.file.clone(),
            folder: self.folder.clone(),
            beside: seed.map(random),
            one_of_many: true,
            ..Settings::default()
        }
    }

    /// Runs the plan with the seeds from 1 on, so many of them, on so many threads. A plan
    /// that is not whole without random faults is refused.
    pub fn odds(&self, seeds: u32, jobs: usize, progress: Progress) -> Result<Odds<'_>, String> {
        let without = self.without()?;
        let runs = self.all(seeds, jobs, progress)?;
        Ok(Odds {
            ask: self,
            without,
            runs,
        })
    }

    /// Runs the plan without random faults. Says what is wrong if that is not whole.
    fn without(&self) -> Result<Ended, String> {
        let without = self.run(None)?;
        let Some(wrong) = &without.wrong else {
            return Ok(without);
        };
        let (name, command) = (&self.name, &wrong.command);
        Err(match (&without.stopped, wrong.why) {
            (Some(stopped), _) => format!("{name}{stopped}"),
            (None, why) => format!(
                "{name}:{}: {command} is not good without random faults ({}), so that no \
                 run of the plan would be whole",
                wrong.line,
                why.words()
            ),
        })
    }

    /// Runs the plan with this seed.
    fn run(&self, seed: Option<u32>) -> Result<Ended, String> {
        let mut run = Run::new(self.settings(seed), io::sink())?;
        let played = run.plan(&self.plan[..]);
        Ok(run.ended(played))
    }

    fn outcome(&self, seed: u32) -> Result<Outcome, String> {
        let ended = self.run(Some(seed))?;
        Ok(Outcome {
            seed,
            ending: ending(&ended),
            faults: ended.faults,
            deaths: ended.deaths as u64,
            spares: ended.spares as u64,
            time: ended.time,
        })
    }

    /// Shares the runs among threads, and puts them in the order of their seeds.
    fn all(&self, seeds: u32, jobs: usize, progress: Progress) -> Result<Vec<Outcome>, String> {
        let next = AtomicU32::new(1);
        let (sender, receiver) = mpsc::channel();
        thread::scope(|scope| {
            for _ in 0..jobs {
                let (next, sender) = (&next, sender.clone());
                scope.spawn(move || self.work(seeds, next, &sender));
            }
            drop(sender);
            let mut runs = vec![];
            for outcome in receiver {
                runs.push(outcome);
                progress.bar("odds", runs.len(), seeds as usize);
            }
            progress.bar_end();
            let mut runs: Vec<Outcome> = runs.into_iter().collect::<Result<_, _>>()?;
            runs.sort_by_key(|outcome| outcome.seed);
            Ok(runs)
        })
    }

    /// Takes seeds and runs the plan with them, until none is left or a run cannot be done.
    fn work(&self, seeds: u32, next: &AtomicU32, to: &mpsc::Sender<Result<Outcome, String>>) {
        loop {
            let seed = next.fetch_add(1, Ordering::Relaxed);
            if seed == 0 || seed > seeds {
                return;
            }
            let outcome = self.outcome(seed);
            let failed = outcome.is_err();
            if to.send(outcome).is_err() || failed {
                return;
            }
        }
    }
}

/// Returns how a run ended.
fn ending(ended: &Ended) -> Ending {
    match (&ended.broken, &ended.wrong) {
        (Some(_), _) => Ending::Broken,
        (None, Some(wrong)) => Ending::Failed(wrong.why),
        (None, None) => Ending::Whole,
    }
}

/// Returns a name as a shell takes it for one word.
fn quoted(name: &str) -> String {
    let plain = |letter: char| letter.is_alphanumeric() || "._/-+".contains(letter);
    match name.chars().all(plain) {
        true => name.to_string(),
        false => format!("'{}'", name.replace('\'', r"'\''")),
    }
}

impl Odds<'_> {
    /// Returns the command that does one of the runs again.
    pub fn again(&self, seed: impl std::fmt::Display) -> String {
        let Ask { rate, dying, .. } = self.ask;
        let (program, name) = (quoted(&self.ask.program), quoted(&self.ask.name));
        format!(
            "{program} odds {name} --seed {seed} --rate {}/{} --dying {}/{}",
            rate.some, rate.of, dying.some, dying.of
        )
    }

    /// Says whether no history is broken.
    pub fn good(&self) -> bool {
        self.runs.iter().all(|run| run.ending != Ending::Broken)
    }
}
