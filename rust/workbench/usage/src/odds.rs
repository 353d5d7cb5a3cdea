//! The arguments of `odds`.

use std::path::{Path, PathBuf};

use crate::near::no_option;
use crate::outputs::are_one;

/// Which runs are made, under which faults, and where they are told.
#[derive(Clone, Debug, PartialEq, Eq)]
pub struct Odds {
    pub seeds: Seeds,
    /// At so many of so many accesses a fault comes.
    pub rate: (u32, u32),
    /// So many of so many sectors that meet a fault die of it.
    pub dying: (u32, u32),
}

/// Which runs are made.
#[derive(Clone, Debug, PartialEq, Eq)]
pub enum Seeds {
    /// Those with seeds from 1 to this one.
    To {
        last: u32,
        /// The number of threads, if it is said.
        jobs: Option<usize>,
        json: Option<PathBuf>,
        picture: Option<PathBuf>,
    },
    /// The one with this seed, which is shown.
    One { seed: u32, trace: bool },
}

/// Of the sectors that meet a fault so many die if nothing is said.
const DYING: (u32, u32) = (1, 2);

/// So many threads are more than any machine needs.
const MOST_JOBS: u32 = 1024;

/// The options with a value, and what that is.
const OPTIONS: [(&str, &str); 7] = [
    ("--seeds", "a number"),
    ("--seed", "a number"),
    ("--rate", "A/B, as 1/50"),
    ("--dying", "C/D, as 1/2"),
    ("--jobs", "a number"),
    ("--json", "a file"),
    ("--picture", "a file"),
];

/// The words behind `odds`: a plan, and options with their values.
#[derive(Default)]
struct Given<'a> {
    plan: Option<&'a str>,
    values: Vec<(&'a str, &'a str)>,
    trace: bool,
}

/// Reads the words behind `odds`. Returns the plan's name and what is asked of it.
pub fn parse<'a>(words: &[&'a str]) -> Result<(&'a str, Odds), String> {
    let given = given(words)?;
    let plan = given.plan.ok_or("a plan is missing; see --help")?;
    let rate = given.value("--rate").ok_or("--rate A/B is missing")?;
    let odds = Odds {
        seeds: seeds(&given)?,
        rate: share("--rate", rate)?,
        dying: given
            .value("--dying")
            .map_or(Ok(DYING), |word| share("--dying", word))?,
    };
    Ok((plan, odds))
}

fn given<'a>(words: &[&'a str]) -> Result<Given<'a>, String> {
    let mut given = Given::default();
    let mut words = words.iter();
    while let Some(&word) = words.next() {
        let option = OPTIONS.iter().find(|(name, _)| *name == word);
        match (word, option) {
            (_, Some((name, what))) => {
                let value = words.next().ok_or(format!("{name} needs {what}"))?;
                if given.value(name).is_some() {
                    return Err(format!("{name} is there twice"));
                }
                given.values.push((name, value));
            }
            ("--trace", _) => given.trace = true,
            (option, _) if option.starts_with("--") => return Err(no_such_option(option)),
            (name, _) if given.plan.is_none() => given.plan = Some(name),
            (more, _) => return Err(format!("one plan is run at a time, so not \"{more}\" too")),
        }
    }
    Ok(given)
}

/// Says that this is no option of odds.
fn no_such_option(word: &str) -> String {
    let names = OPTIONS.iter().map(|(name, _)| *name);
    let names: Vec<&str> = names.chain(["--trace"]).collect();
    no_option(word, "odds", &names)
}

impl<'a> Given<'a> {
    /// Finds the value of an option.
    fn value(&self, name: &str) -> Option<&'a str> {
        let mut values = self.values.iter();
        values
            .find(|(given, _)| *given == name)
            .map(|value| value.1)
    }

    /// Says whether both files are one.
    fn has_one_file(&self) -> bool {
        let files = self.value("--json").zip(self.value("--picture"));
        files.is_some_and(|(json, picture)| are_one(Path::new(json), Path::new(picture)))
    }
}

fn seeds(given: &Given) -> Result<Seeds, String> {
    let file = |name| given.value(name).map(PathBuf::from);
    match (given.value("--seeds"), given.value("--seed")) {
        (Some(_), Some(_)) => Err(String::from("--seeds and --seed do not go together")),
        (None, None) => Err(String::from(
            "--seeds N is missing, or --seed S for one run",
        )),
        (Some(_), None) if given.trace => Err(String::from("--trace goes with --seed S alone")),
        (Some(_), None) if given.has_one_file() => {
            Err(String::from("--json and --picture go to two files"))
        }
        (Some(last), None) => Ok(Seeds::To {
            last: number("--seeds", last, 1, u32::MAX - MOST_JOBS)?,
            jobs: given.value("--jobs").map(jobs).transpose()?,
            json: file("--json"),
            picture: file("--picture"),
        }),
        (None, Some(seed)) => match ["--jobs", "--json", "--picture"]
            .into_iter()
            .find(|name| given.value(name).is_some())
        {
            Some(name) => Err(format!("{name} goes with --seeds N alone")),
            None => Ok(Seeds::One {
                seed: number("--seed", seed, 0, u32::MAX)?,
                trace: given.trace,
            }),
        },
    }
}

fn jobs(word: &str) -> Result<usize, String> {
    number("--jobs", word, 1, MOST_JOBS).map(|jobs| jobs as usize)
}

/// Reads a share, as 1/50.
fn share(name: &str, word: &str) -> Result<(u32, u32), String> {
    let (some, of) = word
        .split_once('/')
        .ok_or(format!("{name} is A/B, as 1/50, not \"{word}\""))?;
    let of = number(&format!("the second number of {name}"), of, 1, u32::MAX)?;
    let some = number(&format!("the first number of {name}"), some, 0, of)?;
    Ok((some, of))
}

/// Reads a number between two others.
fn number(what: &str, word: &str, least: u32, most: u32) -> Result<u32, String> {
    let digits = !word.is_empty() && word.bytes().all(|byte| byte.is_ascii_digit());
    if !digits {
        return Err(format!("{what} is a number, and \"{word}\" is none"));
    }
    match word.parse() {
        Ok(number) if number < least => Err(format!("{what} is {least} at least, not {word}")),
        Ok(number) if number <= most => Ok(number),
        _ => Err(format!("{what} is {most} at most, not {word}")),
    }
}

#[cfg(test)]
mod tests {
    use super::*;

    fn asks(words: &str) -> Result<(&str, Odds), String> {
        let words: Vec<&str> = words.split(' ').collect();
        parse(&words)
    }

    #[test]
    fn many_runs() {
        let odds = Odds {
            seeds: Seeds::To {
                last: 1000,
                jobs: None,
                json: None,
                picture: None,
            },
            rate: (1, 50),
            dying: (1, 2),
        };
        assert_eq!(
            asks("banner --seeds 1000 --rate 1/50"),
            Ok(("banner", odds))
        );
        let odds = Odds {
            seeds: Seeds::To {
                last: 7,
                jobs: Some(3),
                json: Some(PathBuf::from("o.json")),
                picture: Some(PathBuf::from("o.svg")),
            },
            rate: (0, 1),
            dying: (4, 4),
        };
        let words = "--rate 0/1 --jobs 3 --dying 4/4 b --json o.json --picture o.svg --seeds 7";
        assert_eq!(asks(words), Ok(("b", odds)));
    }

    #[test]
    fn one_run() {
        for trace in [false, true] {
            let option = if trace { " --trace" } else { "" };
            let words = format!("banner --seed 0 --rate 1/50{option}");
            let words: Vec<&str> = words.split(' ').collect();
            let (_, odds) = parse(&words).expect("odds");
            assert_eq!(odds.seeds, Seeds::One { seed: 0, trace });
        }
    }

    /// Words, and what is said of them.
    const WRONG: &[(&str, &str)] = &[
        ("--seeds 9 --rate 1/50", "a plan is missing; see --help"),
        (
            "b --rate 1/50",
            "--seeds N is missing, or --seed S for one run",
        ),
        ("b --seeds 9", "--rate A/B is missing"),
        ("b --seeds", "--seeds needs a number"),
        ("b --rate", "--rate needs A/B, as 1/50"),
        ("b --seeds 0 --rate 1/50", "--seeds is 1 at least, not 0"),
        (
            "b --seeds x --rate 1/50",
            "--seeds is a number, and \"x\" is none",
        ),
        (
            "b --seeds +9 --rate 1/50",
            "--seeds is a number, and \"+9\" is none",
        ),
        (
            "b --seeds 4294967296 --rate 1/50",
            "--seeds is 4294966271 at most, not 4294967296",
        ),
        (
            "b --seeds 9 --seeds 9 --rate 1/50",
            "--seeds is there twice",
        ),
        (
            "b --seeds 9 --seed 9 --rate 1/50",
            "--seeds and --seed do not go together",
        ),
        (
            "b --seeds 9 --rate 1/50 --trace",
            "--trace goes with --seed S alone",
        ),
        (
            "b --seeds 9 --rate 1/50 --json o --picture o",
            "--json and --picture go to two files",
        ),
        (
            "b --seeds 9 --rate 1/50 --json ./o --picture src/../o",
            "--json and --picture go to two files",
        ),
        (
            "b --seed 9 --rate 1/50 --json o",
            "--json goes with --seeds N alone",
        ),
        ("b --seeds 9 --rate 5", "--rate is A/B, as 1/50, not \"5\""),
        (
            "b --seeds 9 --rate 0/0",
            "the second number of --rate is 1 at least, not 0",
        ),
        (
            "b --seeds 9 --rate 3/2",
            "the first number of --rate is 2 at most, not 3",
        ),
        (
            "b --seeds 9 --rate 1/2 --dying 1/0",
            "the second number of --dying is 1 at least, not 0",
        ),
        (
            "b --seeds 9 --rate 1/2 --jobs 0",
            "--jobs is 1 at least, not 0",
        ),
        (
            "b c --seeds 9 --rate 1/2",
            "one plan is run at a time, so not \"c\" too",
        ),
        ("b --fast", "\"--fast\" is no option of odds; see --help"),
        (
            "b --sed 9",
            "\"--sed\" is no option of odds; did you mean \"--seed\"? see --help",
        ),
        (
            "b --seed 9 --trase",
            "\"--trase\" is no option of odds; did you mean \"--trace\"? see --help",
        ),
    ];

    #[test]
    fn what_is_wrong_is_said() {
        for (words, message) in WRONG {
            assert_eq!(asks(words), Err(String::from(*message)), "{words}");
        }
    }
}
