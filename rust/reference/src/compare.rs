//! The long comparison: random scripts run on another program and here, and the
//! two transcripts held against each other line by line.

use std::fmt;
use std::io::{self, BufRead, BufReader, Write};
use std::num::{NonZeroU64, NonZeroUsize};
use std::process::{Child, Command, Stdio};
use std::sync::mpsc::{self, Receiver};
use std::thread;

use crate::{script, scripts, text};

/// Which random scripts are run. With none there is nothing to agree on.
#[derive(Clone, Copy, Debug, PartialEq, Eq)]
pub struct Plan {
    /// So many seeds, from the first on.
    pub first: u64,
    pub seeds: NonZeroU64,
    /// About so many calls for each.
    pub calls: NonZeroUsize,
}

impl Plan {
    /// Makes the plan of these counts, unless one is 0.
    pub fn new(first: u64, seeds: u64, calls: usize) -> Option<Plan> {
        Some(Plan {
            first,
            seeds: NonZeroU64::new(seeds)?,
            calls: NonZeroUsize::new(calls)?,
        })
    }

    /// The seeds, one by one.
    pub fn each_seed(self) -> impl Iterator<Item = u64> {
        (0..self.seeds.get()).map(move |number| self.first.wrapping_add(number))
    }
}

/// What was compared without a difference.
#[derive(Clone, Copy, Debug, Default, PartialEq, Eq)]
pub struct Agreed {
    pub calls: usize,
    pub seeds: u64,
}

impl fmt::Display for Agreed {
    fn fmt(&self, f: &mut fmt::Formatter) -> fmt::Result {
        write!(f, "{} calls of {} seeds agreed", self.calls, self.seeds)
    }
}

/// The first line in which two transcripts of a script differ.
#[derive(Clone, Debug, PartialEq, Eq)]
pub struct Difference {
    /// Its number, from 1.
    pub line: usize,
    /// The call that it is for.
    pub call: String,
    pub program: String,
    pub reference: String,
}

impl fmt::Display for Difference {
    fn fmt(&self, f: &mut fmt::Formatter) -> fmt::Result {
        writeln!(f, "line {} of the transcript differs", self.line)?;
        writeln!(f, "  call:      {}", self.call)?;
        writeln!(f, "  program:   {}", self.program)?;
        write!(f, "  reference: {}", self.reference)
    }
}

/// How a comparison ended: all agreed, or a seed's transcripts differ.
#[derive(Clone, Debug, PartialEq, Eq)]
pub enum Verdict {
    Agreed(Agreed),
    Differ(u64, Difference),
}

/// Runs the scripts on a program, a command and its arguments, up to the first
/// difference. The coverage counts grow by what the transcripts meet.
pub fn compare(program: &[&str], plan: Plan) -> io::Result<Verdict> {
    let mut agreed = Agreed::default();
    for (seed, script) in scripts_of(plan) {
        let transcript = script::transcript(&script);
        if let Some(difference) = run(program, &script, &transcript)? {
            return Ok(Verdict::Differ(seed, difference));
        }
        let calls = transcript.lines().count();
        assert!(calls > 0, "the script of seed {seed} has no call");
        agreed.calls += calls;
        agreed.seeds += 1;
    }
    // They stop early if one cannot be made.
    assert_eq!(agreed.seeds, plan.seeds.get(), "not all scripts were made");
    Ok(Verdict::Agreed(agreed))
}

/// The scripts with their seeds. The next one is made while one is run, and what
/// its making meets is counted for another thread.
fn scripts_of(plan: Plan) -> Receiver<(u64, String)> {
    let (sender, scripts) = mpsc::sync_channel(1);
    thread::spawn(move || {
        for seed in plan.each_seed() {
            let script = scripts::random(seed, plan.calls.get());
            if sender.send((seed, script)).is_err() {
                // There was a difference, and nobody waits for more.
                return;
            }
        }
    });
    scripts
}

/// Runs a script on a program and compares what it writes with a transcript.
fn run(program: &[&str], script: &str, transcript: &str) -> io::Result<Option<Difference>> {
    let mut child = spawn(program)?;
    let mut input = child.stdin.take().expect("it is piped");
    let output = child.stdout.take().expect("it is piped");
    let compared = thread::scope(|scope| {
        // A program that does not read to the end shows it in its lines.
        scope.spawn(move || input.write_all(script.as_bytes()));
        let compared = first_difference(BufReader::new(output), script, transcript);
        if !matches!(compared, Ok(None)) {
            // It may wait for its reader, and the writer for it.
            child.kill()?;
        }
        compared
    });
    let status = child.wait()?;
    let found = compared?;
    if found.is_some() || status.success() {
        return Ok(found);
    }
    Ok(Some(Difference {
        line: transcript.lines().count() + 1,
        call: call_of(script, usize::MAX),
        program: format!("(ended with {status})"),
        reference: shown(b""),
    }))
}

fn spawn(program: &[&str]) -> io::Result<Child> {
    let (name, arguments) = program.split_first().ok_or(io::ErrorKind::InvalidInput)?;
    Command::new(name)
        .args(arguments)
        .stdin(Stdio::piped())
        .stdout(Stdio::piped())
        .spawn()
        .map_err(|error| io::Error::new(error.kind(), format!("{name}: {error}")))
}

/// Compares a program's output with a transcript. Each line has its newline with
/// it, so that an empty one is no line.
fn first_difference(
    mut output: impl BufRead,
    script: &str,
    transcript: &str,
) -> io::Result<Option<Difference>> {
    let mut wanted = transcript.split_inclusive('\n');
    let mut found = vec![];
    let mut line = 0;
    loop {
        line += 1;
        found.clear();
        output.read_until(b'\n', &mut found)?;
        let wanted = wanted.next().unwrap_or_default().as_bytes();
        if found != wanted {
            return Ok(Some(Difference {
                line,
                call: call_of(script, line),
                program: shown(&found),
                reference: shown(wanted),
            }));
        }
        if found.is_empty() {
            return Ok(None);
        }
    }
}

/// The call that a line of the transcript is for.
fn call_of(script: &str, line: usize) -> String {
    match text::lines(script.as_bytes()).nth(line - 1) {
        Some((number, call)) => format!("{} (line {number} of the script)", shown(call)),
        None => String::from("(there are no more)"),
    }
}

/// A line for a person, without its newline and not too long.
fn shown(line: &[u8]) -> String {
    const MOST: usize = 120;
    if line.is_empty() {
        return String::from("(no such line)");
    }
    let whole = line.strip_suffix(b"\n").unwrap_or(line);
    let after = if whole.len() > MOST { " ..." } else { "" };
    format!("{}{after}", whole[..whole.len().min(MOST)].escape_ascii())
}

#[cfg(test)]
mod tests {
    use super::*;

    /// A script that is longer than a pipe holds. `cat` gives it back, so that
    /// here it is its own transcript.
    fn long() -> String {
        "raise\n".repeat(60_000)
    }

    /// What is found of a program that a shell runs on the long script.
    fn found(command: &str) -> Option<Difference> {
        run(&["sh", "-c", command], &long(), &long()).expect("a shell runs")
    }

    fn difference(line: usize, call: &str, program: &str, reference: &str) -> Option<Difference> {
        let [call, program, reference] = [call, program, reference].map(String::from);
        Some(Difference {
            line,
            call,
            program,
            reference,
        })
    }

    const NONE: &str = "(no such line)";
    const NO_CALL: &str = "(there are no more)";

    #[test]
    fn the_same_lines_agree() {
        assert_eq!(found("cat"), None);
        assert_eq!(run(&["cat"], "", "").expect("cat runs"), None);
    }

    #[test]
    fn a_line_that_differs() {
        assert_eq!(
            found("sed 59999s/s/z/"),
            difference(59_999, "raise (line 59999 of the script)", "raize", "raise")
        );
    }

    #[test]
    fn too_few_lines_and_too_many() {
        assert_eq!(
            found("head -n 50000"),
            difference(50_001, "raise (line 50001 of the script)", NONE, "raise")
        );
        assert_eq!(
            found("cat; echo more"),
            difference(60_001, NO_CALL, "more", NONE)
        );
        // It reads nothing, and writes without an end.
        assert_eq!(
            found("yes"),
            difference(1, "raise (line 1 of the script)", "y", "raise")
        );
        assert_eq!(
            found("true"),
            difference(1, "raise (line 1 of the script)", NONE, "raise")
        );
    }

    #[test]
    fn a_missing_newline_is_a_difference() {
        let found = first_difference(&b"wait"[..], "raise\n", "wait\n").expect("memory");
        assert!(found.is_some());
    }

    #[test]
    fn a_program_that_ends_badly() {
        assert_eq!(
            found("cat; exit 3"),
            difference(60_001, NO_CALL, "(ended with exit status: 3)", NONE)
        );
    }

    #[test]
    fn no_such_program() {
        let error = run(&["./no such program"], "", "").expect_err("it is not there");
        assert!(error.to_string().starts_with("./no such program: "));
        assert!(run(&[], "", "").is_err());
    }

    #[test]
    fn skipped_lines_are_no_calls() {
        let script = "# one\n\nraise\n# two\nlower 55\n";
        assert_eq!(call_of(script, 1), "raise (line 3 of the script)");
        assert_eq!(call_of(script, 2), "lower 55 (line 5 of the script)");
        assert_eq!(call_of(script, 3), NO_CALL);
    }

    #[test]
    fn lines_are_shown_in_part() {
        assert_eq!(shown(b"wait\n"), "wait");
        assert_eq!(shown(b"\xFF\r\n"), "\\xff\\r");
        let long = shown("a".repeat(5000).as_bytes());
        assert_eq!(long, format!("{} ...", "a".repeat(120)));
    }

    #[test]
    fn seeds_from_the_first_on() {
        let plan = Plan::new(7, 3, 50).expect("something to compare");
        let made: Vec<(u64, String)> = scripts_of(plan).into_iter().collect();
        let wanted = [7, 8, 9].map(|seed| (seed, scripts::random(seed, 50)));
        assert_eq!(made, wanted);
        let last = Plan::new(u64::MAX, 2, 1).expect("something to compare");
        assert_eq!(last.each_seed().collect::<Vec<u64>>(), [u64::MAX, 0]);
    }

    #[test]
    fn nothing_to_compare_is_no_plan() {
        for (seeds, calls) in [(0, 50), (3, 0), (0, 0)] {
            assert_eq!(Plan::new(7, seeds, calls), None);
        }
    }

    #[test]
    fn a_difference_in_words() {
        let plan = Plan::new(7, 2, 50).expect("something to compare");
        // The first line of a transcript is no line of a script.
        let Verdict::Differ(7, difference) = compare(&["cat"], plan).expect("cat runs") else {
            panic!("a script is no transcript");
        };
        assert_eq!(
            difference.to_string(),
            "line 1 of the transcript differs\n\
             \x20 call:      start (line 2 of the script)\n\
             \x20 program:   # A random script, seed 7.\n\
             \x20 reference: read 4960 status 00000000 data 02140001"
        );
    }

    #[test]
    fn agreement_in_words() {
        let agreed = Agreed {
            calls: 1_200_000,
            seeds: 48,
        };
        assert_eq!(agreed.to_string(), "1200000 calls of 48 seeds agreed");
    }
}
