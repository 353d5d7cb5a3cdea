//! The odds as JSON. `docs/WORKBENCH.md` describes the fields.

use super::figures::{hundredths, Counts, Figures, Range};
use super::{Ending, Odds, Outcome};
use crate::clock::Time;

/// Returns the odds as one JSON object.
pub fn json(odds: &Odds) -> String {
    let figures = Figures::of(odds);
    let ask = odds.ask;
    let by_deaths = figures.by_deaths.iter().map(row).collect();
    let each = odds.runs.iter().map(run).collect();
    let fields = [
        ("plan", quoted(&ask.name)),
        ("seeds", figures.runs.to_string()),
        (
            "rate",
            quoted(&format!("{}/{}", ask.rate.some, ask.rate.of)),
        ),
        (
            "dying",
            quoted(&format!("{}/{}", ask.dying.some, ask.dying.of)),
        ),
        ("without_faults", without(odds)),
        ("endings", object(&endings(&figures.counts))),
        ("faults", range(figures.faults, figures.runs)),
        ("deaths", range(figures.deaths, figures.runs)),
        ("spares", range(figures.spares, figures.runs)),
        ("seconds", times(figures.time, figures.runs)),
        ("by_deaths", list(by_deaths)),
        ("broken_seeds", list(broken(odds))),
        ("runs", list(each)),
    ];
    let lines: Vec<String> = fields.iter().map(field).collect();
    format!("{{\n  {}\n}}\n", lines.join(",\n  "))
}

/// Returns the name of an ending.
fn key(ending: Ending) -> String {
    ending.words().replace(' ', "_")
}

fn without(odds: &Odds) -> String {
    let tally = odds.without.tally;
    object(&[
        ("commands", tally.commands.to_string()),
        ("accesses", tally.accesses.to_string()),
        ("seconds", seconds(odds.without.time)),
    ])
}

/// Returns how many runs ended in each way.
fn endings(counts: &Counts) -> Vec<(String, String)> {
    let all = Ending::all().into_iter();
    all.map(|ending| (key(ending), counts[ending.place()].to_string()))
        .collect()
}

fn row((deaths, counts): (&u64, &Counts)) -> String {
    let named = |name: &str, number: u64| (name.to_string(), number.to_string());
    let first = vec![named("deaths", *deaths), named("runs", counts.iter().sum())];
    object(&[first, endings(counts)].concat())
}

fn run(run: &Outcome) -> String {
    object(&[
        ("seed", run.seed.to_string()),
        ("ending", quoted(&key(run.ending))),
        ("faults", run.faults.to_string()),
        ("deaths", run.deaths.to_string()),
        ("spares", run.spares.to_string()),
        ("seconds", seconds(run.time)),
    ])
}

fn broken(odds: &Odds) -> Vec<String> {
    let broken = odds.runs.iter().filter(|run| run.ending == Ending::Broken);
    broken.map(|run| run.seed.to_string()).collect()
}

fn range(range: Range<u64>, runs: u64) -> String {
    let mean = hundredths(range.sum, runs);
    object(&[
        ("least", range.least.to_string()),
        ("mean", format!("{}.{:02}", mean / 100, mean % 100)),
        ("most", range.most.to_string()),
    ])
}

fn times(range: Range<Time>, runs: u64) -> String {
    object(&[
        ("least", seconds(range.least)),
        ("mean", seconds(range.sum.mean_of(runs))),
        ("most", seconds(range.most)),
    ])
}

/// Returns seconds with three decimals.
fn seconds(time: Time) -> String {
    let thousandths = time.milliseconds();
    format!("{}.{:03}", thousandths / 1000, thousandths % 1000)
}

fn field<S: AsRef<str>>((name, value): &(S, String)) -> String {
    format!("{}: {value}", quoted(name.as_ref()))
}

/// Returns an object on one line.
fn object<S: AsRef<str>>(fields: &[(S, String)]) -> String {
    let fields: Vec<String> = fields.iter().map(field).collect();
    format!("{{{}}}", fields.join(", "))
}

/// Returns a list, with a line for each item.
fn list(items: Vec<String>) -> String {
    match items.is_empty() {
        true => String::from("[]"),
        false => format!("[\n    {}\n  ]", items.join(",\n    ")),
    }
}

/// Returns a text in quotation marks, with the characters named that JSON does not have.
fn quoted(text: &str) -> String {
    let mut quoted = String::from("\"");
    for letter in text.chars() {
        match letter {
            '"' => quoted.push_str("\\\""),
            '\\' => quoted.push_str("\\\\"),
            control if (control as u32) < 0x20 => {
                quoted.push_str(&format!("\\u{:04x}", control as u32));
            }
            other => quoted.push(other),
        }
    }
    quoted.push('"');
    quoted
}
