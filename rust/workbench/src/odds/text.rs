//! The odds in lines.

use super::figures::{hundredths, percent, Counts, Figures, Range};
use super::{Ending, Odds};
use crate::show::count;

/// Returns the odds in lines.
pub fn text(odds: &Odds) -> String {
    let figures = Figures::of(odds);
    let parts = [
        heading(odds),
        endings(&figures),
        ranges(&figures),
        by_deaths(&figures),
        verdict(odds, &figures),
    ];
    let parts = parts.map(|lines| lines.join("\n"));
    format!("{}\n", parts.join("\n\n"))
}

fn heading(odds: &Odds) -> Vec<String> {
    let (ask, runs) = (odds.ask, odds.runs.len());
    let tally = odds.without.tally;
    let (rate, dying) = (ask.rate, ask.dying);
    vec![
        format!(
            "The odds of {}: {}, with seeds 1..{runs}",
            ask.name,
            count(runs as u64, "run", "runs")
        ),
        format!(
            "  a random fault at {} of {} accesses; of the sectors that meet one {} of {} die",
            rate.some, rate.of, dying.some, dying.of
        ),
        format!(
            "  without them: {}, {}, about {}",
            count(tally.commands, "command", "commands"),
            count(tally.accesses, "access", "accesses"),
            odds.without.time
        ),
    ]
}

/// A line for each ending that was met, with the first seed of a failure.
fn endings(figures: &Figures) -> Vec<String> {
    let line = |ending: Ending| {
        let runs = figures.count(ending);
        let share = percent(runs, figures.runs);
        let seed = match (ending, figures.first[ending.place()]) {
            (Ending::Whole, _) | (_, None) => String::new(),
            (_, Some(seed)) => format!("   first with seed {seed}"),
        };
        format!("  {:<20} {runs:>7}  {share:>7}{seed}", ending.words())
    };
    let title = format!("  {:<20} {:>7}", "a run came out", "runs");
    let lines = figures.met().into_iter().map(line);
    std::iter::once(title).chain(lines).collect()
}

fn ranges(figures: &Figures) -> Vec<String> {
    let line = |name: &str, cells: [String; 3]| {
        let [least, mean, most] = cells;
        format!("  {name:<20} {least:>7}  {mean:>7}  {most:>7}")
    };
    let counted = |range: Range<u64>| {
        let mean = hundredths(range.sum, figures.runs);
        let mean = format!("{}.{:02}", mean / 100, mean % 100);
        [range.least.to_string(), mean, range.most.to_string()]
    };
    let time = figures.time;
    let seconds = [time.least, time.sum.mean_of(figures.runs), time.most];
    vec![
        line("in a run", ["least", "mean", "most"].map(String::from)),
        line("random faults", counted(figures.faults)),
        line("sectors that died", counted(figures.deaths)),
        line("spares used", counted(figures.spares)),
        line("time on the drive", seconds.map(|time| time.to_string())),
    ]
}

/// A row for each number of sectors that died, with a column for each ending.
fn by_deaths(figures: &Figures) -> Vec<String> {
    let met = figures.met();
    let row = |first: &str, runs: String, cells: Vec<String>| {
        let widths = met.iter().map(|ending| ending.words().len().max(5));
        let cells = cells.iter().zip(widths);
        let cells: Vec<String> = cells
            .map(|(cell, width)| format!("{cell:>width$}"))
            .collect();
        format!("  {first:>12}  {runs:>6}  {}", cells.join("  "))
    };
    let figures_of = |counts: &Counts| {
        let cells = met.iter().map(|ending| counts[ending.place()].to_string());
        (counts.iter().sum::<u64>().to_string(), cells.collect())
    };
    let names = met.iter().map(|ending| ending.words().to_string());
    let title = row("sectors died", String::from("runs"), names.collect());
    let rows = figures.by_deaths.iter().map(|(deaths, counts)| {
        let (runs, cells) = figures_of(counts);
        row(&deaths.to_string(), runs, cells)
    });
    std::iter::once(title).chain(rows).collect()
}

/// Says whether a history is broken, and how a run is done again.
fn verdict(odds: &Odds, figures: &Figures) -> Vec<String> {
    let broken = figures.count(Ending::Broken);
    let first = figures.first[Ending::Broken.place()];
    match first {
        None => vec![
            String::from("no history is broken: no good read gave wrong bytes, whatever died"),
            format!("one run again: {}", odds.again("S")),
        ],
        Some(seed) => vec![
            format!("{} BROKEN", count(broken, "history is", "histories are")),
            format!("the first again: {}", odds.again(seed)),
        ],
    }
}
