//! What the documents show of a plan's output is what the stored output has, and the
//! guide's table has the repository's plans.

mod common;

use std::ffi::OsStr;
use std::fs;

use common::root;

const README: &str = include_str!("../../../README.md");
const GUIDE: &str = include_str!("../../../docs/WORKBENCH.md");

/// The indented lines after these words.
fn shown<'a>(document: &'a str, before: &str) -> Vec<&'a str> {
    let (_, rest) = document.split_once(before).expect("words before lines");
    let lines = rest.trim_start_matches('\n').lines();
    let block = lines.take_while(|line| line.is_empty() || line.starts_with("    "));
    block.filter_map(|line| line.strip_prefix("    ")).collect()
}

/// The lines are lines of the output, in its order; "..." stands for others.
fn agree(shown: &[&str], output: &str) {
    let mut lines = output.lines();
    for line in shown.iter().filter(|&&line| line != "...") {
        assert!(lines.any(|next| next == *line), "{line}");
    }
}

#[test]
fn the_readme_shows_the_week_the_spares_and_power_cuts() {
    let week = shown(README, "with faults ordered up day by day:\n");
    assert_eq!(week.len(), 9);
    agree(&week, include_str!("../../../plans/week.expected"));
    let spares = shown(README, "plays it:\n");
    assert_eq!(spares.len(), 10);
    agree(&spares, include_str!("../../../plans/spares.expected"));
    let power = shown(README, "sector old, new or unreadable:\n");
    assert_eq!(power.len(), 3);
    agree(&power, include_str!("../../../plans/power.expected"));
}

#[test]
fn the_guide_shows_the_first_plan() {
    let plan = shown(GUIDE, "wears out, and the block moves.\n");
    assert_eq!(plan.len(), 6);
    agree(&plan, include_str!("../../../plans/first.plan"));
    let output = shown(GUIDE, "so a spare takes the block:\n");
    assert_eq!(output.len(), 19);
    agree(&output, include_str!("../../../plans/first.expected"));
}

#[test]
fn the_guide_shows_the_time_of_the_week() {
    let lines = shown(GUIDE, "### Time\n");
    assert_eq!(lines.len(), 6);
    agree(&lines, include_str!("../../../plans/week.expected"));
}

#[test]
fn the_guide_shows_lines_of_health() {
    let lines = shown(GUIDE, "the output of `plans/health.plan`:\n");
    assert_eq!(lines.len(), 4);
    agree(&lines, include_str!("../../../plans/health.expected"));
}

#[test]
fn the_guide_shows_power_cuts() {
    let output = include_str!("../../../plans/power.expected");
    let lines = shown(GUIDE, "in its record and in its buffer is lost.\n");
    assert_eq!(lines.len(), 4);
    agree(&lines, output);
    let table = shown(GUIDE, "from Wednesday to Saturday:\n");
    assert_eq!(table.len(), 11);
    agree(&table, output);
}

#[test]
fn the_guide_shows_a_table_of_form_b() {
    let lines = shown(GUIDE, "In the middle of `plans/form-b.plan` that is\n");
    assert_eq!(lines.len(), 5);
    let output = include_str!("../../../plans/form-b.expected");
    let (_, after) = output.split_once("\nStarted again: ").expect("a start");
    let (_, found) = lines[0].split_once(": ").expect("a name");
    let start = format!("start: 1 read, table found: {found}");
    agree(&[&[start.as_str()], &lines[1..]].concat(), after);
}

#[test]
fn the_guide_shows_the_odds_of_the_banner() {
    let lines = shown(GUIDE, "edited with verify and read\nagain, and gave:\n");
    assert_eq!(lines.len(), 35);
    agree(&lines, include_str!("../../../plans/banner.odds"));
}

#[test]
fn the_guide_lists_the_plans() {
    let (_, rest) = GUIDE
        .split_once("## The repository's plans\n")
        .expect("a heading");
    let lines = rest.lines().skip_while(|line| !line.starts_with("| `"));
    let rows = lines.map_while(|line| line.strip_prefix("| `"));
    let mut listed: Vec<String> = rows
        .filter_map(|row| row.split_once('`'))
        .map(|(name, _)| format!("{name}.plan"))
        .collect();
    listed.sort();
    let entries = fs::read_dir(root().join("plans")).expect("a folder");
    let files = entries.map(|entry| entry.expect("an entry").path());
    let mut plans: Vec<String> = files
        .filter(|file| file.extension() == Some(OsStr::new("plan")))
        .filter_map(|file| Some(String::from(file.file_name()?.to_str()?)))
        .collect();
    plans.sort();
    assert_eq!(listed, plans);
    assert_ne!(listed, [""; 0]);
}
