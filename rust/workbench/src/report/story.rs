//! The story: the plan's headings as chapters, and in them each line with what it said.

use super::html::{escape, linked, Html};
use super::kept::Part;
use super::timeline::{ended, other_bytes};
use super::told::{is_unmet, Kind, Step, Told};
use crate::clock::Time;
use crate::picture::Outcome;
use crate::show::{self, count, shorten};

/// So much of a line is shown.
const LETTERS: usize = 400;
const HEADING: usize = 1000;

/// A chapter: its heading, if it has one, and its lines.
pub struct Chapter<'a> {
    heading: Option<&'a Step>,
    /// What its lines would have taken on the drive.
    pub took: Time,
    /// It is the only one.
    alone: bool,
    pub parts: Vec<Part<'a, Step>>,
}

/// Sorts the lines of a run into chapters.
pub fn chapters(told: &Told) -> Vec<Chapter<'_>> {
    let mut chapters = vec![Chapter::begun(None)];
    for part in told.steps.parts() {
        match part {
            Part::Thing(step, ..) if step.kind == Kind::Say => {
                chapters.push(Chapter::begun(Some(step)))
            }
            part => chapters.last_mut().expect("the first").parts.push(part),
        }
    }
    set_times(&mut chapters, told.took);
    chapters.retain(|chapter| chapter.heading.is_some() || !chapter.parts.is_empty());
    if let [only] = &mut chapters[..] {
        only.alone = true;
    }
    chapters
}

/// Gives each chapter the time until the next one begins, or until the run ends.
fn set_times(chapters: &mut [Chapter], end: Time) {
    let mut next = end;
    for chapter in chapters.iter_mut().rev() {
        let began = chapter.heading.map_or(Time::ZERO, |step| step.at);
        chapter.took = next - began;
        next = began;
    }
}

impl Chapter<'_> {
    /// Begins a chapter.
    fn begun(heading: Option<&Step>) -> Chapter<'_> {
        Chapter {
            heading,
            took: Time::ZERO,
            alone: false,
            parts: vec![],
        }
    }

    /// Splits the heading at its colon: the title, and what follows.
    pub fn heading(&self) -> (String, String) {
        let text = match self.heading {
            Some(step) => &step.text,
            None if self.alone => "The run",
            None => "The beginning",
        };
        let (title, rest) = show::heading(text);
        (shorten(title, HEADING), shorten(rest, HEADING))
    }
}

/// Writes the story.
pub fn story(html: &mut Html, told: &Told) {
    let attributes = r#"id="story" aria-labelledby="h-story""#;
    html.block("section", attributes, |html| {
        html.line("h2", r#"id="h-story""#, "Story");
        for (place, chapter) in chapters(told).iter().enumerate() {
            write_chapter(html, told, place, chapter);
        }
    });
}

fn write_chapter(html: &mut Html, told: &Told, place: usize, chapter: &Chapter) {
    let (title, rest) = chapter.heading();
    let attributes = format!(r#"class="chapter" id="chapter-{place}""#);
    html.block("section", &attributes, |html| {
        html.line("h3", "", &title);
        if !rest.is_empty() {
            html.line("p", r#"class="lead""#, &rest);
        }
        for part in &chapter.parts {
            match part {
                Part::Thing(step, ..) => write_step(html, told, step),
                Part::Gap(gap) => {
                    let words = count(*gap, "line of the plan", "lines of the plan");
                    html.line("p", r#"class="gap""#, &format!("… {words} left out …"));
                }
            }
        }
    });
}

/// Writes a line of the plan, with what it said.
fn write_step(html: &mut Html, told: &Told, step: &Step) {
    let number = step.number;
    let (class, badge) = badge(step);
    let attributes = format!(r#"class="step {class}" id="line-{number}""#);
    html.block("div", &attributes, |html| {
        write_number(html, number, told.has_source(number));
        html.block("div", r#"class="said""#, |html| match step.kind {
            Kind::Expect(met) => expectation(html, step, met),
            Kind::Help => below_each_other(html, &step.said.parts()),
            _ => write_said(html, step),
        });
        html.block("div", r#"class="ended""#, |html| {
            if !badge.is_empty() {
                html.words("span", r#"class="badge""#, &badge);
            }
            if step.cards.counted() > 0 {
                let label = format!("accesses of line {number}");
                let attributes = format!(r##"href="#time-{number}" aria-label="{label}""##);
                html.words("a", &attributes, "accesses");
            }
        });
    });
}

/// Writes the number of a line, which leads to the plan if that has it here.
fn write_number(html: &mut Html, number: usize, known: bool) {
    let (name, title) = (number.to_string(), format!("line {number} of the plan"));
    let attributes = format!(r#"class="no" title="{title}""#);
    match known {
        true => {
            let attributes = format!(r##"{attributes} href="#plan-{number}""##);
            html.words("a", &attributes, &name);
        }
        false => html.words("span", &attributes, &name),
    }
}

/// Gives the class of a line, and the words for how it ended.
fn badge(step: &Step) -> (&'static str, String) {
    let moved = step.moved();
    match (step.kind, step.outcome()) {
        (Kind::Order, _) => ("order", String::from("ordered")),
        (Kind::Expect(true), _) => ("expect", String::new()),
        (Kind::Expect(false), _) => ("expect bad", String::from("not met")),
        (_, Outcome::Good) if has_unmet(step) => other_bytes(moved),
        (_, outcome) => ended(outcome, moved),
    }
}

/// Says whether a line said that something is not as it should be: of good commands only
/// a comparison does, of other bytes.
fn has_unmet(step: &Step) -> bool {
    step.said.things().into_iter().any(|line| is_unmet(line))
}

/// Writes an expectation, and what of it does not hold.
fn expectation(html: &mut Html, step: &Step, met: bool) {
    let words = shorten(&step.text, LETTERS);
    match met {
        true => html.line("p", "", &format!("{words}: so it is")),
        false => {
            html.line("p", "", &words);
            for line in step.said.things() {
                html.line("p", r#"class="not""#, line.trim());
            }
        }
    }
}

/// Writes what a line said: its own lines, and below each those that belong to it.
fn write_said(html: &mut Html, step: &Step) {
    let parts = step.said.parts();
    let is_main =
        |part: &Part<String>| matches!(part, Part::Thing(line, ..) if !line.starts_with("  "));
    for group in parts.chunk_by(|_, next| !is_main(next)) {
        let (main, rest) = match group {
            [first, rest @ ..] if is_main(first) => (Some(first), rest),
            rest => (None, rest),
        };
        if let Some(Part::Thing(line, ..)) = main {
            let line = linked(line, LETTERS);
            html.element("p", "", |html| html.raw(&line));
            html.raw("\n");
        }
        match step.kind {
            _ if rest.is_empty() => {}
            Kind::Dump => below_each_other(html, rest),
            Kind::Cuts => cuts(html, rest),
            _ => listed(html, rest),
        }
    }
}

/// Writes lines as a list.
fn listed(html: &mut Html, parts: &[Part<String>]) {
    html.block("ul", "", |html| {
        for part in parts {
            match part {
                Part::Thing(line, ..) => {
                    let class = if is_unmet(line) { r#"class="not""# } else { "" };
                    let line = linked(line.trim(), LETTERS);
                    html.element("li", class, |html| html.raw(&line));
                }
                Part::Gap(gap) => left_out(html, *gap),
            }
            html.raw("\n");
        }
    });
}

fn left_out(html: &mut Html, lines: u64) {
    let words = count(lines, "line", "lines");
    html.words("li", r#"class="gap""#, &format!("… {words} left out …"));
}

/// Writes lines whose letters stand below each other.
fn below_each_other(html: &mut Html, parts: &[Part<String>]) {
    let lines = parts.iter().map(|part| match part {
        Part::Thing(line, ..) => escape(line.trim()),
        Part::Gap(gap) => format!("… {gap} lines left out …"),
    });
    let lines: Vec<String> = lines.collect();
    html.element("pre", r#"tabindex="0""#, |html| html.raw(&lines.join("\n")));
    html.raw("\n");
}

/// Writes the table of power cuts, and the words below it.
fn cuts(html: &mut Html, parts: &[Part<String>]) {
    let lines = parts.iter().filter_map(|part| match part {
        Part::Thing(line, ..) => Some(*line),
        Part::Gap(_) => None,
    });
    let rows = lines.map(|line| -> Vec<&str> {
        let cells = line.split("  ").map(str::trim);
        cells.filter(|cell| !cell.is_empty()).collect()
    });
    let (rows, words): (Vec<_>, Vec<_>) = rows.partition(|row| row.len() > 2);
    let attributes = r#"class="scroll" tabindex="0" role="region" aria-label="power cuts""#;
    html.block("div", attributes, |html| {
        html.block("table", "", |html| {
            for (place, row) in rows.iter().enumerate() {
                html.element("tr", "", |html| cells(html, row, place == 0));
                html.raw("\n");
            }
        });
    });
    for line in words {
        let line = line.join(" ");
        let class = if line.starts_with("NOT ") {
            r#"class="not""#
        } else {
            ""
        };
        html.line("p", class, &line);
    }
}

/// Writes a row of a table, whose first cell is its name.
fn cells(html: &mut Html, row: &[&str], head: bool) {
    for (place, cell) in row.iter().enumerate() {
        match (head, place) {
            (true, _) => html.words("th", r#"scope="col""#, cell),
            (_, 0) => html.words("th", r#"scope="row""#, cell),
            _ => html.words("td", "", cell),
        }
    }
}
