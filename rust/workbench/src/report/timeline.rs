//! The time line: for each line of the plan its commands, with a mark for each access.
//! A command opens, and shows its accesses in a table.

use super::html::{escape, link, linked, Html};
use super::kept::{Kept, Part};
use super::log::{Card, Row};
use super::story::{chapters, Chapter};
use super::told::{Step, Told};
use crate::board::{Cut, Purpose};
use crate::clock::Time;
use crate::picture::Outcome;
use crate::show::{self, count, ranges};
use crate::{surface, trace};

/// So much of a line is shown.
const LETTERS: usize = 400;

/// So many marks of a command are shown in its line.
const MARKS: usize = 40;

/// What is said above the commands.
const HINT: &str = "A command opens, and shows its accesses one by one. Equal neighbours are \
     folded: accesses that went alike, and commands for blocks in a row. The seconds are \
     estimates for the drive of document 000: docs/WORKBENCH.md, Time.";

/// The words of a move.
const MOVED: &str = "→ moved";

/// So many sectors are named one by one.
const SECTORS: usize = 12;

/// Writes the time line.
pub fn timeline(html: &mut Html, told: &Told) {
    html.block("section", r#"id="time" aria-labelledby="h-time""#, |html| {
        html.line("h2", r#"id="h-time""#, "Time line");
        html.line("p", r#"class="hint""#, HINT);
        keys(html);
        for chapter in chapters(told) {
            write_chapter(html, &chapter);
        }
    });
}

/// Writes what the marks mean.
fn keys(html: &mut Html) {
    let keys = [
        ("r", "", "read, good"),
        ("w", "", "write, done"),
        ("u", "", "write that leaves its sector unreadable"),
        ("s", "", "store of the table"),
        ("c", "", "CRC error"),
        ("t", "", "timeout"),
        ("n", "", "no settle"),
        ("p", "31 of 100", "a trial's rereads, and how many failed"),
        ("x", "⚡", "the power fails"),
    ];
    html.block("ul", r#"class="keys""#, |html| {
        for (class, inner, words) in keys {
            let mark = format!(r#"<b class="{class}" aria-hidden="true">{inner}</b> "#);
            html.element("li", "", |html| {
                html.raw(&mark);
                html.raw(&escape(words));
            });
            html.raw("\n");
        }
    });
}

fn write_chapter(html: &mut Html, chapter: &Chapter) {
    let steps: Vec<&Step> = chapter
        .parts
        .iter()
        .filter_map(|part| match part {
            Part::Thing(step, ..) if step.cards.counted() > 0 => Some(*step),
            _ => None,
        })
        .collect();
    if steps.is_empty() {
        return;
    }
    let (title, _) = chapter.heading();
    html.line("h3", "", &format!("{title}{}", chapter.took.about()));
    for step in steps {
        write_step(html, step);
    }
}

/// Writes the commands of a line.
fn write_step(html: &mut Html, step: &Step) {
    let number = step.number;
    let attributes = format!(r#"class="row" id="time-{number}""#);
    html.block("div", &attributes, |html| {
        let attributes = format!(r##"class="no" href="#line-{number}" title="to the story""##);
        html.words("a", &attributes, &format!("line {number}"));
        html.block("div", r#"class="cards""#, |html| {
            for part in step.cards.parts() {
                match part {
                    Part::Thing(card, ..) => write_card(html, card),
                    Part::Gap(gap) => {
                        let words = count(gap, "command", "commands");
                        html.line("p", r#"class="gap""#, &format!("… {words} left out …"));
                    }
                }
            }
        });
    });
}

/// Writes a command, or those that share a card.
fn write_card(html: &mut Html, card: &Card) {
    let (class, sign) = match card.other_bytes {
        true => other_bytes(card.moved),
        false => ended(card.outcome, card.moved),
    };
    html.block("details", &format!(r#"class="card {class}""#), |html| {
        html.element("summary", "", |html| {
            html.words("span", r#"class="what""#, &card.name());
            html.element("span", r#"class="marks" aria-hidden="true""#, |html| {
                marks(html, card);
            });
            html.words("span", r#"class="end""#, &sign);
            if let Some(took) = took(card) {
                html.raw(" ");
                html.words("span", r#"class="took""#, &took);
            }
        });
        html.raw("\n");
        html.line("p", "", &words(card));
        for line in &card.lines {
            let line = linked(line, LETTERS);
            html.element("p", r#"class="sub""#, |html| html.raw(&line));
            html.raw("\n");
        }
        accesses(html, card);
        if let Some(status) = card.status {
            html.line("p", r#"class="status""#, &trace::status_line(status));
        }
    });
}

/// Says what the commands of a card came to, and what they took.
fn words(card: &Card) -> String {
    let others = if card.other_bytes {
        ", other bytes"
    } else {
        ""
    };
    let words = match card.commands {
        1 => format!("{}{others}", card.words),
        commands => format!("{commands} commands, each {}{others}", card.words),
    };
    let about = took(card).map(|took| format!(", about {took}"));
    words + &about.unwrap_or_default()
}

/// Gives the time of a card: "2.2 s", or "184 s in all" if it has several commands.
fn took(card: &Card) -> Option<String> {
    match (card.took, card.commands) {
        (Time::ZERO, _) => None,
        (took, 1) => Some(took.to_string()),
        (took, _) => Some(format!("{took} in all")),
    }
}

/// Gives the class of commands, and the words for how they ended: "→ moved, ✗ failed".
pub fn ended(outcome: Outcome, moved: bool) -> (&'static str, String) {
    let (class, words) = match outcome {
        Outcome::Good | Outcome::None if moved => return ("moved", String::from(MOVED)),
        Outcome::None => ("plain", ""),
        Outcome::Good => ("good", "✓ good"),
        Outcome::Failed => ("bad", "✗ failed"),
        Outcome::Refused => ("refused", "refused"),
        Outcome::Cut => ("cut", "⚡ power fails"),
    };
    (class, behind_move(moved, words))
}

/// Gives the same of commands that were good and brought other bytes than they should.
pub fn other_bytes(moved: bool) -> (&'static str, String) {
    ("bad", behind_move(moved, "✗ other bytes"))
}

/// Puts words behind those of a move, if there was one.
fn behind_move(moved: bool, words: &str) -> String {
    match moved {
        true => format!("{MOVED}, {words}"),
        false => words.to_string(),
    }
}

/// Writes a mark for each row, and the number of accesses that one stands for.
fn marks(html: &mut Html, card: &Card) {
    let parts = card.rows.parts();
    for part in parts.iter().take(MARKS) {
        match part {
            Part::Thing(row, _, times) => mark(html, row, *times),
            Part::Gap(_) => html.raw("…"),
        }
    }
    if parts.len() > MARKS {
        html.raw("…");
    }
    if let Some(cut) = card.cut {
        let words = escape(&trace::cut_line(cut));
        html.words("b", &format!(r#"class="x" title="{words}""#), "⚡");
    }
    if card.commands > 1 {
        let times = format!("× {}", card.commands);
        html.words("span", r#"class="times""#, &times);
    }
}

fn mark(html: &mut Html, row: &Row, times: u64) {
    let (class, inner) = match (row.answer, row.purpose) {
        (_, Purpose::Reread) if times > 1 => ("p", format!("{} of {times}", row.failed)),
        (surface::CRC, _) => ("c", String::new()),
        (surface::TIMEOUT, _) => ("t", String::new()),
        (surface::NO_SETTLE, _) => ("n", String::new()),
        (_, Purpose::Read | Purpose::Reread) => ("r", String::new()),
        (_, Purpose::Write | Purpose::TrialWrite) if row.well => ("w", String::new()),
        (_, Purpose::Write | Purpose::TrialWrite) => ("u", String::new()),
        (_, Purpose::Store) => ("s", String::new()),
    };
    let (verb, how) = (trace::verb(row.purpose), escape(&row.how));
    let name = format!("{verb} sector {}: {how}", named(&row.sectors));
    html.words("b", &format!(r#"class="{class}" title="{name}""#), &inner);
    if times > 1 && class != "p" {
        html.words("span", r#"class="times""#, &format!("× {times}"));
    }
}

/// Names sectors, the first of many.
fn named(sectors: &[u32]) -> String {
    let runs = sectors.chunk_by(|one, next| one + 1 == *next).count();
    match (sectors, runs) {
        ([first, ..], _) if sectors.iter().all(|sector| sector == first) => first.to_string(),
        (_, ..=SECTORS) => ranges(sectors),
        _ => {
            let more = sectors.len() - SECTORS;
            format!("{} and {more} more", ranges(&sectors[..SECTORS]))
        }
    }
}

/// Writes the accesses of a command in a table.
fn accesses(html: &mut Html, card: &Card) {
    if card.rows.counted() == 0 && card.cut.is_none() {
        return;
    }
    html.block("table", "", |html| {
        html.raw("<tr>");
        for head in ["access", "what", "sector", "answer"] {
            html.words("th", r#"scope="col""#, head);
        }
        html.raw("</tr>\n");
        rows(html, &card.rows);
        if let Some(cut) = card.cut {
            cut_row(html, cut);
        }
    });
}

fn rows(html: &mut Html, rows: &Kept<Row>) {
    for part in rows.parts() {
        html.element("tr", "", |html| match part {
            Part::Thing(row, from, times) => {
                let numbers: Vec<u32> = vec![from as u32 + 1, (from + times) as u32];
                let number = match times {
                    1 => numbers[0].to_string(),
                    _ => format!("{}..{}", numbers[0], numbers[1]),
                };
                let class = if row.well { "" } else { r#"class="wrong""# };
                html.words("td", "", &number);
                html.words("td", "", what(row.purpose));
                html.element("td", "", |html| sector(html, &row.sectors));
                html.words("td", class, &row.how);
            }
            Part::Gap(gap) => {
                let words = count(gap, "access", "accesses");
                let attributes = r#"colspan="4" class="gap""#;
                html.words("td", attributes, &format!("… {words} left out …"));
            }
        });
        html.raw("\n");
    }
}

/// Says what an access is for.
fn what(purpose: Purpose) -> &'static str {
    match purpose {
        Purpose::TrialWrite => "write of a trial",
        Purpose::Reread => "rereads of a trial",
        Purpose::Store => "store of the table",
        purpose => trace::verb(purpose),
    }
}

fn sector(html: &mut Html, sectors: &[u32]) {
    match sectors {
        [one] => html.raw(&link(*one)),
        more => html.raw(&named(more)),
    }
}

/// Writes the access at which the power failed.
fn cut_row(html: &mut Html, cut: Cut) {
    html.element("tr", r#"class="cut""#, |html| {
        html.words("td", "", &cut.access.to_string());
        html.words("td", "", what(cut.purpose));
        html.element("td", "", |html| html.raw(&link(cut.sector.number())));
        let left = show::left(cut).map_or(String::new(), |left| format!(", {left}"));
        let words = format!("none: the power fails{left}");
        html.words("td", r#"class="wrong""#, &words);
    });
    html.raw("\n");
}
