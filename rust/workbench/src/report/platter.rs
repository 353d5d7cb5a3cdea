//! The platter at the end of the run: a map of all sectors, the reserved cylinder, and
//! the story of each sector of note.

mod map;
mod states;

pub use map::geometry;
pub use states::States;

use super::html::{linked, Html};
use super::kept::Part;
use super::sectors::{Event, Story};
use super::told::Told;
use crate::picture::view::{parts, Use, RESERVED_SECTORS};
use crate::show::count;
use crate::table;

/// So much of a line is shown.
const LETTERS: usize = 400;

/// So many sectors of note have their story in the page's text.
const STORIES: usize = 300;

/// How the map is used.
const HINT: &str = "Point at a sector, or click it. With the keyboard: arrow keys on the map, \
     or a number below. The links lead to sectors of note.";

/// Writes the platter.
pub fn platter(html: &mut Html, told: &Told, states: &States) {
    let attributes = r#"id="platter" aria-labelledby="h-platter""#;
    html.block("section", attributes, |html| {
        html.line("h2", r#"id="h-platter""#, "Platter");
        let words = "As it is at the end of the run, with what happened to each sector.";
        html.line("p", r#"class="hint""#, words);
        html.line("p", r#"class="hint js""#, HINT);
        map::map(html, told, states);
        map::keys(html);
        finder(html);
        let panel = r#"id="panel" aria-live="polite" class="js""#;
        html.block("div", panel, |html| {
            html.line("p", r#"class="hint""#, "No sector is chosen yet.");
        });
        spares(html, states);
        stories(html, told, states);
    });
}

/// Writes the fields in which a sector or a block is sought. They need the script.
fn finder(html: &mut Html) {
    html.block("form", r#"id="finder" class="js""#, |html| {
        for (name, most) in [("sector", 9791), ("block", 9727)] {
            html.element("label", "", |html| {
                html.raw(if name == "sector" {
                    "Sector "
                } else {
                    "Block "
                });
                let kind = r#"type="number" min="0" inputmode="numeric""#;
                html.raw(&format!(r#"<input {kind} max="{most}" id="find-{name}">"#));
            });
            html.raw("\n");
        }
        html.line("button", r#"type="submit""#, "Show");
        html.line("button", r#"type="button" id="before""#, "Of note before");
        html.line("button", r#"type="button" id="next""#, "Next of note");
    });
}

/// Writes the spares and the table, a box for each.
fn spares(html: &mut Html, states: &States) {
    html.line("h3", "", "The reserved cylinder, 77");
    html.block("ul", r#"class="spares""#, |html| {
        for sector in RESERVED_SECTORS {
            let (class, name, inner) = match states.view.use_of(sector) {
                Use::Nothing => continue,
                Use::Table => ("table", "table".to_string(), String::from("stored here")),
                Use::Spare(k, state) => {
                    let (class, inner) = states::spare(state);
                    (class, format!("spare {k}"), inner)
                }
            };
            html.element("li", "", |html| {
                let attributes = format!(r##"class="{class}" href="#sector-{sector}""##);
                html.element("a", &attributes, |html| {
                    html.words("span", "", &name);
                    html.raw(" ");
                    html.words("strong", "", &inner);
                    html.raw(" ");
                    html.words("small", "", &format!("sector {sector}"));
                });
            });
            html.raw("\n");
        }
    });
}

/// Writes the stories of the sectors of note.
fn stories(html: &mut Html, told: &Told, states: &States) {
    let noted = states.noted(told);
    html.line("h3", "", "Sectors of note");
    if noted.is_empty() {
        let words = "None: every access went well, and no block moved.";
        html.line("p", "", words);
        return;
    }
    html.block("div", r#"class="stories""#, |html| {
        for &sector in noted.iter().take(STORIES) {
            story(html, sector, told, states);
        }
    });
    if noted.len() > STORIES {
        let more = count((noted.len() - STORIES) as u64, "sector", "sectors");
        let words = format!("… {more} of note more; the map shows them …");
        html.line("p", r#"class="gap""#, &words);
    }
}

/// Writes the story of one sector.
fn story(html: &mut Html, sector: u32, told: &Told, states: &States) {
    let attributes = format!(r#"class="story" id="sector-{sector}""#);
    html.block("details", &attributes, |html| {
        html.element("summary", "", |html| {
            html.words("span", r#"class="what""#, &format!("Sector {sector}"));
            html.words("span", r#"class="end""#, &states.short(sector));
        });
        html.raw("\n");
        let (cylinder, head, place) = parts(sector);
        let words = format!("Cylinder {cylinder}, head {head}, place {place}. ");
        let sentence = linked(&states.sentence(sector), LETTERS);
        html.element("p", "", |html| {
            html.raw(&words);
            html.raw(&sentence);
        });
        html.raw("\n");
        match told.log.sectors().get(sector) {
            None => html.line("p", "", "It was not met in the run."),
            Some(story) => happened(html, told, story),
        }
    });
}

/// Writes what happened to a sector.
fn happened(html: &mut Html, told: &Told, story: &Story) {
    let counts = story.counts.words();
    if !counts.is_empty() {
        html.line("p", "", &format!("In the run: {counts}."));
    }
    html.block("ul", "", |html| {
        for part in story.events.parts() {
            match part {
                Part::Thing(event, _, times) => {
                    happening(html, event, times, told.has_line(event.line));
                }
                Part::Gap(gap) => {
                    let words = count(gap, "command", "commands");
                    html.words("li", r#"class="gap""#, &format!("… {words} left out …"));
                }
            }
            html.raw("\n");
        }
    });
}

/// Writes what a command did to a sector. Its line is a link if the story has it.
fn happening(html: &mut Html, event: &Event, times: u64, known: bool) {
    let Event { line, name, words } = event;
    html.element("li", "", |html| {
        html.raw(&match known {
            true => format!(r##"<a href="#line-{line}">line {line}</a>, "##),
            false => format!("line {line}, "),
        });
        let times = match times {
            1 => String::new(),
            times => format!(", {times} times"),
        };
        html.raw(&linked(&format!("{name}{times}: {words}"), LETTERS));
    });
}

/// Writes the table at the end in words.
pub fn table_at_end(html: &mut Html, told: &Told) {
    html.block(
        "section",
        r#"id="table" aria-labelledby="h-table""#,
        |html| {
            html.line("h2", r#"id="h-table""#, "Table at the end");
            let Some(known) = &told.table else {
                html.line("p", "", "No table is known.");
                return;
            };
            let whose = match told.on {
                true => "The table that the drive knows",
                false => "The drive is off; the table on the platter",
            };
            let counts = table::counts(known, told.stored || !told.on);
            let words = format!("{whose}: {}, {counts}.", table::run(known));
            html.line("p", "", &words);
            let lines = table::lines(known);
            if lines.is_empty() {
                html.line("p", "", "Every block lives at its home.");
                return;
            }
            html.block("ul", "", |html| {
                for line in lines {
                    let line = linked(&line, LETTERS);
                    html.element("li", "", |html| html.raw(&line));
                    html.raw("\n");
                }
            });
        },
    );
}
