//! The whole page: one file, with its style and its script in it.

use super::html::{escape, Html};
use super::kept::Part;
use super::platter::{platter, table_at_end, States};
use super::story::story;
use super::timeline::timeline;
use super::told::Told;
use super::verdict::verdict;
use super::{data, story};
use crate::show::count;
use crate::show::shorten;

const STYLE: &str = include_str!("page.css");
const SCRIPT: &str = include_str!("page.js");

/// So many chapters have a link at the top.
const CHAPTERS: usize = 60;

/// So much of a plan's line is shown.
const LETTERS: usize = 300;

/// Nothing may be loaded; the page's own style and script may be used.
const POLICY: &str = "default-src 'none'; style-src 'unsafe-inline'; script-src 'unsafe-inline'";

/// The parts of the page.
const PARTS: [(&str, &str); 6] = [
    ("verdict", "Verdict"),
    ("story", "Story"),
    ("time", "Time line"),
    ("platter", "Platter"),
    ("table", "Table"),
    ("plan", "Plan"),
];

/// Makes the page.
pub fn html(told: &Told) -> String {
    let title = escape(&format!("The run of {}", told.name));
    let states = States::new(told);
    let mut html = Html::new();
    html.raw("<!DOCTYPE html>\n");
    html.block("html", r#"lang="en""#, |html| {
        head(html, &title);
        html.block("body", "", |html| {
            header(html, &title, told);
            html.block("main", "", |html| {
                verdict(html, told);
                story(html, told);
                timeline(html, told);
                platter(html, told, &states);
                table_at_end(html, told);
                plan(html, told);
            });
            script(html, &data::json(told, &states));
        });
    });
    html.finish()
}

fn head(html: &mut Html, title: &str) {
    html.block("head", "", |html| {
        html.raw("<meta charset=\"utf-8\">\n");
        html.raw(&format!(
            "<meta http-equiv=\"Content-Security-Policy\" content=\"{POLICY}\">\n"
        ));
        let view = "width=device-width, initial-scale=1";
        html.raw(&format!("<meta name=\"viewport\" content=\"{view}\">\n"));
        html.raw("<meta name=\"color-scheme\" content=\"light dark\">\n");
        html.raw(&format!("<title>{title}</title>\n"));
        html.block("style", "", |html| html.raw(STYLE));
    });
}

/// Writes the title, and links to the parts and the chapters. Says if lines are left out.
fn header(html: &mut Html, title: &str, told: &Told) {
    html.block("header", "", |html| {
        html.raw("<a class=\"skip\" href=\"#verdict\">To the verdict</a>\n");
        html.raw(&format!("<h1>{title}</h1>\n"));
        html.block("nav", r#"aria-label="Parts of the page""#, |html| {
            for (id, name) in PARTS {
                html.line("a", &format!(r##"href="#{id}""##), name);
            }
        });
        let left_out = told.steps.left_out();
        if left_out > 0 {
            let lines = count(left_out, "line", "lines");
            let words = format!("The run is long: {lines} of the plan are left out here.");
            html.line("p", r#"class="gap""#, &words);
        }
        chapters(html, told);
    });
}

/// Writes links to the chapters, the first of many.
fn chapters(html: &mut Html, told: &Told) {
    let chapters = story::chapters(told);
    if chapters.len() < 3 {
        return;
    }
    html.block("nav", r#"class="chapters" aria-label="Chapters""#, |html| {
        for (place, chapter) in chapters.iter().take(CHAPTERS).enumerate() {
            let name = shorten(&chapter.heading().0, 40);
            html.line("a", &format!(r##"href="#chapter-{place}""##), &name);
        }
        if chapters.len() > CHAPTERS {
            let words = format!("and {} more", chapters.len() - CHAPTERS);
            html.line("span", r#"class="gap""#, &words);
        }
    });
}

/// Writes the plan as it was run.
fn plan(html: &mut Html, told: &Told) {
    html.block("section", r#"id="plan" aria-labelledby="h-plan""#, |html| {
        html.line("h2", r#"id="h-plan""#, "Plan");
        html.block("details", r#"id="source""#, |html| {
            let lines = count(told.source.counted(), "line", "lines");
            html.line("summary", "", &format!("{}, {lines}", told.name));
            html.block("ol", r#"class="source""#, |html| {
                for part in told.source.parts() {
                    match part {
                        Part::Thing(text, from, _) => {
                            let number = from + 1;
                            let attributes = format!(r#"id="plan-{number}" value="{number}""#);
                            html.line("li", &attributes, &shorten(text, LETTERS));
                        }
                        Part::Gap(gap) => {
                            let words = format!("… {} left out …", count(gap, "line", "lines"));
                            html.line("li", r#"class="gap""#, &words);
                        }
                    }
                }
            });
        });
    });
}

/// Writes the data and the script.
fn script(html: &mut Html, data: &str) {
    html.block("script", r#"type="application/json" id="data""#, |html| {
        html.raw(data);
        html.raw("\n");
    });
    html.block("script", "", |html| html.raw(SCRIPT));
}
