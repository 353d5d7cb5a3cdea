//! The verdict: what the ledger says, what the plan expected, and the run in a few words.

use super::html::{linked, Html};
use super::kept::Part;
use super::told::{is_unmet, Step, Told};

/// So much of a line is shown.
const LETTERS: usize = 400;

/// So many lines that are not as they should be are named.
const NAMED: usize = 20;

/// What it means that a history is allowed.
const ALLOWED: &str = "Each good read gave the bytes of the block's latest good write, or of a \
     later one that failed or that the power cut. Each command went to its block's own sector \
     first. No two blocks had the same sector at once. No command for a block was good while no \
     table had been read since the last start.";

/// Writes the verdict.
pub fn verdict(html: &mut Html, told: &Told) {
    html.block(
        "section",
        r#"id="verdict" aria-labelledby="h-verdict""#,
        |html| {
            html.line("h2", r#"id="h-verdict""#, "Verdict");
            history(html, told);
            expectations(html, told);
            html.block("ul", r#"class="summary""#, |html| {
                let shown = |line: &&String| !line.ends_with(" expectations met");
                for line in told.summary.iter().filter(shown) {
                    let class = if line.starts_with(' ') {
                        r#"class="sub""#
                    } else {
                        ""
                    };
                    let line = linked(line.trim_start(), LETTERS);
                    html.element("li", class, |html| html.raw(&line));
                    html.raw("\n");
                }
            });
            html.line("p", r#"class="last""#, &told.last_line);
        },
    );
}

/// Writes what the ledger says.
fn history(html: &mut Html, told: &Told) {
    let (class, sign) = match told.allowed {
        true => ("banner good", "✓"),
        false => ("banner bad", "✗"),
    };
    let allowed = format!(
        r#"class="{class}" data-verdict="{}""#,
        if told.allowed { "allowed" } else { "broken" }
    );
    html.block("p", &allowed, |html| {
        html.words("span", r#"class="sign" aria-hidden="true""#, sign);
        html.words("strong", "", &format!(" History: {}", told.verdict));
    });
    let (summary, meaning) = match told.allowed {
        true => ("What allowed means", ALLOWED),
        false => ("What it would have had to keep", ALLOWED),
    };
    html.block("details", "", |html| {
        html.line("summary", "", summary);
        html.line("p", "", meaning);
    });
}

/// Writes how many expectations are met, and names the lines that are not.
fn expectations(html: &mut Html, told: &Told) {
    let (met, all) = told.expectations;
    if all == 0 {
        return;
    }
    let (class, sign) = match met == all {
        true => ("banner good", "✓"),
        false => ("banner bad", "✗"),
    };
    html.block("p", &format!(r#"class="{class}""#), |html| {
        html.words("span", r#"class="sign" aria-hidden="true""#, sign);
        html.words("strong", "", &format!(" {met} of {all} expectations met"));
    });
    let steps = told.steps.things();
    let unmet: Vec<(&Step, &String)> = steps.into_iter().flat_map(unmet).collect();
    if unmet.is_empty() {
        return;
    }
    html.block("ul", r#"class="unmet""#, |html| {
        for (step, line) in unmet.into_iter().take(NAMED) {
            html.element("li", "", |html| {
                let number = step.number;
                html.raw(&format!(
                    r##"<a href="#line-{number}">line {number}</a>: "##
                ));
                html.raw(&linked(line.trim(), LETTERS));
            });
            html.raw("\n");
        }
    });
}

/// Lists what a line said that is not as it should be.
fn unmet(step: &Step) -> Vec<(&Step, &String)> {
    let parts = step.said.parts().into_iter();
    let lines = parts.filter_map(|part| match part {
        Part::Thing(line, ..) if is_unmet(line) => Some((step, line)),
        _ => None,
    });
    lines.collect()
}
