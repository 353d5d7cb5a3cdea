//! What a plan expects of the host's last line.

use std::io::Write;

use super::{Run, Stop};
use crate::board::Accessed;
use crate::host::{End, Report};
use crate::plan::Expectation;
use crate::show::is_store;
use crate::{status, surface};

impl<W: Write> Run<W> {
    /// Holds the host's last line against what is expected of it.
    pub fn expect(&mut self, expectations: &[Expectation]) -> Result<(), Stop> {
        if self.last.is_empty() {
            let message = "there is no line of the host before this one";
            return Err(Stop::Line(String::from(message)));
        }
        let fails = |e: &&Expectation| !holds(**e, &self.last);
        let failing: Vec<String> = expectations.iter().filter(fails).map(named).collect();
        self.expectations += 1;
        if !failing.is_empty() {
            self.not_met();
            let wanted = failing.join(" and ");
            writeln!(self.out, "  NOT as line {} expects: {wanted}", self.number)?;
        }
        Ok(())
    }
}

/// Whether the reports of a line are as expected: each of them, but for a power cut,
/// which ends the line.
fn holds(expectation: Expectation, reports: &[Report]) -> bool {
    match expectation {
        Expectation::Cut => reports.last().is_some_and(Report::cut),
        other => reports.iter().all(|report| fits(other, report)),
    }
}

/// Whether a report is as expected.
fn fits(expectation: Expectation, report: &Report) -> bool {
    let finished = match report.end {
        End::Finished(bytes) => Some(bytes),
        _ => None,
    };
    match expectation {
        Expectation::Good => report.good(),
        Expectation::Failed => finished.is_some() && !report.good(),
        Expectation::Refused => matches!(report.end, End::Refused(_)),
        Expectation::Spared => finished.is_some_and(status::spared),
        Expectation::InPlace => finished.is_some_and(|bytes| !status::spared(bytes)),
        Expectation::Errors(errors) => finished.is_some_and(|bytes| bytes[3] == errors),
        Expectation::Accesses(count) => report.accesses.len() == count as usize,
        Expectation::Stored => report.accesses.iter().any(stored),
        Expectation::NotStored => !report.accesses.iter().any(stored),
        Expectation::Cut => report.cut(),
        Expectation::Status(wanted) => finished == Some(wanted),
    }
}

/// Whether an access is a store that was done.
fn stored(accessed: &Accessed) -> bool {
    is_store(accessed) && accessed.answer == surface::GOOD
}

/// An expectation as a plan has it.
fn named(expectation: &Expectation) -> String {
    match expectation {
        Expectation::Good => String::from("good"),
        Expectation::Failed => String::from("failed"),
        Expectation::Refused => String::from("refused"),
        Expectation::Spared => String::from("spared"),
        Expectation::InPlace => String::from("in-place"),
        Expectation::Stored => String::from("stored"),
        Expectation::NotStored => String::from("not-stored"),
        Expectation::Cut => String::from("cut"),
        Expectation::Errors(errors) => format!("errors {errors}"),
        Expectation::Accesses(count) => format!("accesses {count}"),
        Expectation::Status([one, two, three, four]) => {
            format!("status {one:02x} {two:02x} {three:02x} {four:02x}")
        }
    }
}
