//! A page of a plan's run: one HTML file that needs nothing else. It has the verdict, the
//! story, the time line, the platter and the table. The same plan gives the same bytes.
//!
//! `told` runs the plan and keeps what happens, in a `log` and a list of lines, all of
//! them `kept` in lists of bounded length. `page` writes the file with the parts
//! `verdict`, `story`, `timeline` and `platter`; `data` is what the page's script reads.

mod data;
mod html;
mod kept;
mod log;
mod page;
mod platter;
mod sectors;
mod story;
#[cfg(test)]
mod tests;
mod timeline;
mod told;
mod verdict;

use std::io::BufRead;
use std::path::PathBuf;

use crate::run::Settings;

pub use log::Log;
use told::Told;

/// A page.
pub struct Page {
    pub html: String,
    /// All was as it should be.
    pub good: bool,
    /// The last line of the run's output.
    pub last_line: String,
    /// How many expectations are met, and how many there are.
    pub expectations: (u32, u32),
    /// The files that the plan read.
    pub inputs: Vec<PathBuf>,
}

/// Runs a plan, and makes the page. A line that cannot be done is told with its number, as
/// it stands behind the plan's name.
pub fn page(name: &str, settings: Settings, plan: impl BufRead) -> Result<Page, String> {
    let told = Told::run(name, settings, plan)?;
    Ok(Page {
        html: page::html(&told),
        good: told.good,
        last_line: told.last_line,
        expectations: told.expectations,
        inputs: told.inputs,
    })
}
