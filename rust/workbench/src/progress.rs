//! Progress of long lines, on standard error if it is a terminal.

use std::io::{self, IsTerminal};

/// Shown after so many commands.
const STEP: usize = 256;

/// The bar has so many parts.
const BAR: usize = 40;

/// Whether and where progress is shown.
#[derive(Clone, Copy, Debug)]
pub struct Progress {
    shown: bool,
}

impl Progress {
    /// Shown if standard error is a terminal.
    pub fn new() -> Progress {
        Progress {
            shown: io::stderr().is_terminal(),
        }
    }

    /// Shown nowhere.
    pub fn silent() -> Progress {
        Progress { shown: false }
    }

    /// So many commands of a line are done.
    pub fn tick(self, what: &str, done: usize, all: usize) {
        if self.shown && all > STEP && done.is_multiple_of(STEP) {
            eprint!("\r{what}: {done} of {all}");
        }
    }

    /// So many of all are done, as a bar.
    pub fn bar(self, what: &str, done: usize, all: usize) {
        let filled = |done: usize| done * BAR / all.max(1);
        if self.shown && (done == 1 || done == all || filled(done) > filled(done - 1)) {
            let (full, empty) = ("#".repeat(filled(done)), "-".repeat(BAR - filled(done)));
            eprint!("\r{what}: [{full}{empty}] {done} of {all}");
        }
    }

    /// The bar goes away.
    pub fn bar_end(self) {
        if self.shown {
            eprint!("\r\x1b[K");
        }
    }

    /// The line is done: what was shown goes away.
    pub fn end(self, all: usize) {
        if self.shown && all > STEP {
            eprint!("\r\x1b[K");
        }
    }
}

impl Default for Progress {
    fn default() -> Progress {
        Progress::new()
    }
}
