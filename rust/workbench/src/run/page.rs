//! What a page asks of a run.

use std::io::Write;

use super::Run;
use crate::host::Host;
use crate::report::Log;

impl<W: Write> Run<W> {
    /// Shows the host and its board.
    pub fn host(&self) -> &Host {
        &self.host
    }

    /// Shows what is kept for a page.
    pub fn log(&mut self) -> &mut Log {
        &mut self.log
    }

    /// Says how many expectations are met, and how many there are.
    pub fn expectations(&self) -> (u32, u32) {
        (self.expectations - self.unmet, self.expectations)
    }
}
