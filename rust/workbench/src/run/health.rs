//! The line of the health block: a read of it, with its figures in words.

use std::io::Write;

use super::{Run, Stop};
use crate::health::{Health, NUMBER};
use crate::host::{Report, USUAL};
use crate::show;

impl<W: Write> Run<W> {
    /// Reads the health block and shows its figures.
    pub fn health(&mut self) -> Result<(), Stop> {
        let report = self.host.read(NUMBER, USUAL);
        let data = self.host.board.data().to_vec();
        self.figures(report, &data)
    }

    /// Shows what a read of the health block came to that brought these bytes. Good
    /// ones are held against the block's form.
    pub(super) fn figures(&mut self, report: Report, data: &[u8]) -> Result<(), Stop> {
        let read = report.good().then(|| Health::read(data));
        let words = match &read {
            Some(Ok(health)) => show::health(&report, *health),
            _ => show::command(&report),
        };
        writeln!(self.out, "health: {words}")?;
        self.record("health", report)?;
        self.expectations += u32::from(read.is_some());
        if let Some(Err(fault)) = read {
            self.not_met();
            writeln!(self.out, "  NOT a health block: {fault}")?;
        }
        Ok(())
    }
}
