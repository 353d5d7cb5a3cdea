//! A line of random commands. The host starts a drive anew that latched, found no table
//! or lost its power.

use std::io::Write;

use super::{Run, Stop};
use crate::host::{End, Report, Tally};
use crate::plan::Traffic;
use crate::show::{count, met};
use crate::status;
use crate::traffic::Source;

impl<W: Write> Run<W> {
    /// Makes random commands and shows how many were good.
    pub fn traffic(&mut self, traffic: Traffic) -> Result<(), Stop> {
        let all = traffic.commands as usize;
        let before = self.host.tally;
        let starts = self.host.board.history().starts();
        let mut source = Source::new(traffic);
        for done in 1..=all {
            let command = source.command();
            let report = command.make(&mut self.host);
            self.passed(&command.name(), report)?;
            self.progress.tick("traffic", done, all);
        }
        self.progress.end(all);
        let starts = self.host.board.history().starts() - starts;
        self.traffic_line(traffic, before, starts.into())
    }

    /// One of the commands. They are shown in a trace only.
    fn passed(&mut self, name: &str, report: Report) -> Result<(), Stop> {
        if self.settings.trace {
            self.show(&format!("{name}:"), std::slice::from_ref(&report))?;
        }
        self.remember(name, &report);
        if stuck(&report) {
            self.start_anew();
        }
        self.last = vec![report];
        Ok(())
    }

    /// Starts the drive, and again if the power fails in the start.
    fn start_anew(&mut self) {
        loop {
            let report = self.host.start();
            self.remember("start", &report);
            if !report.cut() {
                self.failed_in = None;
                return;
            }
        }
    }

    fn traffic_line(&mut self, traffic: Traffic, before: Tally, starts: u64) -> Result<(), Stop> {
        let after = self.host.tally;
        let failed = after.failed - before.failed;
        let mut words = vec![
            count(after.accesses - before.accesses, "access", "accesses"),
            format!("{} good", after.commands - before.commands - failed),
            format!("{failed} failed"),
            count(after.moves - before.moves, "move", "moves"),
        ];
        words.extend(met([(after.cuts - before.cuts, "power cut", "power cuts")]));
        words.push(count(starts, "start", "starts"));
        let commands = traffic.commands;
        Ok(writeln!(
            self.out,
            "traffic {commands}: {}",
            words.join(", ")
        )?)
    }
}

/// Whether the host was told that the drive latched or has no table, or the power failed.
fn stuck(report: &Report) -> bool {
    let told = |[one, two, ..]: [u8; 4]| one & status::LATCHED | two & status::NO_TABLE != 0;
    match report.end {
        End::Finished(bytes) => told(bytes),
        end => matches!(end, End::Cut(_)),
    }
}
