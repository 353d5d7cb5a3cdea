//! Lines about blocks: a command for each, and equal ones shown as one line.

use std::io::Write;

use reference::geometry::SECTOR_BYTES;
use usage::named;

use super::{Run, Stop};
use crate::data::{Blocks, Data};
use crate::host::{Host, Report, Retry, USUAL};
use crate::show::{self, ranges};
use crate::trials;

/// Lists the blocks that are not as a comparison wants them.
#[derive(Clone, Debug, Default)]
struct Unlike {
    /// Their good reads gave other bytes.
    other: Vec<u32>,
    /// Their reads failed.
    not_read: Vec<u32>,
}

impl Unlike {
    /// Notes how the read of a block went. One that the power ended is neither.
    fn note(&mut self, number: u32, report: &Report) {
        if report.other_bytes {
            self.other.push(number);
        } else if !report.good() && !report.cut() {
            self.not_read.push(number);
        }
    }

    /// Says which blocks have other bytes and which were not read; nothing if there are none.
    fn words(&self) -> Option<String> {
        let all = [
            ("other bytes in", &self.other),
            ("not read", &self.not_read),
        ];
        let some = all.into_iter().filter(|(_, blocks)| !blocks.is_empty());
        let words: Vec<String> = some
            .map(|(words, blocks)| format!("{words} {}", ranges(blocks)))
            .collect();
        (!words.is_empty()).then(|| words.join("; "))
    }
}

impl<W: Write> Run<W> {
    /// Writes blocks.
    pub fn write(&mut self, blocks: Blocks, verify: bool, data: &Data) -> Result<(), Stop> {
        let name = if verify { "write-verify" } else { "write" };
        let data = self.load(data, blocks)?;
        let mut data = data.iter();
        self.each(name, blocks, |host, number| {
            let bytes = data.next().expect("data for every block");
            host.write(number, verify, bytes)
        })
    }

    /// Reads blocks, into a file if one is named.
    pub fn read(&mut self, blocks: Blocks, retry: Retry, to: Option<&str>) -> Result<(), Stop> {
        if let Some(path) = to {
            self.output(path, blocks.count() * SECTOR_BYTES)?;
        }
        let mut bytes = vec![];
        self.each("read", blocks, |host, number| {
            let report = host.read(number, retry);
            bytes.extend_from_slice(host.board.data());
            report
        })?;
        match to {
            Some(path) if self.last_cut() => Ok(writeln!(
                self.out,
                "  not written to {}, since the power failed",
                named(path)
            )?),
            Some(path) => self.keep(blocks, path, &bytes),
            None => Ok(()),
        }
    }

    /// Writes what was read to a file, if all of it is good.
    fn keep(&mut self, blocks: Blocks, path: &str, bytes: &[u8]) -> Result<(), Stop> {
        let lost = self.not_good(blocks);
        let name = named(path);
        if lost.is_empty() {
            self.write_to(path, bytes)?;
            self.expectations += 1;
            let length = bytes.len();
            match self.writes_files() {
                true => writeln!(self.out, "  {length} bytes written to {name}")?,
                false => writeln!(
                    self.out,
                    "  {length} bytes for {name}, which this run does not write"
                )?,
            }
        } else {
            self.expectations += 1;
            self.not_met();
            let lost = ranges(&lost);
            writeln!(self.out, "  NOT written to {name}: not read were {lost}")?;
        }
        Ok(())
    }

    /// Reads blocks and compares them with data.
    pub fn compare(&mut self, blocks: Blocks, retry: Retry, data: &Data) -> Result<(), Stop> {
        let wanted = self.load(data, blocks)?;
        let mut wanted = wanted.iter();
        let mut unlike = Unlike::default();
        self.each("read", blocks, |host, number| {
            let mut report = host.read(number, retry);
            let same = wanted
                .next()
                .is_some_and(|w| host.board.data().starts_with(w));
            report.other_bytes = report.good() && !same;
            unlike.note(number, &report);
            report
        })?;
        self.compared.other += unlike.other.len() as u32;
        self.compared.failed += unlike.not_read.len() as u32;
        self.show_compared(blocks, data, &unlike)
    }

    /// Says whether blocks hold the data, of which these are not so. Blocks that the power
    /// kept from being read are neither.
    fn show_compared(&mut self, blocks: Blocks, data: &Data, unlike: &Unlike) -> Result<(), Stop> {
        let name = data.name();
        if let Some(words) = unlike.words() {
            self.expectations += 1;
            self.not_met();
            return Ok(writeln!(self.out, "  NOT {name}: {words}")?);
        }
        if self.last_cut() {
            return Ok(());
        }
        self.expectations += 1;
        let blocks = match blocks.count() {
            1 => String::from("the bytes are"),
            count => format!("all {count} blocks are"),
        };
        Ok(writeln!(self.out, "  {blocks} {name}")?)
    }

    /// Whether the power failed in the host's last line.
    fn last_cut(&self) -> bool {
        self.last.last().is_some_and(Report::cut)
    }

    /// Reads a block and shows its bytes.
    pub fn dump(&mut self, number: u32) -> Result<(), Stop> {
        let block = Blocks::one(number);
        self.each("dump", block, |host, number| host.read(number, USUAL))?;
        if self.last_cut() {
            return Ok(());
        }
        for line in dump_lines(self.host.board.data()) {
            writeln!(self.out, "  {line}")?;
        }
        Ok(())
    }

    /// Makes a command for each block and shows what they came to. A power cut ends the
    /// line.
    fn each(
        &mut self,
        name: &str,
        blocks: Blocks,
        mut command: impl FnMut(&mut Host, u32) -> Report,
    ) -> Result<(), Stop> {
        let mut reports = vec![];
        for number in blocks.numbers() {
            let report = command(&mut self.host, number);
            self.remember(&format!("{name} {number}"), &report);
            let cut = report.cut();
            reports.push(report);
            if cut {
                break;
            }
            self.progress.tick(name, reports.len(), blocks.count());
        }
        self.progress.end(blocks.count());
        self.show_groups(name, blocks.first, &reports)?;
        let done = reports.len();
        self.last = reports;
        self.show_not_reached(blocks, done)
    }

    /// Names the blocks behind so many that were done, if the power failed.
    fn show_not_reached(&mut self, blocks: Blocks, done: usize) -> Result<(), Stop> {
        let left: Vec<u32> = blocks.numbers().skip(done).collect();
        match left[..] {
            [] => Ok(()),
            [one] => Ok(writeln!(self.out, "  not reached: block {one}")?),
            _ => Ok(writeln!(
                self.out,
                "  not reached: blocks {}",
                ranges(&left)
            )?),
        }
    }

    /// A line for each group of commands that came to the same.
    fn show_groups(&mut self, name: &str, first: u32, reports: &[Report]) -> Result<(), Stop> {
        let mut first = first;
        for group in groups(reports, self.settings.trace) {
            let last = first + group.len() as u32 - 1;
            let blocks = Blocks { first, last }.name();
            let name = match group.len() {
                1 => format!("{name} {blocks}:"),
                count => format!("{name} {blocks}: {count} blocks, each"),
            };
            self.show(&name, group)?;
            first = last + 1;
        }
        Ok(())
    }

    /// Commands that came to the same and have this name: their line, a line for each
    /// trial and each change of a spare, and their accesses in a trace.
    pub fn show(&mut self, name: &str, group: &[Report]) -> Result<(), Stop> {
        let report = &group[0];
        writeln!(self.out, "{name} {}", show::command(report))?;
        let changes = show::spare_changes(&report.changes);
        for line in trials::lines(group).into_iter().chain(changes) {
            writeln!(self.out, "  {line}")?;
        }
        self.trace(report)
    }

    /// The blocks of the host's last line whose commands were not good.
    fn not_good(&self, blocks: Blocks) -> Vec<u32> {
        let reports = blocks.numbers().zip(&self.last);
        reports
            .filter(|(_, report)| !report.good())
            .map(|(number, _)| number)
            .collect()
    }
}

/// Neighbours that are shown as one line; each is shown alone in a trace.
fn groups(reports: &[Report], alone: bool) -> impl Iterator<Item = &[Report]> {
    reports.chunk_by(move |one, next| {
        let spares =
            show::spare_changes(&one.changes).len() + show::spare_changes(&next.changes).len();
        let same = || show::command(one) == show::command(next) && trials::alike(one, next);
        !alone && spares == 0 && same()
    })
}

/// The bytes of a block in lines of 16; a line like the one before it is left out,
/// and `*` stands for all that are.
fn dump_lines(bytes: &[u8]) -> Vec<String> {
    let mut lines: Vec<String> = vec![];
    let mut before: Option<&[u8]> = None;
    for (place, row) in bytes.chunks(16).enumerate() {
        if before != Some(row) {
            lines.push(dump_line(16 * place, row));
        } else if lines.last().is_some_and(|line| line != "*") {
            lines.push(String::from("*"));
        }
        before = Some(row);
    }
    lines
}

fn dump_line(place: usize, row: &[u8]) -> String {
    let hex: Vec<String> = row.iter().map(|byte| format!("{byte:02x}")).collect();
    let printable = |&byte: &u8| match byte {
        b' '..=b'~' => byte as char,
        _ => '.',
    };
    let text: String = row.iter().map(printable).collect();
    format!("{place:03x}  {:<47}  |{text}|", hex.join(" "))
}
