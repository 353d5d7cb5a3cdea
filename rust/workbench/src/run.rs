//! Runs a plan, line by line.

mod blocks;
mod cuts;
mod expect;
mod files;
mod health;
mod lines;
mod page;
#[cfg(test)]
mod tests;
mod traffic;
mod unwritten;
mod wrong;

use std::io::{self, Write};
use std::path::PathBuf;

use usage::shown;

use crate::board::Board;
use crate::clock::Time;
use crate::faults::Random;
use crate::host::{End, Host, Report};
use crate::picture::{Moment, Outcome};
use crate::plan::{Line, Order};
use crate::platter::{Platter, PlatterFile};
use crate::progress::Progress;
use crate::report::Log;
use crate::times::Times;
use crate::{show, summary, table, trace};
use cuts::{Again, Compared};
use files::NamedFiles;
pub use wrong::{Ended, Why, Wrong};

/// How a plan is run.
#[derive(Clone, Debug, Default)]
pub struct Settings {
    /// The platter's file; without one it lives in memory.
    pub platter: Option<PathBuf>,
    /// The plan's file; without one it comes on standard input.
    pub plan: Option<PathBuf>,
    /// Where the files are sought that a plan names.
    pub folder: PathBuf,
    /// Accesses are shown too.
    pub trace: bool,
    /// What happens is kept, for a picture.
    pub moments: bool,
    /// Random faults that come beside those of the plan.
    pub beside: Option<Random>,
    /// It is one of many runs: it shows no progress, and writes no file.
    pub one_of_many: bool,
    /// What happens is kept, for a page.
    pub log: bool,
    /// A person types the lines: a wrong one is told, and the run goes on.
    pub typed: bool,
}

/// Why a run stops.
#[derive(Debug)]
pub enum Stop {
    /// A line cannot be done.
    Line(String),
    /// No line did anything.
    Empty,
    /// No line spoke to the drive.
    Unspoken,
    /// The output cannot be written.
    Output(io::Error),
}

impl Stop {
    /// Says why, with the number of the line, as it follows the plan's name: ":12: no
    /// UTF-8 text".
    pub fn told(&self, number: usize) -> String {
        match self {
            Stop::Line(message) => format!(":{number}: {message}"),
            Stop::Empty => String::from(": the plan is empty: no line does anything"),
            Stop::Unspoken => {
                String::from(": no line speaks to the drive: there is nothing to judge")
            }
            Stop::Output(error) => format!(":{number}: {error}"),
        }
    }
}

impl From<String> for Stop {
    fn from(message: String) -> Stop {
        Stop::Line(message)
    }
}

impl From<io::Error> for Stop {
    fn from(error: io::Error) -> Stop {
        Stop::Output(error)
    }
}

/// What the lines did so far, at most.
#[derive(Clone, Copy, Debug, Default, PartialEq, Eq, PartialOrd, Ord)]
enum Did {
    /// They were empty, comments or wrong.
    #[default]
    Nothing,
    /// They said or ordered something.
    Words,
    /// They spoke to the drive, or changed its platter.
    Drive,
}

impl Did {
    /// Says what this line does.
    fn by(line: &Line) -> Did {
        match line {
            Line::Nothing => Did::Nothing,
            Line::Start | Line::Convert => Did::Drive,
            line if needs_start(line) => Did::Drive,
            _ => Did::Words,
        }
    }
}

/// A plan that is being run.
pub struct Run<W: Write> {
    host: Host,
    /// The platter's file, which no other workbench uses.
    file: Option<PlatterFile>,
    out: W,
    settings: Settings,
    files: NamedFiles,
    progress: Progress,
    /// The number of the line.
    number: usize,
    did: Did,
    /// So many typed lines were wrong.
    wrong: u64,
    /// What the host's last line came to, command by command.
    last: Vec<Report>,
    expectations: u32,
    unmet: u32,
    moments: Vec<Moment>,
    times: Times,
    watch: wrong::Watch,
    log: Log,
    /// The line in which the power failed, if the drive was not started since.
    failed_in: Option<usize>,
    /// What is done again with power cuts.
    again: Option<Again>,
    compared: Compared,
}

impl<W: Write> Run<W> {
    /// Opens the platter.
    pub fn new(settings: Settings, out: W) -> Result<Run<W>, String> {
        let (file, platter) = match &settings.platter {
            Some(path) => {
                let (file, platter) = PlatterFile::open(path)?;
                (Some(file), platter)
            }
            None => (None, Platter::blank()),
        };
        let mut host = Host::new(Board::new(platter));
        if let Some(random) = settings.beside.clone() {
            host.board.faults.set_beside(random);
        }
        let progress = match settings.one_of_many {
            true => Progress::silent(),
            false => Progress::new(),
        };
        let run = Run::over(host, settings, progress, out);
        Ok(Run { file, ..run })
    }

    /// Runs over this host.
    fn over(host: Host, settings: Settings, progress: Progress, out: W) -> Run<W> {
        Run {
            host,
            file: None,
            out,
            settings,
            files: NamedFiles::default(),
            progress,
            number: 0,
            did: Did::default(),
            wrong: 0,
            last: vec![],
            expectations: 0,
            unmet: 0,
            moments: vec![],
            times: Times::default(),
            watch: wrong::Watch::default(),
            log: Log::default(),
            failed_in: None,
            again: None,
            compared: Compared::default(),
        }
    }

    fn save(&mut self) -> Result<(), Stop> {
        let platter = self.host.board.platter_mut();
        match &mut self.file {
            Some(file) if platter.changed() => Ok(file.save(platter)?),
            _ => Ok(()),
        }
    }

    /// The summary. Says whether all was as it should be, and hands back what
    /// happened.
    pub fn finish(mut self) -> Result<(bool, Vec<Moment>), Stop> {
        writeln!(self.out)?;
        writeln!(self.out, "Summary")?;
        let platter = self.settings.platter.as_deref();
        for line in summary::lines(&self.host, &self.times, platter) {
            writeln!(self.out, "  {line}")?;
        }
        if self.expectations > 0 {
            let met = self.expectations - self.unmet;
            let all = self.expectations;
            writeln!(self.out, "  {met} of {all} expectations met")?;
        }
        for words in show::met([(self.wrong, "line was wrong", "lines were wrong")]) {
            writeln!(self.out, "  {words}")?;
        }
        writeln!(self.out, "{}", summary::last_line(&self.host))?;
        self.out.flush()?;
        let allowed = self.host.board.history().allowed();
        Ok((allowed && self.unmet == 0, self.moments))
    }

    /// Does a line that was read from this text.
    fn line(&mut self, line: Line, text: &str) -> Result<(), Stop> {
        if needs_start(&line) && !self.host.board.is_on() {
            let why = match self.failed_in {
                Some(number) => format!("off since the power failed in line {number}"),
                None => String::from("not started yet"),
            };
            let message = format!("the drive is {why}: a line \"start\" comes first");
            return Err(Stop::Line(message));
        }
        self.keep_for_cuts(&line)?;
        if line == Line::Fault(Order::ClearAll) {
            self.host.board.power.clear();
        }
        self.act(line, text)
    }

    /// Does a line that can be done.
    fn act(&mut self, line: Line, text: &str) -> Result<(), Stop> {
        match line {
            Line::Nothing => Ok(()),
            Line::Say(text) => self.say(shown(&text)),
            Line::Help(text) => Ok(writeln!(self.out, "{text}")?),
            Line::Fault(order) => {
                order.give(&mut self.host.board.faults);
                Ok(writeln!(self.out, "{}", shown(text))?)
            }
            Line::Power(order) => {
                self.host.board.power.order(order);
                Ok(writeln!(self.out, "{}", shown(text))?)
            }
            Line::CutsFrom => self.cuts_from(),
            Line::CutsTo => self.cuts_to(),
            Line::Start => self.start(),
            Line::Reset => self.single("reset", Host::reset),
            Line::Raise => self.single("raise", Host::raise),
            Line::Lower(byte) => self.single(&format!("lower {byte:02x}"), |h| h.lower(byte)),
            Line::Table => self.table(),
            Line::Convert => self.convert(),
            Line::Dump(number) => self.dump(number),
            Line::Health => self.health(),
            Line::Read { blocks, retry, to } => self.read(blocks, retry, to.as_deref()),
            Line::Write {
                blocks,
                verify,
                data,
            } => self.write(blocks, verify, &data),
            Line::Compare {
                blocks,
                retry,
                data,
            } => self.compare(blocks, retry, &data),
            Line::Traffic(traffic) => self.traffic(traffic),
            Line::Expect(expectations) => self.expect(&expectations),
        }
    }

    fn say(&mut self, text: String) -> Result<(), Stop> {
        writeln!(self.out, "{text}")?;
        if text.is_empty() {
            return Ok(());
        }
        self.times.job(&text);
        if self.settings.moments {
            self.moments.push(Moment {
                heading: Some(text),
                command: String::new(),
                accesses: vec![],
                outcome: Outcome::None,
                moved: None,
                took: Time::ZERO,
                other_bytes: false,
            });
        }
        Ok(())
    }

    fn start(&mut self) -> Result<(), Stop> {
        let report = self.host.start();
        let mut words = show::folded(&report.accesses);
        words.push(match report.end {
            End::Cut(_) => show::ending(report.end),
            _ => self.found().unwrap_or(String::from("no table found")),
        });
        writeln!(self.out, "start: {}", words.join(", "))?;
        self.failed_in = None;
        self.record("start", report)
    }

    /// Says which table a start found, with the form that it has on the platter.
    fn found(&self) -> Option<String> {
        let table = self.host.board.table()?;
        let (form, _) = self.host.board.platter().table()?;
        let (form, counts) = (table::form(form, &table), table::counts(&table, true));
        Some(format!("table found: {form}, {counts}"))
    }

    /// A line of the host that is no command.
    fn single(&mut self, name: &str, act: impl FnOnce(&mut Host) -> Report) -> Result<(), Stop> {
        let report = act(&mut self.host);
        let mut words = show::folded(&report.accesses);
        words.push(show::ending(report.end));
        writeln!(self.out, "{name}: {}", words.join(", "))?;
        self.record(name, report)
    }

    /// Traces a report that was shown, and keeps it as the host's last line.
    fn record(&mut self, name: &str, report: Report) -> Result<(), Stop> {
        self.trace(&report)?;
        self.remember(name, &report);
        self.last = vec![report];
        Ok(())
    }

    fn trace(&mut self, report: &Report) -> Result<(), Stop> {
        if !self.settings.trace {
            return Ok(());
        }
        for line in trace::lines(&report.accesses) {
            writeln!(self.out, "    {line}")?;
        }
        match report.end {
            End::Finished(status) => writeln!(self.out, "    {}", trace::status_line(status))?,
            End::Cut(cut) => writeln!(self.out, "    {}", trace::cut_line(cut))?,
            _ => {}
        }
        if report.took > Time::ZERO {
            writeln!(self.out, "    about {}", report.took)?;
        }
        Ok(())
    }

    /// Keeps a report: that the power failed, its accesses if they are to be done again,
    /// its time, and all of it for the picture.
    fn remember(&mut self, name: &str, report: &Report) {
        if report.cut() {
            self.failed_in = Some(self.number);
        }
        self.count_for_cuts(report);
        self.times.hold(name, report.took);
        self.watch(name, report);
        if self.settings.log {
            self.log.command(self.number, name, report);
        }
        if !self.settings.moments {
            return;
        }
        self.moments.push(Moment {
            heading: None,
            command: name.to_string(),
            accesses: trace::marks(&report.accesses),
            outcome: show::outcome(report),
            moved: show::moved(report),
            took: report.took,
            other_bytes: report.other_bytes,
        });
    }

    fn table(&mut self) -> Result<(), Stop> {
        let Some(table) = self.host.board.table() else {
            writeln!(self.out, "table: no table")?;
            return Ok(());
        };
        let known = summary::known_table(&self.host, &table);
        writeln!(self.out, "table: {known}")?;
        for line in table::lines(&table) {
            writeln!(self.out, "  {line}")?;
        }
        Ok(())
    }

    /// Turns the table on the platter into its other form.
    fn convert(&mut self) -> Result<(), Stop> {
        let converted = self.host.board.convert();
        let form = converted.map_err(|fault| format!("the platter has no good table, {fault}"))?;
        let form = table::form_name(form);
        Ok(writeln!(
            self.out,
            "convert: the table on the platter is of {form} now"
        )?)
    }
}

/// Whether a line speaks to the drive.
fn needs_start(line: &Line) -> bool {
    !matches!(
        line,
        Line::Nothing
            | Line::Say(_)
            | Line::Help(_)
            | Line::Start
            | Line::Fault(_)
            | Line::Power(_)
            | Line::CutsFrom
            | Line::CutsTo
            | Line::Convert
            | Line::Expect(_)
    )
}
