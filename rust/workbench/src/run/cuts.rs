//! Lines that are done again with power cuts: once for each access at which the power can
//! fail, and for each state that its write can leave.

use std::collections::{BTreeMap, BTreeSet};
use std::io::{self, Write};

use reference::geometry::{home, spare, Block, BLOCKS};
use reference::image::{Entry, Spare, Table};
use reference::surface::Bytes;

use super::{Run, Settings, Stop};
use crate::board::Purpose;
use crate::data::Blocks;
use crate::host::{Host, Report, Tally, USUAL};
use crate::plan::Line;
use crate::power::{Fate, Order, When};
use crate::progress::Progress;
use crate::show::count;

/// What is done again, and from where.
#[derive(Clone, Debug)]
pub(super) struct Again {
    /// The number of the line `cuts from here`.
    from: usize,
    /// The host and its board as they were there.
    host: Host,
    /// The lines since then that are done again, with their numbers.
    lines: Vec<(usize, Line)>,
    /// The blocks that they name.
    blocks: BTreeSet<u32>,
    /// What their accesses were for, in their order.
    accesses: Vec<Purpose>,
}

/// What blocks held.
type Held = BTreeMap<u32, Bytes>;

/// How many blocks were not as a run's comparisons want them.
#[derive(Clone, Copy, Debug, Default)]
pub(super) struct Compared {
    /// Their reads failed.
    pub failed: u32,
    /// Their good reads gave other bytes.
    pub other: u32,
}

/// A power cut that is tried.
#[derive(Clone, Copy, Debug, PartialEq, Eq)]
struct Cut {
    purpose: Purpose,
    order: Order,
}

/// Where the start after a power cut found the blocks.
#[derive(Clone, Copy, Debug, PartialEq, Eq)]
enum Places {
    Old,
    New,
    NoTable,
}

/// What the start after a power cut found.
#[derive(Clone, Copy, Debug)]
struct Found {
    places: Places,
    /// So many blocks were read with the bytes that they held where the lines begin, so
    /// many with others, and so many could not be read.
    old: u32,
    new: u32,
    failed: u32,
    allowed: bool,
}

/// What the lines came to with a power cut.
#[derive(Clone, Copy, Debug)]
struct Outcome {
    found: Found,
    compared: Compared,
    /// The histories are, that of the reads right after the start and that of the lines.
    allowed: bool,
}

/// The rows' names, and their columns.
const ROWS: [&str; 7] = [
    "at a read",
    "at a write, old",
    "at a write, new",
    "at a write, unreadable",
    "during the store, old",
    "during the store, new",
    "during the store, unreadable",
];
const COLUMNS: [&str; 11] = [
    "times",
    "old places",
    "new places",
    "no table",
    "old bytes",
    "new bytes",
    "failed",
    "right",
    "lost",
    "mixed",
    "broken",
];

/// What is counted of power cuts of one kind, column by column.
type Row = [u32; COLUMNS.len()];

impl<W: Write> Run<W> {
    /// Keeps the lines from here on.
    pub(super) fn cuts_from(&mut self) -> Result<(), Stop> {
        if self.host.board.power.ordered() > 0 {
            let message =
                "a power cut is ordered that did not come yet; \"fault clear\" forgets it";
            return Err(Stop::Line(String::from(message)));
        }
        self.again = Some(Again {
            from: self.number,
            host: self.host.clone(),
            lines: vec![],
            blocks: BTreeSet::new(),
            accesses: vec![],
        });
        Ok(writeln!(self.out, "cuts from here")?)
    }

    /// Keeps a line that is to be done again, unless it cannot be.
    pub(super) fn keep_for_cuts(&mut self, line: &Line) -> Result<(), Stop> {
        let Some(again) = &mut self.again else {
            return Ok(());
        };
        let mut line = line.clone();
        match &mut line {
            Line::Power(_) | Line::Convert | Line::CutsFrom => {
                return Err(Stop::Line(format!(
                    "between \"cuts from here\", in line {}, and \"cuts to here\" stands no line \
                     power, convert or cuts from here",
                    again.from
                )))
            }
            Line::Nothing | Line::Say(_) | Line::Help(_) => return Ok(()),
            Line::Expect(_) | Line::Table | Line::CutsTo => return Ok(()),
            Line::Read { to, .. } => *to = None,
            _ => {}
        }
        again.blocks.extend(named(&line));
        again.lines.push((self.number, line));
        Ok(())
    }

    /// Counts the lines that are kept, and their accesses.
    pub(super) fn kept_for_cuts(&self) -> (usize, usize) {
        let again = self.again.as_ref();
        again.map_or((0, 0), |again| (again.lines.len(), again.accesses.len()))
    }

    /// Forgets a line that could not be done, before which so much was kept. If it made
    /// accesses the others cannot be done again as they were: forgets all, and says so.
    pub(super) fn forget_for_cuts(&mut self, (lines, accesses): (usize, usize)) -> bool {
        let Some(again) = &mut self.again else {
            return false;
        };
        again.lines.truncate(lines);
        again.blocks = again
            .lines
            .iter()
            .flat_map(|(_, line)| named(line))
            .collect();
        let in_part = again.accesses.len() > accesses;
        if in_part {
            self.again = None;
        }
        in_part
    }

    /// Counts the accesses of a report, if they are to be done again.
    pub(super) fn count_for_cuts(&mut self, report: &Report) {
        if let Some(again) = &mut self.again {
            let purposes = report.accesses.iter().map(|accessed| accessed.purpose);
            again.accesses.extend(purposes);
        }
    }

    /// A plan may not end between the two lines.
    pub(super) fn cuts_are_over(&self) -> Result<(), Stop> {
        match &self.again {
            None => Ok(()),
            Some(again) => Err(Stop::Line(format!(
                "\"cuts from here\", in line {}, has no line \"cuts to here\"",
                again.from
            ))),
        }
    }

    /// Does the lines again, once for each power cut, and shows what they came to.
    pub(super) fn cuts_to(&mut self) -> Result<(), Stop> {
        let Some(again) = self.again.take() else {
            let message = "there is no line \"cuts from here\" before this one";
            return Err(Stop::Line(String::from(message)));
        };
        let cuts = again.cuts();
        let before = again.before();
        let mut rows = [Row::default(); ROWS.len()];
        let mut wrong = vec![];
        for (done, cut) in cuts.iter().enumerate() {
            let outcome = self.done_again(&again, &before, *cut)?;
            let row = &mut rows[cut.row()];
            *row = sum(*row, outcome.row());
            if !outcome.as_it_should_be() {
                wrong.push(cut.order);
            }
            self.progress.tick("cuts", done, cuts.len());
        }
        self.progress.end(cuts.len());
        self.show_cuts(&again, cuts.len(), &rows)?;
        self.judge_cuts(&again, &wrong)
    }

    /// Does the lines again with one power cut. After it the host starts the drive, does
    /// the line again, and goes on.
    fn done_again(&self, again: &Again, before: &Held, cut: Cut) -> Result<Outcome, Stop> {
        let settings = Settings {
            folder: self.settings.folder.clone(),
            ..Settings::default()
        };
        let mut host = again.host.clone();
        host.tally = Tally::default();
        host.board.power.order(cut.order);
        let mut run = Run::over(host, settings, Progress::silent(), io::sink());
        run.files = self.files.clone();
        let mut found = None;
        for (number, line) in &again.lines {
            let named = |stop| in_line(*number, stop);
            run.act(line.clone(), "").map_err(named)?;
            if found.is_none() && run.host.tally.cuts > 0 {
                run.power_on_again(line)?;
                found = Some(again.found(run.host.clone(), before));
                run.repeat(line).map_err(named)?;
            }
        }
        let found: Found = found.expect("the power fails at an access that is asked for");
        Ok(Outcome {
            found,
            compared: run.compared,
            allowed: found.allowed && run.host.board.history().allowed(),
        })
    }

    /// Starts a drive that a power cut switched off.
    fn power_on_again(&mut self, line: &Line) -> Result<(), Stop> {
        match line {
            // The host of random traffic did it.
            Line::Traffic(_) => Ok(()),
            _ => self.start(),
        }
    }

    /// Does a line again in which the power failed, unless that is done.
    fn repeat(&mut self, line: &Line) -> Result<(), Stop> {
        match line {
            Line::Traffic(_) | Line::Start => Ok(()),
            line => self.act(line.clone(), ""),
        }
    }

    /// Shows a row for each kind of power cut that there was, and one for all.
    fn show_cuts(&mut self, again: &Again, cuts: usize, rows: &[Row]) -> Result<(), Stop> {
        let (from, to) = (again.from, self.number);
        let accesses = count(again.accesses.len() as u64, "access", "accesses");
        let cuts = count(cuts as u64, "power cut", "power cuts");
        writeln!(
            self.out,
            "cuts to here: {accesses} from line {from} to line {to}, {cuts}"
        )?;
        writeln!(
            self.out,
            "  {}",
            row_line("power fails", COLUMNS.map(String::from))
        )?;
        let met = ROWS.iter().zip(rows).filter(|(_, row)| row[0] > 0);
        let all = rows.iter().copied().fold(Row::default(), sum);
        for (name, row) in met.chain([(&"all", &all)]) {
            let figures = row.map(|figure| figure.to_string());
            writeln!(self.out, "  {}", row_line(name, figures))?;
        }
        Ok(())
    }

    /// Says whether all was as it should be; the power cuts with which it was not are
    /// named as a plan has them.
    fn judge_cuts(&mut self, again: &Again, wrong: &[Order]) -> Result<(), Stop> {
        self.expectations += 1;
        if wrong.is_empty() {
            let words = "none is mixed, and every history is allowed";
            return Ok(writeln!(self.out, "  {words}")?);
        }
        self.not_met();
        for order in wrong.iter().take(3) {
            let When::Access(access) = order.when else {
                continue;
            };
            let fate = order.fate.word();
            writeln!(
                self.out,
                "  NOT as it should be with \"power fails at access {access} {fate}\" in line {}",
                again.from
            )?;
        }
        Ok(())
    }
}

impl Again {
    /// The power cuts: one at a read, and three at a write.
    fn cuts(&self) -> Vec<Cut> {
        let numbered = (1..).zip(&self.accesses);
        let cuts = numbered.flat_map(|(access, &purpose)| {
            let fates = match purpose.reads() {
                true => &Fate::ALL[..1],
                false => &Fate::ALL[..],
            };
            fates.iter().map(move |&fate| {
                let when = When::Access(access);
                let order = Order { when, fate };
                Cut { purpose, order }
            })
        });
        cuts.collect()
    }

    /// What each block that the lines name held where they begin.
    fn before(&self) -> Held {
        let board = &self.host.board;
        let stored = || board.platter().table().map(|(_, table)| table);
        let Some(table) = board.table().or_else(stored) else {
            return Held::new();
        };
        let blocks = self.blocks.iter().filter_map(|&number| Block::new(number));
        let held = blocks.filter_map(|block| {
            let entry = |entry: &Entry| entry.spare == Spare::Moved(block);
            let moved = table.spares().iter().position(entry).and_then(spare);
            let held = board.platter().held(moved.unwrap_or(home(block)))?;
            Some((block.number(), held))
        });
        held.collect()
    }

    /// Reads each block that the lines name, after the start that follows a power cut.
    fn found(&self, mut host: Host, before: &Held) -> Found {
        let mut found = Found {
            places: self.places(host.board.table().as_ref()),
            old: 0,
            new: 0,
            failed: 0,
            allowed: true,
        };
        for number in &self.blocks {
            let good = host.read(*number, USUAL).good();
            let held = before.get(number).map(|held| &held[..]);
            match good {
                true if held == Some(host.board.data()) => found.old += 1,
                true => found.new += 1,
                false => found.failed += 1,
            }
        }
        found.allowed = host.board.history().allowed();
        found
    }

    /// Says whether the blocks live where they lived where the lines begin.
    fn places(&self, found: Option<&Table>) -> Places {
        let spares = |table: &Table| -> Vec<_> {
            let spare = |entry: &Entry| entry.spare;
            table.spares().iter().map(spare).collect()
        };
        let old = self.host.board.platter().table();
        match (found, old) {
            (None, _) => Places::NoTable,
            (Some(found), Some((_, old))) if spares(found) == spares(&old) => Places::Old,
            _ => Places::New,
        }
    }
}

impl Cut {
    /// Its row.
    fn row(self) -> usize {
        let fate = match self.order.fate {
            Fate::Old => 0,
            Fate::New => 1,
            Fate::Unreadable => 2,
        };
        match self.purpose {
            Purpose::Read | Purpose::Reread => 0,
            Purpose::Write | Purpose::TrialWrite => 1 + fate,
            Purpose::Store => 4 + fate,
        }
    }
}

impl Outcome {
    /// Says whether no good read gave other bytes, and the history is allowed.
    fn as_it_should_be(self) -> bool {
        self.compared.other == 0 && self.allowed
    }

    /// What it adds to its row.
    fn row(self) -> Row {
        let found = self.found;
        let places = |wanted| u32::from(found.places == wanted);
        let [right, lost, mixed] = match self.compared {
            Compared { other: 1.., .. } => [0, 0, 1],
            Compared { failed: 1.., .. } => [0, 1, 0],
            _ => [1, 0, 0],
        };
        [
            1,
            places(Places::Old),
            places(Places::New),
            places(Places::NoTable),
            found.old,
            found.new,
            found.failed,
            right,
            lost,
            mixed,
            u32::from(!self.allowed),
        ]
    }
}

/// The sum of two rows.
fn sum(one: Row, other: Row) -> Row {
    std::array::from_fn(|column| one[column] + other[column])
}

/// Names the line that cannot be done again.
fn in_line(number: usize, stop: Stop) -> Stop {
    match stop {
        Stop::Line(message) => Stop::Line(format!("line {number}, done again: {message}")),
        output => output,
    }
}

/// The blocks that a line names.
fn named(line: &Line) -> Vec<u32> {
    let blocks = match line {
        Line::Read { blocks, .. } | Line::Write { blocks, .. } | Line::Compare { blocks, .. } => {
            *blocks
        }
        Line::Dump(number) => Blocks::one(*number),
        _ => return vec![],
    };
    blocks.numbers().filter(|&number| number < BLOCKS).collect()
}

/// A line of the table.
fn row_line(name: &str, cells: [String; COLUMNS.len()]) -> String {
    let widths = COLUMNS.map(|column| column.len().max(5));
    let mut line = format!("{name:<28}");
    for (cell, width) in cells.iter().zip(widths) {
        line.push_str(&format!("  {cell:>width$}"));
    }
    line
}
