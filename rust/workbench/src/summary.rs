//! The summary at the end of a run.

use std::path::Path;

use reference::geometry::BLOCKS;
use reference::image::{Spare, Table};

use crate::host::Host;
use crate::show::{count, met, ranges, spare_name};
use crate::table;
use crate::times::Times;

/// Whether all changes of the table are on the platter.
fn stored(host: &Host) -> bool {
    !host.board.has_unstored()
}

/// Says the run number and the counts of the table that the controller knows.
pub fn known_table(host: &Host, table: &Table) -> String {
    let counts = table::counts(table, stored(host));
    format!("{}, {counts}", table::run(table))
}

/// All lines of a summary but the last. The platter may have a file.
pub fn lines(host: &Host, times: &Times, platter: Option<&Path>) -> Vec<String> {
    let tally = host.tally;
    let good = tally.commands - tally.failed;
    let mut counts = vec![count(
        host.board.history().starts().into(),
        "start",
        "starts",
    )];
    counts.extend(met([(tally.cuts, "power cut", "power cuts")]));
    counts.push(count(tally.commands, "command", "commands"));
    let counts = counts.join(", ");
    let mut lines = vec![format!("{counts}: {good} good, {} failed", tally.failed)];
    lines.extend(not_come(host));
    lines.extend(times.told());
    match host.board.table() {
        Some(table) => {
            lines.push(format!("table: {}", known_table(host, &table)));
            lines.extend(places(&table));
            lines.extend(table::bad_blocks(&table));
        }
        None if host.board.is_on() => lines.push(no_table(platter)),
        None => lines.push(String::from("the drive is off")),
    }
    lines.push(unreadable(host));
    lines.extend(dead(host));
    lines
}

/// Says that there is no table, and which command helps if the platter has a file.
fn no_table(platter: Option<&Path>) -> String {
    match platter {
        Some(path) => {
            let path = path.display();
            format!("no table; workbench table {path} says what can be had")
        }
        None => String::from("no table"),
    }
}

/// Says which power cuts were ordered and did not come.
fn not_come(host: &Host) -> Option<String> {
    match host.board.power.ordered() {
        0 => None,
        1 => Some(String::from("a power cut was ordered and did not come")),
        more => Some(format!("{more} power cuts were ordered and did not come")),
    }
}

/// Which blocks live where; neighbours in neighbouring spares are one line.
fn places(table: &Table) -> Vec<String> {
    let entries = table.spares().iter().enumerate();
    let moved: Vec<(u32, usize)> = entries
        .filter_map(|(k, entry)| match entry.spare {
            Spare::Moved(block) => Some((block.number(), k)),
            Spare::Dead => None,
        })
        .collect();
    let runs = moved.chunk_by(|one, next| (one.0 + 1, one.1 + 1) == *next);
    let mut lines: Vec<String> = runs.map(place).collect();
    let home = BLOCKS as usize - moved.len();
    lines.push(match moved.is_empty() {
        true => format!("all {home} blocks live at their homes"),
        false => format!("the other {home} blocks live at their homes"),
    });
    lines
}

fn place(run: &[(u32, usize)]) -> String {
    match run {
        [(number, k)] => format!("block {number} lives in {}", spare_name(*k)),
        [(first, k), .., (last, l)] => {
            format!("blocks {first}..{last} live in spares {k}..{l}")
        }
        [] => String::new(),
    }
}

fn unreadable(host: &Host) -> String {
    let sectors = host.board.platter().unreadable();
    let numbers: Vec<u32> = sectors.iter().map(|sector| sector.number()).collect();
    match numbers.is_empty() {
        true => String::from("no sector is unreadable"),
        false => format!("unreadable sectors: {}", ranges(&numbers)),
    }
}

/// Says which sectors died of random faults.
fn dead(host: &Host) -> Option<String> {
    let sectors = host.board.faults.dead();
    let numbers: Vec<u32> = sectors.iter().map(|sector| sector.number()).collect();
    (!numbers.is_empty()).then(|| format!("dead sectors: {}", ranges(&numbers)))
}

/// Says how many expectations are not met, unless all are: "1 of 2 expectations not met".
pub fn not_met((met, all): (u32, u32)) -> Option<String> {
    (met < all).then(|| format!("{} of {all} expectations not met", all - met))
}

/// Says what of a run is not as it should be: a broken history, expectations, or nothing.
pub fn not_as_it_should(host: &Host, expectations: (u32, u32)) -> Option<String> {
    let history = host.board.history();
    let broken = (!history.allowed()).then(|| format!("history: {}", history.verdict()));
    let wrong: Vec<String> = broken.into_iter().chain(not_met(expectations)).collect();
    (!wrong.is_empty()).then(|| wrong.join("; "))
}

/// The last line.
pub fn last_line(host: &Host) -> String {
    let tally = host.tally;
    format!(
        "{}, {}, {}, history: {}",
        count(tally.commands, "command", "commands"),
        count(tally.accesses, "access", "accesses"),
        count(tally.moves, "move", "moves"),
        host.board.history().verdict()
    )
}

#[cfg(test)]
mod tests {
    use reference::geometry::Sector;
    use reference::surface::{Access, Left};

    use super::*;
    use crate::board::Board;
    use crate::host::USUAL;
    use crate::platter::Platter;

    #[test]
    fn what_is_not_as_it_should_be() {
        let mut host = Host::new(Board::new(Platter::blank()));
        host.start();
        host.write(5, true, &[7; 532]);
        assert_eq!(not_as_it_should(&host, (0, 0)), None);
        assert_eq!(not_as_it_should(&host, (2, 2)), None);
        let unmet = "2 of 3 expectations not met";
        assert_eq!(not_as_it_should(&host, (1, 3)).as_deref(), Some(unmet));
        let (sector, other) = (Sector::new(5).expect("a sector"), vec![8; 532]);
        let left = Left::Held(other.clone());
        let platter = host.board.platter_mut();
        platter.leave(Access::Write(sector), &other, &left);
        host.read(5, USUAL);
        let broken = "history: broken, after start 1: a good read of block 5 gave other bytes";
        assert_eq!(not_as_it_should(&host, (2, 2)).as_deref(), Some(broken));
        let both = format!("{broken}; {unmet}");
        assert_eq!(not_as_it_should(&host, (1, 3)), Some(both));
    }
}
