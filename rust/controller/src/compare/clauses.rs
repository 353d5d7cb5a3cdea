//! Code 1 by name: one for each side of each bound of its clauses, in every phase
//! in which the clause applies.
//!
//! "At" is a record just inside the bound, which no call refuses with 1. "Beyond"
//! is one just outside, which every call but start refuses with 1.

use std::collections::HashMap;
use std::format;
use std::string::String;
use std::vec::Vec;

use super::mapping::record_of;
use crate::fields::{Fields, Stage, BADS, DEAD, SPARES};
use crate::raw::kind;

/// One side of a bound.
struct Side {
    name: &'static str,
    /// The phases in which its clause applies.
    phases: &'static [&'static str],
    /// Tells a record that is there, by the numbers of the clause alone.
    holds: fn(&Fields) -> bool,
}

/// All phases, as the coverage names have them.
const ALL: &[&str] = &[
    "idle",
    "offer",
    "command",
    "data",
    "starting",
    "storing",
    "first-read",
    "reread",
    "further-read",
    "plain-write",
    "verified-write",
    "first-verify",
    "present-write",
    "present-reread",
    "spare-write",
    "spare-reread",
];

/// Those with no spare under trial, in which all spares may be listed.
const NO_SPARE: &[&str] = ALL.split_at(14).0;

/// Those in which a spare is under trial.
const SPARE: &[&str] = ALL.split_at(14).1;

/// The trials of sectors.
const TRIAL: &[&str] = ALL.split_at(12).1;

/// Those that need no table.
const NO_TABLE: &[&str] = ALL.split_at(5).0;

/// Those with an access awaited that is not the start's.
const ACCESS: &[&str] = ALL.split_at(5).1;

/// Those with a pending block, and those with a pending sector that need not be
/// the next unused spare.
const BLOCK: &[&str] = ALL.split_at(6).1;
const SECTOR: &[&str] = NO_SPARE.split_at(6).1;

/// The reads of a read command.
const READ: &[&str] = &["first-read", "reread", "further-read"];

/// Those of them with rereads left.
const LEFT: &[&str] = &["first-read", "reread"];

/// Those in which E may be 255, with no reread left.
const NONE_LEFT: &[&str] = &[
    "storing",
    "first-read",
    "further-read",
    "present-write",
    "present-reread",
    "spare-write",
    "spare-reread",
];

const START: &[&str] = &["starting"];
const STORE: &[&str] = &["storing"];

const fn side(
    name: &'static str,
    phases: &'static [&'static str],
    holds: fn(&Fields) -> bool,
) -> Side {
    Side {
        name,
        phases,
        holds,
    }
}

/// Lists the sides that no call refuses.
const AT: &[Side] = &[
    side("spares.count-32", NO_SPARE, |d| d.nspares == 32),
    side("spares.first-9727", ALL, |d| first(spares(d)) == Some(9727)),
    side("spares.last-9727", ALL, |d| last_spare(d) == Some(9727)),
    side("spares.first-dead", ALL, |d| first(spares(d)) == Some(DEAD)),
    side("spares.last-dead", ALL, |d| last_spare(d) == Some(DEAD)),
    side("spares.all-dead", ALL, |d| {
        last_spare(d).is_some() && spares(d).iter().all(|&spare| spare == DEAD)
    }),
    side("spares.unused-9728", ALL, |d| unused_spare(d) == Some(9728)),
    side("spares.unused-listed", ALL, |d| {
        unused_spare(d).is_some() && unused_spare(d) == first(spares(d))
    }),
    side("causes.first-3", ALL, |d| first(causes(d)) == Some(3)),
    side("causes.last-3", ALL, |d| last_cause(d) == Some(3)),
    side("causes.unused-4", ALL, |d| unused_cause(d) == Some(4)),
    side("causes.unused-256", ALL, |d| unused_cause(d) == Some(256)),
    side("bads.count-100", ALL, |d| d.nbads == 100),
    side("bads.first-9727", ALL, |d| first(bads(d)) == Some(9727)),
    side("bads.last-9727", ALL, |d| last_bad(d) == Some(9727)),
    side("bads.unused-9728", ALL, |d| unused_bad(d) == Some(9728)),
    side("bads.unused-listed", ALL, |d| {
        unused_bad(d).is_some() && unused_bad(d) == first(bads(d))
    }),
    side("lists.block-in-both", ALL, |d| {
        bads(d).iter().any(|bad| spares(d).contains(bad))
    }),
    side("command.count-6", ALL, |d| d.count == 6),
    side("data.count-533", ALL, |d| d.fed == 533),
    side("rereads.e-0-left-255", LEFT, |d| rereads(d) == (0, 255)),
    side("rereads.e-100-left-155", LEFT, |d| rereads(d) == (100, 155)),
    side("rereads.e-254-left-1", LEFT, |d| rereads(d) == (254, 1)),
    side("rereads.e-255-left-0", NONE_LEFT, |d| {
        rereads(d) == (255, 0)
    }),
    side("spent.89", READ, |d| d.stage.spent == 89),
    side("table.known", ALL, |d| d.flags.known == 1),
    side("table.none", NO_TABLE, |d| d.flags.known == 0),
    side("start.reads-10", START, |d| d.stage.detail == 10),
    side("store.ending-0", STORE, |d| d.stage.detail == 0),
    side("store.ending-9", STORE, |d| d.stage.detail == 9),
    side("marks.place-alone", ALL, |d| marks(d) == (0, 1)),
    side("marks.both", ALL, |d| marks(d) == (1, 1)),
    side("trial.rereads-100", TRIAL, |d| d.stage.detail == 100),
    side("trial.failures-0-of-0", TRIAL, |d| failures(d) == (0, 0)),
    side("trial.failures-50-of-50", TRIAL, |d| {
        failures(d) == (50, 50)
    }),
    side("trial.failures-100-of-100", TRIAL, |d| {
        failures(d) == (100, 100)
    }),
    side("sector.9791", SECTOR, |d| d.stage.sector == 9791),
    side("block.9727", BLOCK, |d| d.stage.block == 9727),
    side("trial.listed-0-spare-0", SPARE, |d| trial(d, 0, 4928)),
    side("trial.listed-3-spare-3", SPARE, |d| trial(d, 3, 4931)),
    side("trial.listed-31-spare-31", SPARE, |d| trial(d, 31, 4959)),
];

/// Lists the sides that every call but start refuses.
const BEYOND: &[Side] = &[
    side("spares.count-33", NO_SPARE, |d| d.nspares == 33),
    side("spares.first-9728", ALL, |d| first(spares(d)) == Some(9728)),
    side("spares.last-9728", ALL, |d| last_spare(d) == Some(9728)),
    side("spares.first-65533", ALL, |d| {
        first(spares(d)) == Some(65533)
    }),
    side("spares.last-65533", ALL, |d| last_spare(d) == Some(65533)),
    side("spares.first-65535", ALL, |d| {
        first(spares(d)) == Some(65535)
    }),
    side("spares.last-65535", ALL, |d| last_spare(d) == Some(65535)),
    side("spares.twice-first-two", ALL, |d| first_twice(spares(d))),
    side("spares.twice-first-last", ALL, |d| {
        last_spare(d).is_some() && ends_twice(spares(d))
    }),
    side("spares.twice-last-two", ALL, |d| {
        last_spare(d).is_some() && last_twice(spares(d))
    }),
    side("causes.first-4", ALL, |d| first(causes(d)) == Some(4)),
    side("causes.last-4", ALL, |d| last_cause(d) == Some(4)),
    side("causes.first-256", ALL, |d| first(causes(d)) == Some(256)),
    side("causes.last-256", ALL, |d| last_cause(d) == Some(256)),
    side("bads.count-101", ALL, |d| d.nbads == 101),
    side("bads.first-9728", ALL, |d| first(bads(d)) == Some(9728)),
    side("bads.last-9728", ALL, |d| last_bad(d) == Some(9728)),
    side("bads.first-65533", ALL, |d| first(bads(d)) == Some(65533)),
    side("bads.last-65533", ALL, |d| last_bad(d) == Some(65533)),
    side("bads.first-dead", ALL, |d| first(bads(d)) == Some(DEAD)),
    side("bads.last-dead", ALL, |d| last_bad(d) == Some(DEAD)),
    side("bads.first-65535", ALL, |d| first(bads(d)) == Some(65535)),
    side("bads.last-65535", ALL, |d| last_bad(d) == Some(65535)),
    side("bads.twice-first-two", ALL, |d| first_twice(bads(d))),
    side("bads.twice-first-last", ALL, |d| {
        last_bad(d).is_some() && ends_twice(bads(d))
    }),
    side("bads.twice-last-two", ALL, |d| {
        last_bad(d).is_some() && last_twice(bads(d))
    }),
    side("command.count-7", ALL, |d| d.count == 7),
    side("data.count-534", ALL, |d| d.fed == 534),
    side("rereads.e-1-left-255", LEFT, |d| rereads(d) == (1, 255)),
    side("rereads.e-100-left-156", LEFT, |d| rereads(d) == (100, 156)),
    side("rereads.e-255-left-1", LEFT, |d| rereads(d) == (255, 1)),
    side("spent.90", READ, |d| d.stage.spent == 90),
    side("table.none", ACCESS, |d| d.flags.known == 0),
    side("start.reads-11", START, |d| d.stage.detail == 11),
    side("trial.rereads-101", TRIAL, |d| d.stage.detail == 101),
    side("trial.failures-1-of-0", TRIAL, |d| failures(d) == (1, 0)),
    side("trial.failures-51-of-50", TRIAL, |d| {
        failures(d) == (51, 50)
    }),
    side("trial.failures-101-of-100", TRIAL, |d| {
        failures(d) == (101, 100)
    }),
    side("sector.9792", SECTOR, |d| d.stage.sector == 9792),
    side("block.9728", BLOCK, |d| d.stage.block == 9728),
    side("trial.listed-0-sector-4927", SPARE, |d| trial(d, 0, 4927)),
    side("trial.listed-0-spare-1", SPARE, |d| trial(d, 0, 4929)),
    side("trial.listed-3-spare-2", SPARE, |d| trial(d, 3, 4930)),
    side("trial.listed-3-spare-4", SPARE, |d| trial(d, 3, 4932)),
    side("trial.listed-31-spare-30", SPARE, |d| trial(d, 31, 4958)),
    side("trial.listed-31-sector-4960", SPARE, |d| trial(d, 31, 4960)),
    side("trial.listed-32-spare-31", SPARE, |d| trial(d, 32, 4959)),
    side("trial.listed-32-sector-4960", SPARE, |d| trial(d, 32, 4960)),
];

/// The entries in use; none if the count is more than there are places.
fn spares(drive: &Fields) -> &[u16] {
    drive.spare_list().unwrap_or_default()
}

fn causes(drive: &Fields) -> &[u16] {
    drive.cause_list().unwrap_or_default()
}

fn bads(drive: &Fields) -> &[u16] {
    drive.bad_list().unwrap_or_default()
}

fn first(list: &[u16]) -> Option<u16> {
    list.first().copied()
}

/// The last entry of a full list. With a spare under trial one fewer is full.
fn last_spare(drive: &Fields) -> Option<u16> {
    spares(drive).get(last_place(drive)).copied()
}

fn last_cause(drive: &Fields) -> Option<u16> {
    causes(drive).get(last_place(drive)).copied()
}

/// The last place of a full spare list.
fn last_place(drive: &Fields) -> usize {
    SPARES - 1 - usize::from(drive.stage.spare.min(1))
}

fn last_bad(drive: &Fields) -> Option<u16> {
    bads(drive).get(BADS - 1).copied()
}

/// Returns the last place's number if only that place is unused.
fn unused_spare(drive: &Fields) -> Option<u16> {
    (usize::from(drive.nspares) == SPARES - 1).then_some(drive.spares[SPARES - 1])
}

fn unused_cause(drive: &Fields) -> Option<u16> {
    (usize::from(drive.nspares) == SPARES - 1).then_some(drive.causes[SPARES - 1])
}

fn unused_bad(drive: &Fields) -> Option<u16> {
    (usize::from(drive.nbads) == BADS - 1).then_some(drive.bads[BADS - 1])
}

fn first_twice(list: &[u16]) -> bool {
    matches!(list, [one, other, ..] if same(*one, *other))
}

fn last_twice(list: &[u16]) -> bool {
    matches!(list, [.., one, other] if same(*one, *other))
}

fn ends_twice(list: &[u16]) -> bool {
    matches!(list, [one, .., other] if same(*one, *other))
}

/// True for the same block; dead marks are none.
fn same(one: u16, other: u16) -> bool {
    one == other && one != DEAD
}

/// E and the rereads left.
fn rereads(drive: &Fields) -> (u8, u8) {
    (drive.stage.errors, drive.stage.left)
}

/// The marks of unstored changes, and of a place among them. No clause asks for them.
fn marks(drive: &Fields) -> (u16, u16) {
    (drive.flags.changed, drive.flags.moved)
}

/// A trial's failures, and its rereads.
fn failures(drive: &Fields) -> (u8, u8) {
    (drive.stage.spent, drive.stage.detail)
}

/// True if this sector is under trial with so many spares listed.
fn trial(drive: &Fields, listed: u16, sector: u16) -> bool {
    (drive.nspares, drive.stage.sector) == (listed, sector)
}

/// The phase of a record. No clause is asked of other kinds.
fn phase(stage: &Stage) -> &'static str {
    match (stage.kind, stage.spare) {
        (kind::IDLE, _) => "idle",
        (kind::OFFER, _) => "offer",
        (kind::COMMAND, _) => "command",
        (kind::DATA, _) => "data",
        (kind::START, _) => "starting",
        (kind::STORE, _) => "storing",
        (kind::READ, _) if stage.first == 1 => "first-read",
        (kind::READ, _) if stage.left > 0 => "reread",
        (kind::READ, _) => "further-read",
        (kind::WRITE, _) if stage.first == 0 => "plain-write",
        (kind::WRITE, _) => "verified-write",
        (kind::VERIFY, _) => "first-verify",
        (kind::TRIAL_WRITE, 0) => "present-write",
        (kind::TRIAL_READ, 0) => "present-reread",
        (kind::TRIAL_WRITE, _) => "spare-write",
        (kind::TRIAL_READ, _) => "spare-reread",
        _ => "none",
    }
}

fn named(which: &str, side: &Side, phase: &str) -> String {
    format!("{which}.{}.{phase}", side.name)
}

/// Returns all names.
pub fn names() -> Vec<String> {
    let all = |which, sides: &[Side]| -> Vec<String> {
        let names = |side: &Side| -> Vec<String> {
            let name = |phase: &&str| named(which, side, phase);
            side.phases.iter().map(name).collect()
        };
        sides.iter().flat_map(names).collect()
    };
    [all("at", AT), all("beyond", BEYOND)].concat()
}

/// The names of a record among these sides.
fn names_of(which: &str, sides: &[Side], drive: &Fields) -> Vec<String> {
    let phase = phase(&drive.stage);
    let there = |side: &&Side| side.phases.contains(&phase) && (side.holds)(drive);
    let found = sides.iter().filter(there);
    found.map(|side| named(which, side, phase)).collect()
}

/// How often each name was met.
#[derive(Debug, Default)]
pub struct Met {
    counts: HashMap<String, u64>,
}

impl Met {
    /// Counts the names of a record on which every call was made and all
    /// implementations agreed. One that is refused must be beyond exactly one
    /// bound, and one that is not beyond none.
    pub fn count(&mut self, drive: &Fields, refused: bool) -> Result<(), String> {
        if record_of(drive).is_none() {
            return Err(String::from(
                "a phase that is none, so that no clause decides",
            ));
        }
        let beyond = names_of("beyond", BEYOND, drive);
        let met = match (refused, beyond.len()) {
            (true, 1) => beyond,
            (false, 0) => names_of("at", AT, drive),
            (true, _) => return Err(format!("refused with 1, and beyond {beyond:?}")),
            (false, _) => return Err(format!("not refused with 1, and beyond {beyond:?}")),
        };
        for name in met {
            *self.counts.entry(name).or_default() += 1;
        }
        Ok(())
    }

    /// The names that were not met.
    pub fn missed(&self) -> Vec<String> {
        let mut names = names();
        names.retain(|name| !self.counts.contains_key(name));
        names
    }
}
