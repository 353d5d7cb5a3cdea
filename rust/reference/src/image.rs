//! The spare table and the two forms of its image.
//!
//! `form_a` is the form of document 01, "Table image"; `form_b` is that of document
//! 02, request 6. An image of either form is 532 bytes, and `read` takes both.

pub mod form_a;
pub mod form_b;

use std::collections::HashSet;
use std::hash::Hash;

use crate::geometry::{Block, SECTOR_BYTES, SPARES};

/// Length of an image.
pub const LENGTH: usize = SECTOR_BYTES;

/// The most entries a spare list has.
pub const MOST_SPARES: usize = SPARES;

/// The most entries a bad list has.
pub const MOST_BADS: usize = 100;

/// The entry of a dead spare.
pub const DEAD: u32 = 0xFF_FFFE;

/// The run number that stays.
pub const TOP_RUN: u32 = u32::MAX;

/// What a spare is used for.
#[derive(Clone, Copy, Debug, PartialEq, Eq, Hash)]
pub enum Spare {
    /// This block was moved to the spare.
    Moved(Block),
    /// The spare is dead.
    Dead,
}

impl Spare {
    /// Finds what a number in an image or a record stands for, if anything.
    pub fn new(number: u32) -> Option<Spare> {
        match number {
            DEAD => Some(Spare::Dead),
            _ => Block::new(number).map(Spare::Moved),
        }
    }

    /// Gives its number.
    pub fn number(self) -> u32 {
        match self {
            Spare::Moved(block) => block.number(),
            Spare::Dead => DEAD,
        }
    }
}

/// The failure that led to an entry of the spare list.
#[derive(Clone, Copy, Debug, Default, PartialEq, Eq, Hash)]
pub enum Cause {
    #[default]
    Unknown = 0,
    Crc = 1,
    Timeout = 2,
    NoSettle = 3,
}

impl Cause {
    /// Finds the cause of this number, if there is one.
    pub fn new(number: u8) -> Option<Cause> {
        Some(match number {
            0 => Cause::Unknown,
            1 => Cause::Crc,
            2 => Cause::Timeout,
            3 => Cause::NoSettle,
            _ => return None,
        })
    }

    /// Gives its number.
    pub fn number(self) -> u8 {
        self as u8
    }
}

/// An entry of the spare list.
#[derive(Clone, Copy, Debug, PartialEq, Eq, Hash)]
pub struct Entry {
    pub spare: Spare,
    pub cause: Cause,
}

/// A spare table. Its lists are never too long, and no block stands twice in
/// one of them.
#[derive(Clone, Debug, PartialEq, Eq, Hash)]
pub struct Table {
    run: u32,
    spares: Vec<Entry>,
    bads: Vec<Block>,
}

impl Table {
    /// Makes the table with this run number and these lists, if they make one.
    pub fn new(run: u32, spares: Vec<Entry>, bads: Vec<Block>) -> Option<Table> {
        let fits = spares.len() <= MOST_SPARES && bads.len() <= MOST_BADS;
        let once = no_block_twice(&spares) && all_differ(&bads);
        (fits && once).then_some(Table { run, spares, bads })
    }

    /// Gives the run number: how many stores were asked for, up to its top.
    pub fn run(&self) -> u32 {
        self.run
    }

    /// Entry `k` is that of spare `k`.
    pub fn spares(&self) -> &[Entry] {
        &self.spares
    }

    /// The bad blocks in their order.
    pub fn bads(&self) -> &[Block] {
        &self.bads
    }
}

/// The two forms of an image.
#[derive(Clone, Copy, Debug, PartialEq, Eq)]
pub enum Form {
    A,
    B,
}

/// Why bytes are no image.
#[derive(Clone, Copy, Debug, PartialEq, Eq)]
pub enum Fault {
    /// They are neither a well-formed image of form A, nor do they begin as form B
    /// does. Bytes that are not 532 are neither.
    Form,
    /// The sum of form B is wrong.
    Sum,
    /// A clause of form B behind the sum is broken.
    Field(Clause),
}

/// The clauses of form B behind the sum.
#[derive(Clone, Copy, Debug, PartialEq, Eq)]
pub enum Clause {
    SpareCount,
    SpareOffset,
    BadCount,
    BadOffset,
    /// A spare entry is neither a block nor dead.
    SpareEntry,
    Cause,
    /// A block stands twice in the spare list.
    SpareTwice,
    /// A bad entry is no block.
    BadEntry,
    /// A block stands twice in the bad list.
    BadTwice,
    /// What stands between the lists and the sum is not zero.
    Zeros,
}

impl Clause {
    /// Gives a word for it, for the coverage names.
    pub fn name(self) -> &'static str {
        match self {
            Clause::SpareCount => "spare-count",
            Clause::SpareOffset => "spare-offset",
            Clause::BadCount => "bad-count",
            Clause::BadOffset => "bad-offset",
            Clause::SpareEntry => "spare-entry",
            Clause::Cause => "cause",
            Clause::SpareTwice => "spare-twice",
            Clause::BadEntry => "bad-entry",
            Clause::BadTwice => "bad-twice",
            Clause::Zeros => "zeros",
        }
    }
}

/// Reads an image of either form: gives its form and its table, or why it is none.
pub fn read(bytes: &[u8]) -> Result<(Form, Table), Fault> {
    match form_a::read(bytes) {
        Some(table) => Ok((Form::A, table)),
        None => form_b::read(bytes).map(|table| (Form::B, table)),
    }
}

/// Writes the image of a table in a form.
pub fn write(form: Form, table: &Table) -> [u8; LENGTH] {
    match form {
        Form::A => form_a::write(table),
        Form::B => form_b::write(table),
    }
}

/// Says whether no block stands twice in a spare list.
fn no_block_twice(spares: &[Entry]) -> bool {
    let spares = spares.iter().map(|entry| entry.spare);
    all_differ(spares.filter(|&spare| spare != Spare::Dead))
}

fn all_differ<T: Eq + Hash>(items: impl IntoIterator<Item = T>) -> bool {
    let mut seen = HashSet::new();
    items.into_iter().all(|item| seen.insert(item))
}

/// The three bytes of an entry, high first.
pub fn three_bytes(number: u32) -> [u8; 3] {
    let [_, high, middle, low] = number.to_be_bytes();
    [high, middle, low]
}

/// Gives the number of an entry's three bytes.
fn number_of(three: &[u8]) -> u32 {
    u32::from_be_bytes([0, three[0], three[1], three[2]])
}

#[cfg(test)]
mod tests;
