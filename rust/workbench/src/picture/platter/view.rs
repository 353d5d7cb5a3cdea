//! What a platter's picture shows: the spares' states, the moves, the bad blocks
//! and the unreadable sectors.

use std::collections::BTreeSet;
use std::ops::Range;

use reference::geometry::{home, spare, Block, SECTORS, SPARES, TABLE};
use reference::image::{Cause, Entry, Spare, Table};

/// The drive: cylinders, and on each this many heads and sectors a track.
pub const CYLINDERS: u32 = 153;
pub const HEADS: u32 = 4;
pub const PLACES: u32 = 16;

/// The cylinder with the spares and the table, its first sector, and all of
/// its sectors.
pub const RESERVED: u32 = 77;
pub const FIRST: u32 = RESERVED * HEADS * PLACES;
pub const RESERVED_SECTORS: Range<u32> = FIRST..FIRST + HEADS * PLACES;

/// What is known of a spare.
#[derive(Clone, Copy, PartialEq, Eq)]
pub enum State {
    Unknown,
    Unused,
    Moved(Block),
    Dead,
}

/// What a sector of the reserved cylinder is for.
#[derive(Clone, Copy, PartialEq, Eq)]
pub enum Use {
    Spare(usize, State),
    Table,
    Nothing,
}

/// A block that left its home, its spare, the spare's sector, and the cause.
#[derive(Clone, Copy)]
pub struct Move {
    pub block: Block,
    pub spare: usize,
    pub sector: u32,
    pub cause: Cause,
}

/// What the picture shows.
pub struct View {
    pub known: bool,
    /// The spare list; entry `k` is that of spare `k`.
    pub entries: Vec<Entry>,
    pub states: Vec<State>,
    pub moves: Vec<Move>,
    pub bads: Vec<Block>,
    pub unreadable: BTreeSet<u32>,
}

impl View {
    pub fn new(table: Option<&Table>, unreadable: &[u32]) -> View {
        let entries = table.map_or(&[][..], Table::spares);
        let unlisted = table.map_or(State::Unknown, |_| State::Unused);
        let listed = entries.iter().map(|entry| match entry.spare {
            Spare::Moved(block) => State::Moved(block),
            Spare::Dead => State::Dead,
        });
        let states: Vec<State> = listed
            .chain(std::iter::repeat(unlisted))
            .take(SPARES)
            .collect();
        let sectors = unreadable.iter().copied();
        View {
            known: table.is_some(),
            entries: entries.to_vec(),
            moves: moves_of(entries),
            states,
            bads: table.map_or(Vec::new(), |table| table.bads().to_vec()),
            unreadable: sectors.filter(|&sector| sector < SECTORS).collect(),
        }
    }

    /// What this sector of the reserved cylinder is for.
    pub fn use_of(&self, sector: u32) -> Use {
        let k = (sector - FIRST) as usize;
        match self.states.get(k) {
            Some(&state) => Use::Spare(k, state),
            None if sector == TABLE.number() => Use::Table,
            None => Use::Nothing,
        }
    }

    /// How many spares have this state.
    pub fn count(&self, state: State) -> usize {
        self.states.iter().filter(|&&other| other == state).count()
    }

    /// The sector where a block stands now.
    pub fn sector_of(&self, block: Block) -> u32 {
        let moved = self.moves.iter().find(|moved| moved.block == block);
        moved.map_or(home(block).number(), |moved| moved.sector)
    }
}

fn moves_of(entries: &[Entry]) -> Vec<Move> {
    let entries = entries.iter().enumerate();
    let moved = entries.filter_map(|(k, entry)| match entry.spare {
        Spare::Moved(block) => Some(Move {
            block,
            spare: k,
            sector: spare(k)?.number(),
            cause: entry.cause,
        }),
        Spare::Dead => None,
    });
    moved.collect()
}

/// Cylinder, head and place of a sector.
pub fn parts(sector: u32) -> (u32, u32, u32) {
    let track = sector / PLACES;
    (track / HEADS, track % HEADS, sector % PLACES)
}
