//! How large a world is, and how its drive begins.

use std::fmt;

use crate::geometry::{Sector, SECTOR_BYTES, TABLE};
use crate::image::{DEAD, MOST_SPARES};
use crate::images::draft::Draft;
use crate::surface::Sectors;

/// How the first block begins.
#[derive(Clone, Copy, Debug, PartialEq, Eq)]
pub enum Table {
    /// At its home.
    Plain,
    /// At spare 0.
    Moved,
    /// In the bad list.
    Bad,
}

/// All of them.
const TABLES: [Table; 3] = [Table::Plain, Table::Moved, Table::Bad];

impl Table {
    /// Gives the word for it.
    fn word(self) -> &'static str {
        match self {
            Table::Plain => "plain",
            Table::Moved => "moved",
            Table::Bad => "bad",
        }
    }
}

/// A world.
#[derive(Clone, Copy, Debug, PartialEq, Eq)]
pub struct Size {
    pub table: Table,
    /// The blocks of the commands, one or two.
    pub blocks: u8,
    /// The unused spares; the others are dead.
    pub spares: u8,
    /// The commands of a way, at most.
    pub commands: u8,
    /// The cuts of a way, at most.
    pub cuts: u8,
}

impl fmt::Display for Size {
    fn fmt(&self, f: &mut fmt::Formatter) -> fmt::Result {
        write!(
            f,
            "{}: blocks {}, spares {}, commands {}, cuts {}",
            self.table.word(),
            self.blocks,
            self.spares,
            self.commands,
            self.cuts
        )
    }
}

/// The blocks: the homes of both lie before the reserved cylinder.
const BLOCKS: [u32; 2] = [5, 9];

const fn size(table: Table, blocks: u8, spares: u8, commands: u8, cuts: u8) -> Size {
    Size {
        table,
        blocks,
        spares,
        commands,
        cuts,
    }
}

/// Worlds that are searched in a few seconds.
pub const SMALL: [Size; 5] = [
    size(Table::Plain, 1, 1, 2, 1),
    size(Table::Moved, 1, 1, 2, 1),
    size(Table::Bad, 1, 1, 2, 1),
    size(Table::Plain, 1, 2, 1, 2),
    size(Table::Plain, 2, 1, 2, 1),
];

/// Worlds that are searched in a minute or so.
pub const LARGE: [Size; 7] = [
    size(Table::Plain, 1, 1, 3, 2),
    size(Table::Plain, 2, 1, 3, 1),
    size(Table::Plain, 2, 2, 2, 2),
    size(Table::Moved, 1, 2, 2, 2),
    size(Table::Moved, 2, 1, 2, 2),
    size(Table::Bad, 1, 2, 2, 2),
    size(Table::Bad, 2, 1, 2, 2),
];

impl Size {
    /// Makes the world of these words and numbers, if there is one.
    pub fn new(table: &str, blocks: u8, spares: u8, commands: u8, cuts: u8) -> Option<Size> {
        let table = TABLES.into_iter().find(|one| one.word() == table)?;
        let fits = (1..=2).contains(&blocks) && spares <= 31;
        fits.then_some(size(table, blocks, spares, commands, cuts))
    }

    /// Gives the blocks of the commands.
    pub fn blocks(self) -> Vec<u32> {
        BLOCKS[..usize::from(self.blocks)].to_vec()
    }

    /// Makes the sectors with which the world begins.
    pub fn sectors(self) -> Sectors {
        let used = MOST_SPARES - usize::from(self.spares);
        let mut spares = vec![DEAD; used];
        let mut bads = vec![];
        match self.table {
            Table::Plain => {}
            Table::Moved => spares[0] = BLOCKS[0],
            Table::Bad => bads.push(BLOCKS[0]),
        }
        let mut sectors = Sectors::new();
        sectors.hold(TABLE, &Draft::new(&spares, &bads).bytes());
        for number in self.blocks() {
            let home = Sector::new(number).expect("a sector");
            sectors.hold(home, &[0xA0 + number as u8; SECTOR_BYTES]);
        }
        sectors
    }
}
