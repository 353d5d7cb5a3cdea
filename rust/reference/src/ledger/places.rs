//! Where the blocks stand, as a ledger knows it: a table places them all, and some
//! were moved since. Two blocks that a table places never share a sector.

use std::collections::BTreeMap;
use std::rc::Rc;

use crate::geometry::{home, spare, Block, Sector, TABLE};
use crate::image::{Spare, Table};

/// The sectors of all blocks, none at first.
#[derive(Clone, Debug, Default, PartialEq, Eq, Hash)]
pub struct Places {
    table: Option<Rc<Table>>,
    /// The blocks that were moved since.
    moved: BTreeMap<Block, Sector>,
}

impl Places {
    /// Makes the sectors that a table gives.
    pub fn new(table: Rc<Table>) -> Places {
        Places {
            table: Some(table),
            moved: BTreeMap::new(),
        }
    }

    /// Gives the sector of a block, if it has one.
    pub fn of(&self, block: Block) -> Option<Sector> {
        let moved = self.moved.get(&block).copied();
        let table = self.table.as_deref();
        moved.or_else(|| table.map(|table| place(table, block)))
    }

    /// Moves a block to this sector; gives another block that stands there.
    pub fn put(&mut self, block: Block, sector: Sector) -> Option<Block> {
        self.moved.remove(&block);
        let other = self.at(sector).filter(|&other| other != block);
        self.moved.insert(block, sector);
        other
    }

    /// Finds a block that stands at this sector.
    fn at(&self, sector: Sector) -> Option<Block> {
        let moved = self.moved.iter().find(|(_, &at)| at == sector);
        let moved = moved.map(|(&block, _)| block);
        let table = self.table.as_deref();
        moved.or_else(|| {
            let placed = table.and_then(|table| placed_at(table, sector));
            placed.filter(|&block| self.of(block) == Some(sector))
        })
    }
}

/// Gives the sector at which a table places a block: its spare if listed, else its
/// home.
pub fn place(table: &Table, block: Block) -> Sector {
    let listed = |k: &usize| table.spares()[*k].spare == Spare::Moved(block);
    (0..table.spares().len())
        .find(listed)
        .and_then(spare)
        .unwrap_or(home(block))
}

/// Finds the block that a table places at this sector.
fn placed_at(table: &Table, sector: Sector) -> Option<Block> {
    let listed = table.spares().iter().filter_map(|entry| match entry.spare {
        Spare::Moved(block) => Some(block),
        Spare::Dead => None,
    });
    let number = sector.number();
    // Homes behind the reserved cylinder are 64 further on.
    let homes = [Some(number), number.checked_sub(64)];
    let homes = homes.into_iter().flatten().filter_map(Block::new);
    let stands = |block: &Block| sector != TABLE && place(table, *block) == sector;
    listed.chain(homes).find(stands)
}

#[cfg(test)]
mod tests {
    use super::*;
    use crate::geometry::{BLOCKS, SECTORS};
    use crate::image;
    use crate::images::draft::Draft;

    fn table(spares: &[u32]) -> Rc<Table> {
        let (_, table) = image::read(&Draft::new(spares, &[]).bytes()).expect("a table");
        Rc::new(table)
    }

    fn block(number: u32) -> Block {
        Block::new(number).expect("a block")
    }

    fn sector(number: u32) -> Sector {
        Sector::new(number).expect("a sector")
    }

    #[test]
    fn a_table_gives_each_block_a_sector_of_its_own() {
        let table = table(&[9727, 0xFF_FFFE, 4928, 17, 0xFF_FFFE, 0]);
        let places = Places::new(table.clone());
        for number in 0..BLOCKS {
            let at = places.of(block(number)).expect("a sector");
            assert_eq!(placed_at(&table, at), Some(block(number)));
        }
        let mut owned: Vec<Block> = (0..SECTORS)
            .filter_map(|number| placed_at(&table, sector(number)))
            .collect();
        owned.sort();
        owned.dedup();
        assert_eq!(owned.len(), BLOCKS as usize);
        assert_eq!(placed_at(&table, TABLE), None);
        assert_eq!(Places::default().of(block(5)), None);
    }

    #[test]
    fn a_moved_block_leaves_its_sector() {
        let mut places = Places::new(table(&[7]));
        assert_eq!(places.put(block(5), sector(4929)), None);
        assert_eq!(places.of(block(5)), Some(sector(4929)));
        // Its home is free, and so is the spare of one that moves on.
        assert_eq!(places.put(block(9), sector(5)), None);
        assert_eq!(places.put(block(7), sector(4930)), None);
        assert_eq!(places.put(block(8), sector(4928)), None);
        // Those of others are not.
        assert_eq!(places.put(block(3), sector(4929)), Some(block(5)));
        assert_eq!(places.put(block(3), sector(4)), Some(block(4)));
        assert_eq!(places.put(block(3), sector(9791)), Some(block(9727)));
        // To stay is no clash.
        assert_eq!(places.put(block(7), sector(4930)), None);
    }

    #[test]
    fn without_a_table_only_moved_blocks_clash() {
        let mut places = Places::default();
        assert_eq!(places.put(block(5), sector(6)), None);
        assert_eq!(places.put(block(6), sector(6)), Some(block(5)));
    }
}
