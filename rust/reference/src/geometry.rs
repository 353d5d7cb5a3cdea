//! Blocks and sectors (document 01, "Blocks and sectors").
//!
//! A block number and a sector number are two separate counts, so they are two
//! types, and only `home` leads from the one to the other.

/// Blocks are 0..9727.
pub const BLOCKS: u32 = 9728;

/// Sectors are 0..9791.
pub const SECTORS: u32 = 9792;

/// Spares are 0..31.
pub const SPARES: usize = 32;

/// A sector holds this many bytes.
pub const SECTOR_BYTES: usize = 532;

/// The reserved cylinder begins here; homes from this number on lie behind it.
const RESERVED: u16 = 77 * 64;

/// Sectors on a cylinder.
const CYLINDER: u16 = 64;

/// A block number, always 0..9727.
#[derive(Clone, Copy, Debug, PartialEq, Eq, Hash, PartialOrd, Ord)]
pub struct Block(u16);

/// A sector number, always 0..9791.
#[derive(Clone, Copy, Debug, PartialEq, Eq, Hash, PartialOrd, Ord)]
pub struct Sector(u16);

/// The sector of the table.
pub const TABLE: Sector = Sector(4960);

impl Block {
    /// The block of this number, if there is one.
    pub fn new(number: u32) -> Option<Block> {
        let small = u16::try_from(number).ok()?;
        (number < BLOCKS).then_some(Block(small))
    }

    /// Its number.
    pub fn number(self) -> u32 {
        u32::from(self.0)
    }
}

impl Sector {
    /// The sector of this number, if there is one.
    pub fn new(number: u32) -> Option<Sector> {
        let small = u16::try_from(number).ok()?;
        (number < SECTORS).then_some(Sector(small))
    }

    /// Its number.
    pub fn number(self) -> u32 {
        u32::from(self.0)
    }
}

/// The home of a block.
pub fn home(block: Block) -> Sector {
    if block.0 < RESERVED {
        Sector(block.0)
    } else {
        Sector(block.0 + CYLINDER)
    }
}

/// The sector of spare `k`, if there is such a spare.
pub fn spare(k: usize) -> Option<Sector> {
    let small = u16::try_from(k).ok()?;
    (k < SPARES).then(|| Sector(RESERVED + small))
}

#[cfg(test)]
mod tests {
    use super::*;
    use std::collections::HashSet;

    fn home_of(number: u32) -> Option<u32> {
        Block::new(number).map(|block| home(block).number())
    }

    #[test]
    fn homes_of_the_document() {
        assert_eq!(home_of(0), Some(0));
        assert_eq!(home_of(4926), Some(4926));
        assert_eq!(home_of(4927), Some(4927));
        assert_eq!(home_of(4928), Some(4992));
        assert_eq!(home_of(9727), Some(9791));
    }

    #[test]
    fn numbers_of_no_block() {
        for number in [9728, 9729, 0xFFFF, 0x1_0000, 0x1_0001, 0xFF_FFFE, u32::MAX] {
            assert_eq!(Block::new(number), None, "{number}");
        }
        assert_eq!(Block::new(9727).map(Block::number), Some(9727));
    }

    #[test]
    fn numbers_of_no_sector() {
        for number in [9792, 0xFFFF, 0x1_0000, 0x1_0001, u32::MAX] {
            assert_eq!(Sector::new(number), None, "{number}");
        }
        assert_eq!(Sector::new(0).map(Sector::number), Some(0));
        assert_eq!(Sector::new(9791).map(Sector::number), Some(9791));
        assert_eq!(Sector::new(4960), Some(TABLE));
    }

    #[test]
    fn spares_and_table() {
        assert_eq!(spare(0).map(Sector::number), Some(4928));
        assert_eq!(spare(31).map(Sector::number), Some(4959));
        assert_eq!(spare(32), None);
        assert_eq!(spare(65536), None);
        assert_eq!(TABLE.number(), 4960);
    }

    #[test]
    fn no_two_share_a_sector() {
        let homes = (0..BLOCKS).filter_map(Block::new).map(home);
        let spares = (0..SPARES).filter_map(spare);
        let all: Vec<Sector> = homes.chain(spares).chain([TABLE]).collect();
        assert_eq!(all.len(), 9728 + 32 + 1);
        assert!(all.iter().all(|sector| sector.number() <= 9791));
        let different: HashSet<Sector> = all.iter().copied().collect();
        assert_eq!(different.len(), all.len());
    }

    #[test]
    fn homes_stay_off_the_reserved_cylinder() {
        let mut homes = (0..BLOCKS).filter_map(home_of);
        assert!(homes.all(|sector| sector / 64 != 77));
    }
}
