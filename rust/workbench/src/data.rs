//! The data of a line: what its blocks are written with or compared with.

use reference::geometry::SECTOR_BYTES;
use usage::{named, shown};

use crate::health;

/// The blocks of a line, first to last.
#[derive(Clone, Copy, Debug, PartialEq, Eq)]
pub struct Blocks {
    pub first: u32,
    pub last: u32,
}

impl Blocks {
    /// One number, which need not be that of a block.
    pub fn one(number: u32) -> Blocks {
        Blocks {
            first: number,
            last: number,
        }
    }

    pub fn numbers(self) -> impl Iterator<Item = u32> {
        self.first..=self.last
    }

    /// How many there are.
    pub fn count(self) -> usize {
        (self.last - self.first) as usize + 1
    }

    /// As a plan has them.
    pub fn name(self) -> String {
        match self.first {
            health::NUMBER => String::from("$FFFFFD (the health block)"),
            0xFF_FFFE => String::from("$FFFFFE (the buffer)"),
            0xFF_FFFF => String::from("$FFFFFF (the table)"),
            first if first == self.last => first.to_string(),
            first => format!("{first}..{}", self.last),
        }
    }
}

/// Where a line's data comes from.
#[derive(Clone, Debug, PartialEq, Eq)]
pub enum Data {
    /// These bytes for every block, as they are: none, fewer than 532 or more.
    Bytes(Vec<u8>),
    /// The text and the block's number, over and over.
    Text(String),
    /// A file from an offset on, block after block.
    File { path: String, offset: usize },
}

impl Data {
    /// The bytes of each block in turn. A file is read so by its name.
    pub fn load(
        &self,
        blocks: Blocks,
        read: impl FnOnce(&str) -> Result<Vec<u8>, String>,
    ) -> Result<Vec<Vec<u8>>, String> {
        match self {
            Data::Bytes(bytes) => Ok(vec![bytes.clone(); blocks.count()]),
            Data::Text(text) => Ok(blocks.numbers().map(|n| filled(text, n)).collect()),
            Data::File { path, offset } => {
                let bytes = read(path)?;
                split(&bytes, *offset, blocks.count()).map_err(|fault| format!("{path} {fault}"))
            }
        }
    }

    /// What blocks are that hold it.
    pub fn name(&self) -> String {
        match self {
            Data::Bytes(_) => String::from("as given"),
            Data::Text(text) => format!("\"{}\"", shown(text)),
            Data::File { path, .. } => format!("as in {}", named(path)),
        }
    }
}

/// A block full of the text and the block's number.
fn filled(text: &str, number: u32) -> Vec<u8> {
    let line = format!("{text}, block {number}. ");
    line.bytes().cycle().take(SECTOR_BYTES).collect()
}

/// So many blocks of a file. The last one is filled up with zeros.
fn split(bytes: &[u8], offset: usize, count: usize) -> Result<Vec<Vec<u8>>, String> {
    let rest = bytes.get(offset..).unwrap_or_default();
    let found = rest.len().div_ceil(SECTOR_BYTES);
    if found < count {
        return Err(format!(
            "has {} bytes: from {offset} on that is {found} of {count} blocks",
            bytes.len()
        ));
    }
    let blocks = rest.chunks(SECTOR_BYTES).take(count).map(|chunk| {
        let mut block = chunk.to_vec();
        block.resize(SECTOR_BYTES, 0);
        block
    });
    Ok(blocks.collect())
}

#[cfg(test)]
mod tests {
    use super::*;

    #[test]
    fn text_fills_a_block() {
        let block = filled("Monday", 17);
        assert_eq!(block.len(), 532);
        assert!(block.starts_with(b"Monday, block 17. Monday, block 17. "));
        assert_ne!(block, filled("Monday", 18));
    }

    #[test]
    fn a_file_is_split() {
        let bytes: Vec<u8> = (0..1100).map(|n| n as u8).collect();
        let blocks = split(&bytes, 10, 3).expect("three blocks");
        assert_eq!(blocks[0], bytes[10..542]);
        assert_eq!(blocks[2][..26], bytes[1074..]);
        assert_eq!(blocks[2][26..], [0; 506]);
        assert_eq!(split(&bytes, 10, 2).expect("two blocks").len(), 2);
        for (offset, count) in [(10, 4), (1100, 1), (2000, 1)] {
            assert!(split(&bytes, offset, count).is_err());
        }
    }

    #[test]
    fn names() {
        assert_eq!(Blocks::one(17).name(), "17");
        assert_eq!(Blocks { first: 0, last: 39 }.name(), "0..39");
        assert_eq!(Blocks::one(0xFF_FFFF).name(), "$FFFFFF (the table)");
        assert_eq!(Blocks::one(0xFF_FFFD).name(), "$FFFFFD (the health block)");
        assert_eq!(Blocks::one(0xFF_FFFC).name(), "16777212");
    }
}
