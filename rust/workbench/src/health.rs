//! The health block, which a monitor reads (document 02, request 3).

use std::iter;

use reference::image::{MOST_BADS, MOST_SPARES};

use crate::show::count_or_no;

/// Its number.
pub const NUMBER: u32 = 0xFF_FFFD;

/// What its first bytes are at most; all others are zeros.
const MOST: [u8; 4] = [MOST_SPARES as u8, MOST_BADS as u8, 1, 1];

/// Its four figures.
#[derive(Clone, Copy, Debug, PartialEq, Eq)]
pub struct Health {
    /// Spares that neither hold a block nor are dead.
    pub unused: u8,
    /// Entries of the bad list.
    pub bads: u8,
    pub latch: bool,
    /// Changes of the table are not stored.
    pub unstored: bool,
}

impl Health {
    /// The figures of a data part, or what is wrong if it is no health block.
    pub fn read(data: &[u8]) -> Result<Health, String> {
        match wrong(data) {
            Some(fault) => Err(fault),
            None => Ok(Health {
                unused: data[0],
                bads: data[1],
                latch: data[2] == 1,
                unstored: data[3] == 1,
            }),
        }
    }

    /// The figures in words.
    pub fn words(self) -> String {
        let spares = count_or_no(self.unused.into(), "spare unused", "spares unused");
        let bads = count_or_no(self.bads.into(), "bad block", "bad blocks");
        let latch = match self.latch {
            true => "under the latch",
            false => "no latch",
        };
        let changes = match self.unstored {
            true => "unstored changes",
            false => "no unstored changes",
        };
        format!("{spares}, {bads}, {latch}, {changes}")
    }
}

/// The first byte that is too large.
fn wrong(data: &[u8]) -> Option<String> {
    let most = MOST.into_iter().chain(iter::repeat(0));
    let mut bytes = data.iter().zip(most).enumerate();
    let (place, (byte, most)) = bytes.find(|(_, (byte, most))| *byte > most)?;
    Some(format!("byte {place} is {byte}, more than {most}"))
}

#[cfg(test)]
mod tests {
    use super::*;

    /// A block that begins with these bytes.
    fn block(first: [u8; 4]) -> [u8; 532] {
        let mut block = [0; 532];
        block[..4].copy_from_slice(&first);
        block
    }

    fn words(first: [u8; 4]) -> String {
        Health::read(&block(first)).expect("a health block").words()
    }

    #[test]
    fn each_byte_is_its_figure() {
        let health = |unused, bads, latch, unstored| {
            Ok(Health {
                unused,
                bads,
                latch,
                unstored,
            })
        };
        assert_eq!(
            Health::read(&block([31, 2, 0, 1])),
            health(31, 2, false, true)
        );
        assert_eq!(
            Health::read(&block([2, 31, 1, 0])),
            health(2, 31, true, false)
        );
    }

    #[test]
    fn none_one_and_many_in_words() {
        assert_eq!(
            words([32, 0, 0, 0]),
            "32 spares unused, no bad block, no latch, no unstored changes"
        );
        assert_eq!(
            words([1, 1, 1, 0]),
            "1 spare unused, 1 bad block, under the latch, no unstored changes"
        );
        assert_eq!(
            words([0, 100, 0, 1]),
            "no spare unused, 100 bad blocks, no latch, unstored changes"
        );
    }

    #[test]
    fn a_figure_that_is_too_large() {
        for (first, fault) in [
            ([33, 0, 0, 0], "byte 0 is 33, more than 32"),
            ([32, 101, 0, 0], "byte 1 is 101, more than 100"),
            ([32, 0, 2, 0], "byte 2 is 2, more than 1"),
            ([32, 100, 1, 255], "byte 3 is 255, more than 1"),
        ] {
            assert_eq!(Health::read(&block(first)), Err(String::from(fault)));
        }
    }

    #[test]
    fn a_byte_behind_the_figures() {
        for place in 4..532 {
            let mut block = block([31, 1, 0, 1]);
            block[place] = 1;
            let fault = format!("byte {place} is 1, more than 0");
            assert_eq!(Health::read(&block), Err(fault));
        }
    }
}
