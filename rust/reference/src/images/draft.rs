//! A draft of an image of form A, whose parts can each be spoiled before the bytes are
//! laid out. It keeps to no rule and knows nothing of the reader.

use std::collections::HashSet;

use crate::geometry::BLOCKS;
use crate::image::form_a::{END, FIXED};
use crate::image::{three_bytes, DEAD, LENGTH};
use crate::rng::Rng;

/// The parts of an image in their order. Zeros follow.
#[derive(Clone, Debug)]
pub struct Draft {
    pub fixed: Vec<u8>,
    pub spare_count: u8,
    pub bad_count: u8,
    pub spares: Vec<u32>,
    pub spare_end: Vec<u8>,
    pub bads: Vec<u32>,
    pub bad_end: Vec<u8>,
}

impl Draft {
    /// These lists with all else as it should be.
    pub fn new(spares: &[u32], bads: &[u32]) -> Draft {
        Draft {
            fixed: FIXED.to_vec(),
            spare_count: u8::try_from(spares.len()).expect("few spares"),
            bad_count: u8::try_from(bads.len()).expect("few bad blocks"),
            spares: spares.to_vec(),
            spare_end: END.to_vec(),
            bads: bads.to_vec(),
            bad_end: END.to_vec(),
        }
    }

    /// A draft with a few entries of all kinds.
    pub fn small() -> Draft {
        Draft::new(&[17, DEAD, 4928, 9000, 256], &[4927, 17, 8000, 1, 600])
    }

    /// A well-formed draft of this many spares and bad blocks.
    pub fn of_size(rng: &mut Rng, spares: usize, bads: usize) -> Draft {
        let mut spares = distinct(rng, spares, 0, BLOCKS);
        let mut bads = distinct(rng, bads, 0, BLOCKS);
        // Now and then a spare's block is a bad block too.
        for (bad, spare) in (0..bads.len()).zip(&spares) {
            if rng.one_in(4) && !bads.contains(spare) {
                bads[bad] = *spare;
            }
        }
        for spare in &mut spares {
            if rng.one_in(5) {
                *spare = DEAD;
            }
        }
        Draft::new(&spares, &bads)
    }

    /// A well-formed draft of any size, small ones being more frequent.
    pub fn of_any_size(rng: &mut Rng) -> Draft {
        let most_spares = rng.pick(&[3, 6, 12, 32]);
        let most_bads = rng.pick(&[3, 6, 12, 12, 30, 100]);
        let spares = rng.place(most_spares + 1);
        let bads = rng.place(most_bads + 1);
        Draft::of_size(rng, spares, bads)
    }

    /// The bytes without the zeros at the end.
    pub fn used(&self) -> Vec<u8> {
        let mut bytes = self.fixed.clone();
        bytes.extend([self.spare_count, self.bad_count]);
        bytes.extend(self.spares.iter().copied().flat_map(three_bytes));
        bytes.extend(&self.spare_end);
        bytes.extend(self.bads.iter().copied().flat_map(three_bytes));
        bytes.extend(&self.bad_end);
        bytes
    }

    /// The 532 bytes.
    pub fn bytes(&self) -> Vec<u8> {
        let mut bytes = self.used();
        assert!(bytes.len() <= LENGTH, "the lists are too long for an image");
        bytes.resize(LENGTH, 0);
        bytes
    }

    /// A copy that was changed in some way.
    pub fn with(&self, change: impl FnOnce(&mut Draft)) -> Draft {
        let mut draft = self.clone();
        change(&mut draft);
        draft
    }
}

/// This many different numbers, each at least `from` and below `to`.
pub fn distinct(rng: &mut Rng, count: usize, from: u32, to: u32) -> Vec<u32> {
    let mut seen = HashSet::new();
    let mut numbers = Vec::new();
    while numbers.len() < count {
        let number = from + rng.below(to - from);
        if seen.insert(number) {
            numbers.push(number);
        }
    }
    numbers
}
