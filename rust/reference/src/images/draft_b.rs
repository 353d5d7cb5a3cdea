//! A draft of an image of form B, whose parts can each be spoiled before the bytes
//! are laid out. It keeps to no rule and knows nothing of the reader.

use super::draft::Draft;
use crate::image::{three_bytes, DEAD, LENGTH};
use crate::rng::Rng;

/// Run numbers of all kinds.
const RUNS: [u32; 9] = [
    0,
    1,
    2,
    255,
    256,
    0x0001_0000,
    0x8000_0000,
    u32::MAX - 1,
    u32::MAX,
];

/// The parts of an image in their order. Zeros and the sum follow.
#[derive(Clone, Debug)]
pub struct DraftB {
    pub begin: [u8; 4],
    pub run: u32,
    pub spare_count: u16,
    pub spare_offset: u16,
    pub bad_count: u16,
    pub bad_offset: u16,
    /// Numbers and causes.
    pub spares: Vec<(u32, u8)>,
    pub bads: Vec<u32>,
}

impl DraftB {
    /// Takes this run number and these lists, with all else as it should be.
    pub fn new(run: u32, spares: &[(u32, u8)], bads: &[u32]) -> DraftB {
        let spare_count = u16::try_from(spares.len()).expect("few spares");
        DraftB {
            begin: [0xF0, 0x78, 0x3C, 0x1E],
            run,
            spare_count,
            spare_offset: 16,
            bad_count: u16::try_from(bads.len()).expect("few bad blocks"),
            bad_offset: 16 + 4 * spare_count,
            spares: spares.to_vec(),
            bads: bads.to_vec(),
        }
    }

    /// Makes a draft with a few entries of all kinds.
    pub fn small() -> DraftB {
        let spares = [(17, 1), (DEAD, 2), (4928, 0), (9000, 3), (256, 2)];
        DraftB::new(0x0102_0304, &spares, &[4927, 17, 8000, 1, 600])
    }

    /// Takes the lists of a draft of form A, with any run number and any causes.
    pub fn of(draft: &Draft, rng: &mut Rng) -> DraftB {
        let run = rng.pick(&RUNS);
        let cause = |number: &u32| (*number, rng.below(4) as u8);
        let spares: Vec<(u32, u8)> = draft.spares.iter().map(cause).collect();
        DraftB::new(run, &spares, &draft.bads)
    }

    /// Makes a well-formed draft of this many spares and bad blocks.
    pub fn of_size(rng: &mut Rng, spares: usize, bads: usize) -> DraftB {
        let draft = Draft::of_size(rng, spares, bads);
        DraftB::of(&draft, rng)
    }

    /// Makes a well-formed draft of any size, small ones being more frequent.
    pub fn of_any_size(rng: &mut Rng) -> DraftB {
        let draft = Draft::of_any_size(rng);
        DraftB::of(&draft, rng)
    }

    /// Makes the draft of form A with the same lists.
    pub fn form_a(&self) -> Draft {
        let spares: Vec<u32> = self.spares.iter().map(|(number, _)| *number).collect();
        Draft::new(&spares, &self.bads)
    }

    /// Lays out the bytes before the zeros.
    pub fn used(&self) -> Vec<u8> {
        let mut bytes = self.begin.to_vec();
        bytes.extend(self.run.to_be_bytes());
        for number in [
            self.spare_count,
            self.spare_offset,
            self.bad_count,
            self.bad_offset,
        ] {
            bytes.extend(number.to_be_bytes());
        }
        for (number, cause) in &self.spares {
            bytes.extend(three_bytes(*number));
            bytes.push(*cause);
        }
        bytes.extend(self.bads.iter().copied().flat_map(three_bytes));
        bytes
    }

    /// Lays out the 532 bytes with the right sum.
    pub fn bytes(&self) -> Vec<u8> {
        let mut bytes = self.used();
        assert!(bytes.len() <= LENGTH - 2, "the lists are too long");
        bytes.resize(LENGTH, 0);
        summed(bytes)
    }

    /// Makes a copy that is changed in some way.
    pub fn with(&self, change: impl FnOnce(&mut DraftB)) -> DraftB {
        let mut draft = self.clone();
        change(&mut draft);
        draft
    }
}

/// Adds up the right sum of an image.
pub fn right_sum(bytes: &[u8]) -> u16 {
    let before = &bytes[..LENGTH - 2];
    let all: u32 = before.iter().map(|&byte| u32::from(byte)).sum();
    (all % 65_536) as u16
}

/// Puts this sum into an image.
pub fn with_sum(mut bytes: Vec<u8>, sum: u16) -> Vec<u8> {
    bytes[LENGTH - 2..].copy_from_slice(&sum.to_be_bytes());
    bytes
}

/// Puts the right sum into an image.
pub fn summed(bytes: Vec<u8>) -> Vec<u8> {
    let sum = right_sum(&bytes);
    with_sum(bytes, sum)
}
