//! The baseline's table: the two lists, the causes and the run number.

use super::{BADS, BLOCKS, FIRST_SPARE, SPARES};

/// The entry of a dead spare.
pub const DEAD: u16 = 0xFFFE;

/// Why a spare's entry was made.
#[derive(Clone, Copy, Debug, Default, PartialEq, Eq)]
pub enum Cause {
    #[default]
    Unknown = 0,
    Crc = 1,
    Timeout = 2,
    NoSettle = 3,
}

#[derive(Clone, Debug)]
pub struct Table {
    pub spares: [u16; SPARES],
    pub causes: [u16; SPARES],
    pub bads: [u16; BADS],
    pub nspares: usize,
    pub nbads: usize,
    pub run: u32,
}

impl Table {
    /// A table with empty lists.
    pub const EMPTY: Table = Table {
        spares: [0; SPARES],
        causes: [0; SPARES],
        bads: [0; BADS],
        nspares: 0,
        nbads: 0,
        run: 0,
    };

    /// Says whether counts, lists and the causes in use are well formed.
    pub fn valid(&self) -> bool {
        self.nspares <= SPARES
            && self.nbads <= BADS
            && self.causes_in_use().iter().all(|&cause| cause <= 3)
            && list_ok(self.spare_list(), true)
            && list_ok(self.bad_list(), false)
    }

    pub fn spare_list(&self) -> &[u16] {
        &self.spares[..self.nspares]
    }

    pub fn bad_list(&self) -> &[u16] {
        &self.bads[..self.nbads]
    }

    pub fn causes_in_use(&self) -> &[u16] {
        &self.causes[..self.nspares]
    }

    /// The sector of the next unused spare.
    pub fn next_spare(&self) -> Option<u32> {
        (self.nspares < SPARES).then(|| FIRST_SPARE + self.nspares as u32)
    }

    pub fn spare_of(&self, block: u16) -> Option<usize> {
        self.spare_list().iter().position(|&entry| entry == block)
    }

    pub fn bad_at(&self, block: u16) -> Option<usize> {
        self.bad_list().iter().position(|&entry| entry == block)
    }

    pub fn sector(&self, block: u16) -> u32 {
        match self.spare_of(block) {
            Some(k) => FIRST_SPARE + k as u32,
            None if u32::from(block) < FIRST_SPARE => u32::from(block),
            None => u32::from(block) + 64,
        }
    }

    pub fn push_spare(&mut self, entry: u16, cause: Cause) {
        self.spares[self.nspares] = entry;
        self.causes[self.nspares] = cause as u16;
        self.nspares += 1;
    }

    /// Turns the entry of a spare dead.
    pub fn kill(&mut self, spare: usize, cause: Cause) {
        self.spares[spare] = DEAD;
        self.causes[spare] = cause as u16;
    }

    pub fn push_bad(&mut self, block: u16) {
        self.bads[self.nbads] = block;
        self.nbads += 1;
    }

    pub fn remove_bad(&mut self, at: usize) {
        self.bads.copy_within(at + 1..self.nbads, at);
        self.nbads -= 1;
    }
}

/// No block twice. Dead marks may repeat where they may stand.
fn list_ok(list: &[u16], marks: bool) -> bool {
    if list.is_empty() {
        return true;
    }
    let mut seen = [0u64; BLOCKS as usize / 64];
    for &entry in list {
        if entry >= BLOCKS {
            if marks && entry == DEAD {
                continue;
            }
            return false;
        }
        let (word, bit) = (usize::from(entry / 64), 1 << (entry % 64));
        if seen[word] & bit != 0 {
            return false;
        }
        seen[word] |= bit;
    }
    true
}
