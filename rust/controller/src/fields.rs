//! The numbers in a record's words, by name: as `crates/packed` puts them there. For
//! tests and comparisons; a board needs none of it.

use crate::raw::{self, WORDS};

/// The most entries of the two lists.
pub const SPARES: usize = 32;
pub const BADS: usize = 100;

/// The entry of a dead spare.
pub const DEAD: u16 = 0xFFFE;

/// Where the lists and the causes begin.
const AT_SPARES: usize = 25;
const AT_BADS: usize = AT_SPARES + SPARES;
const AT_CAUSES: usize = AT_BADS + BADS;

/// The numbers of a phase. What a phase does not have is 0. A flag is 0 or 1; what
/// is not 0 is taken as 1. The detail of a store is the number of the ending that
/// waits for it. A trial's rereads are its detail, its failures are in spent, and
/// remembered has the three failures that it remembers; a write that is read back is
/// marked by first.
#[derive(Clone, Copy, Debug, Default, PartialEq, Eq)]
pub struct Stage {
    pub kind: u8,
    pub detail: u8,
    pub sector: u16,
    pub block: u16,
    pub left: u8,
    pub errors: u8,
    pub spent: u8,
    pub threshold: u8,
    pub first: u16,
    pub good: u16,
    pub spare: u16,
    pub crc: u16,
    pub timeout: u16,
    pub remembered: u16,
}

/// The marks, each 0 or 1. Moved is that some block's place is unstored.
#[derive(Clone, Copy, Debug, Default, PartialEq, Eq)]
pub struct Flags {
    pub known: u16,
    pub changed: u16,
    pub moved: u16,
    pub latch: u16,
    pub fresh: u16,
}

/// All numbers of a record.
#[derive(Clone, Copy, Debug, PartialEq, Eq)]
pub struct Fields {
    pub flags: Flags,
    pub stage: Stage,
    pub count: u16,
    pub fed: u16,
    pub command: [u8; 6],
    pub run: u32,
    pub nspares: u16,
    pub nbads: u16,
    pub spares: [u16; SPARES],
    pub bads: [u16; BADS],
    pub causes: [u16; SPARES],
}

impl Stage {
    /// Reads them off a record's words.
    fn of(words: &[u16; WORDS]) -> Stage {
        let [kind, detail] = words[4].to_le_bytes();
        let [left, errors] = words[7].to_le_bytes();
        let [spent, threshold] = words[8].to_le_bytes();
        Stage {
            kind,
            detail,
            sector: words[5],
            block: words[6],
            left,
            errors,
            spent,
            threshold,
            first: words[9],
            good: words[10],
            spare: words[11],
            crc: words[12],
            timeout: words[13],
            remembered: words[19],
        }
    }
}

impl Fields {
    /// Those of the record that was never started.
    pub const NEW: Fields = Fields {
        flags: Flags {
            known: 0,
            changed: 0,
            moved: 0,
            latch: 0,
            fresh: 0,
        },
        stage: Stage {
            kind: 0,
            detail: 0,
            sector: 0,
            block: 0,
            left: 0,
            errors: 0,
            spent: 0,
            threshold: 0,
            first: 0,
            good: 0,
            spare: 0,
            crc: 0,
            timeout: 0,
            remembered: 0,
        },
        count: 0,
        fed: 0,
        command: [0; 6],
        run: 0,
        nspares: 0,
        nbads: 0,
        spares: [0; SPARES],
        bads: [0; BADS],
        causes: [0; SPARES],
    };

    /// Reads them off a record.
    pub fn of(drive: &raw::Drive) -> Fields {
        let words = &drive.words;
        let mut command = [0; 6];
        for (pair, word) in command.chunks_mut(2).zip(&words[16..]) {
            pair.copy_from_slice(&word.to_le_bytes());
        }
        Fields {
            flags: Flags {
                known: words[0],
                changed: words[1],
                moved: words[22],
                latch: words[2],
                fresh: words[3],
            },
            stage: Stage::of(words),
            count: words[14],
            fed: words[15],
            command,
            run: u32::from(words[20]) + (u32::from(words[21]) << 16),
            nspares: words[23],
            nbads: words[24],
            spares: core::array::from_fn(|place| words[AT_SPARES + place]),
            bads: core::array::from_fn(|place| words[AT_BADS + place]),
            causes: core::array::from_fn(|place| words[AT_CAUSES + place]),
        }
    }

    /// Makes the record of these numbers.
    pub fn record(&self) -> raw::Drive {
        let (flags, stage) = (&self.flags, &self.stage);
        let pair = |low, high| u16::from_le_bytes([low, high]);
        let mut words = [0; WORDS];
        words[..AT_SPARES].copy_from_slice(&[
            flags.known,
            flags.changed,
            flags.latch,
            flags.fresh,
            pair(stage.kind, stage.detail),
            stage.sector,
            stage.block,
            pair(stage.left, stage.errors),
            pair(stage.spent, stage.threshold),
            stage.first,
            stage.good,
            stage.spare,
            stage.crc,
            stage.timeout,
            self.count,
            self.fed,
            pair(self.command[0], self.command[1]),
            pair(self.command[2], self.command[3]),
            pair(self.command[4], self.command[5]),
            stage.remembered,
            // The low and the high half.
            self.run as u16,
            (self.run >> 16) as u16,
            flags.moved,
            self.nspares,
            self.nbads,
        ]);
        words[AT_SPARES..AT_BADS].copy_from_slice(&self.spares);
        words[AT_BADS..AT_CAUSES].copy_from_slice(&self.bads);
        words[AT_CAUSES..].copy_from_slice(&self.causes);
        raw::Drive { words }
    }

    /// The spare list; none if the count is more than there are places.
    pub fn spare_list(&self) -> Option<&[u16]> {
        self.spares.get(..self.nspares.into())
    }

    /// The causes of its entries, likewise.
    pub fn cause_list(&self) -> Option<&[u16]> {
        self.causes.get(..self.nspares.into())
    }

    /// The bad list, likewise.
    pub fn bad_list(&self) -> Option<&[u16]> {
        self.bads.get(..self.nbads.into())
    }
}

#[cfg(test)]
mod tests {
    use super::*;

    /// Each word with another number.
    #[test]
    fn every_word_has_a_name() {
        let words = core::array::from_fn(|place| (place as u16 + 1) * 257);
        let drive = raw::Drive { words };
        assert_eq!(Fields::of(&drive).record(), drive);
        assert_eq!(Fields::NEW.record(), raw::Drive::NEW);
        assert_eq!(Fields::of(&raw::Drive::NEW), Fields::NEW);
    }
}
