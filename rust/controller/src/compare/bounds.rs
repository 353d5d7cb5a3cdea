//! Records for code 1, clause by clause: in every phase sound ones with full
//! lists, and such as differ from them in the numbers of one clause.

use std::vec::Vec;

use super::damage;
use crate::fields::{Fields, BADS, DEAD, SPARES};
use crate::raw::kind;

/// The numbers after the last block and the last sector.
const NO_BLOCK: u16 = 9728;
const NO_SECTOR: u16 = 9792;

const LAST_SPARE: u16 = 4959;

/// Makes the records of every clause in every phase.
pub fn records() -> Vec<Fields> {
    let mut records = Vec::new();
    for sound in damage::sound_ones().into_iter().map(full) {
        let mut made = Made { sound, records };
        made.with(|_| {});
        made.spare_list();
        made.causes();
        made.bad_list();
        made.numbers();
        made.access();
        records = made.records;
    }
    records
}

/// Returns the record with its lists as long as they can be.
fn full(mut drive: Fields) -> Fields {
    drive.nbads = BADS as u16;
    drive.nspares = SPARES as u16;
    if drive.stage.spare == 1 {
        drive.nspares -= 1;
        drive.stage.sector = LAST_SPARE;
    }
    drive
}

/// A sound record, and what was made of it and others.
struct Made {
    sound: Fields,
    records: Vec<Fields>,
}

impl Made {
    /// Makes a record with a change.
    fn with(&mut self, change: impl Fn(&mut Fields)) {
        let mut drive = self.sound;
        change(&mut drive);
        self.records.push(drive);
    }

    fn spare_list(&mut self) {
        let last = usize::from(self.sound.nspares) - 1;
        for place in [0, last] {
            for entry in [NO_BLOCK - 1, NO_BLOCK, DEAD - 1, DEAD, DEAD + 1] {
                self.with(|drive| drive.spares[place] = entry);
            }
        }
        for (one, other) in [(0, 1), (0, last), (last - 1, last)] {
            self.with(|drive| drive.spares[other] = drive.spares[one]);
        }
        self.with(|drive| drive.spares = [DEAD; SPARES]);
        for entry in [NO_BLOCK, self.sound.spares[0]] {
            self.with(|drive| {
                drive.nspares = SPARES as u16 - 1;
                drive.spares[SPARES - 1] = entry;
            });
        }
        if self.sound.stage.spare == 0 {
            self.with(|drive| drive.nspares = SPARES as u16 + 1);
        }
    }

    fn causes(&mut self) {
        let last = usize::from(self.sound.nspares) - 1;
        for place in [0, last] {
            for cause in [3, 4, 256] {
                self.with(|drive| drive.causes[place] = cause);
            }
        }
        for cause in [4, 256] {
            self.with(|drive| {
                drive.nspares = SPARES as u16 - 1;
                drive.causes[SPARES - 1] = cause;
            });
        }
    }

    fn bad_list(&mut self) {
        let last = BADS - 1;
        for place in [0, last] {
            for entry in [NO_BLOCK - 1, NO_BLOCK, DEAD - 1, DEAD, DEAD + 1] {
                self.with(|drive| drive.bads[place] = entry);
            }
        }
        for (one, other) in [(0, 1), (0, last), (last - 1, last)] {
            self.with(|drive| drive.bads[other] = drive.bads[one]);
        }
        for entry in [NO_BLOCK, self.sound.bads[0]] {
            self.with(|drive| {
                drive.nbads = last as u16;
                drive.bads[last] = entry;
            });
        }
        self.with(|drive| drive.nbads = BADS as u16 + 1);
        self.with(|drive| drive.bads[0] = drive.spares[0]);
    }

    /// Counts of bytes, whether there is a table, and the marks of unstored changes.
    fn numbers(&mut self) {
        for count in [6, 7] {
            self.with(|drive| drive.count = count);
        }
        for fed in [533, 534] {
            self.with(|drive| drive.fed = fed);
        }
        for known in [0, 1] {
            self.with(|drive| drive.flags.known = known);
        }
        for changed in [0, 1] {
            self.with(|drive| (drive.flags.changed, drive.flags.moved) = (changed, 1));
        }
    }

    /// Adds the records of the awaited access's clauses.
    fn access(&mut self) {
        match self.sound.stage.kind {
            kind::START => self.details([10, 11]),
            kind::STORE => {
                self.details([0, 9]);
                self.with(|drive| drive.stage.errors = 255);
            }
            kind::READ => {
                self.rereads();
                self.block();
                self.sector();
            }
            kind::WRITE | kind::VERIFY => {
                self.block();
                self.sector();
            }
            kind::TRIAL_WRITE | kind::TRIAL_READ => {
                self.details([100, 101]);
                self.failures();
                self.with(|drive| drive.stage.errors = 255);
                self.block();
                match self.sound.stage.spare {
                    0 => self.sector(),
                    _ => self.trial(),
                }
            }
            _ => {}
        }
    }

    fn details(&mut self, details: [u8; 2]) {
        for detail in details {
            self.with(|drive| drive.stage.detail = detail);
        }
    }

    fn rereads(&mut self) {
        let inside = [(0, 255), (100, 155), (254, 1), (255, 0)];
        let outside = [(1, 255), (100, 156), (255, 1)];
        for (errors, left) in inside.into_iter().chain(outside) {
            self.with(|drive| (drive.stage.errors, drive.stage.left) = (errors, left));
        }
        for spent in [89, 90] {
            self.with(|drive| drive.stage.spent = spent);
        }
    }

    /// A trial's failures beside its rereads.
    fn failures(&mut self) {
        let inside = [(0, 0), (50, 50), (100, 100)];
        let outside = [(1, 0), (51, 50), (101, 100)];
        for (failures, rereads) in inside.into_iter().chain(outside) {
            self.with(|drive| (drive.stage.spent, drive.stage.detail) = (failures, rereads));
        }
    }

    fn block(&mut self) {
        for block in [NO_BLOCK - 1, NO_BLOCK] {
            self.with(|drive| drive.stage.block = block);
        }
    }

    fn sector(&mut self) {
        for sector in [NO_SECTOR - 1, NO_SECTOR] {
            self.with(|drive| drive.stage.sector = sector);
        }
    }

    /// The next unused spare, the one before it and the one after it; with none
    /// unused the last spare and the sector after it.
    fn trial(&mut self) {
        for (listed, sectors) in [
            (0, 4927..=4929),
            (3, 4930..=4932),
            (31, 4958..=4960),
            (32, 4959..=4960),
        ] {
            for sector in sectors {
                self.with(|drive| (drive.nspares, drive.stage.sector) = (listed, sector));
            }
        }
    }
}

#[cfg(test)]
mod tests;
