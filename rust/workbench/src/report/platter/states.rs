//! What each sector is at the end of a run.

use std::collections::BTreeSet;

use reference::geometry::{home, Block, Sector, BLOCKS, SECTORS, TABLE};

use super::super::told::Told;
use crate::picture::view::{State, Use, View, RESERVED_SECTORS};
use crate::table;

/// What the sectors are at the end of a run.
pub struct States {
    pub view: View,
    /// The sectors of bad blocks.
    pub bad: BTreeSet<u32>,
    /// The homes of blocks that moved.
    pub left: BTreeSet<u32>,
}

impl States {
    /// Looks at the end of a run.
    pub fn new(told: &Told) -> States {
        let view = View::new(told.table.as_ref(), &told.unreadable);
        let bad = view.bads.iter().map(|&block| view.sector_of(block));
        let left = view.moves.iter().map(|moved| home(moved.block).number());
        States {
            bad: bad.collect(),
            left: left.collect(),
            view,
        }
    }

    /// Lists the sectors of note: those that are not as they were made, and those where
    /// something went wrong.
    pub fn noted(&self, told: &Told) -> Vec<u32> {
        let sectors = told.log.sectors();
        let noted = |&sector: &u32| {
            let happened = sectors.get(sector).is_some_and(|story| story.noted);
            happened || self.is_changed(sector)
        };
        (0..SECTORS).filter(noted).collect()
    }

    /// Says whether a sector is not as it was made.
    pub fn is_changed(&self, sector: u32) -> bool {
        let used = RESERVED_SECTORS.contains(&sector)
            && matches!(
                self.view.use_of(sector),
                Use::Spare(_, State::Moved(_) | State::Dead)
            );
        used || self.left.contains(&sector)
            || self.bad.contains(&sector)
            || self.view.unreadable.contains(&sector)
    }

    /// Says in a few words what a sector is.
    pub fn short(&self, sector: u32) -> String {
        let mut words = vec![match self.view.use_of_any(sector) {
            Some(Use::Table) => String::from("the table"),
            Some(Use::Nothing) => String::from("no use"),
            Some(Use::Spare(k, State::Moved(block))) => {
                format!("spare {k}, block {}", block.number())
            }
            Some(Use::Spare(k, State::Dead)) => format!("spare {k}, dead"),
            Some(Use::Spare(k, _)) => format!("spare {k}"),
            None if self.left.contains(&sector) => String::from("its block moved"),
            None => home_block(sector).map_or(String::new(), |block| format!("block {block}")),
        }];
        words.extend(self.bad.contains(&sector).then(|| String::from("bad")));
        let unreadable = self.view.unreadable.contains(&sector);
        words.extend(unreadable.then(|| String::from("unreadable")));
        words.join(", ")
    }

    /// Says in sentences what a sector is, which block it holds, and whether it is bad or
    /// unreadable.
    pub fn sentence(&self, sector: u32) -> String {
        let mut words = vec![match self.view.use_of_any(sector) {
            Some(kind) => self.reserved(kind),
            None => self.at_home(sector),
        }];
        if self.bad.contains(&sector) {
            words.push(String::from("Its block is in the bad list."));
        }
        words.push(String::from(match self.view.unreadable.contains(&sector) {
            true => "It is unreadable.",
            false => "It is readable.",
        }));
        words.join(" ")
    }

    fn reserved(&self, kind: Use) -> String {
        match kind {
            Use::Table => String::from("The table is stored here."),
            Use::Nothing => String::from("It is reserved, and has no use."),
            Use::Spare(k, State::Unknown) => {
                format!("It is spare {k}; no table says whether it is used.")
            }
            Use::Spare(k, State::Unused) => format!("It is spare {k}, and holds no block."),
            Use::Spare(k, state) => {
                let entry = self.view.entries[k];
                let cause = table::cause(entry.cause);
                match state {
                    State::Moved(block) => format!(
                        "It is spare {k}, and block {} lives here ({cause}).",
                        block.number()
                    ),
                    _ => format!("It is spare {k}, and dead ({cause})."),
                }
            }
        }
    }

    fn at_home(&self, sector: u32) -> String {
        let Some(number) = home_block(sector) else {
            return String::new();
        };
        let moved = self.view.moves.iter();
        let moved = moved.clone().find(|moved| moved.block.number() == number);
        match moved {
            Some(moved) => format!(
                "It is the home of block {number}, which lives in spare {} (sector {}) now.",
                moved.spare, moved.sector
            ),
            None if self.view.known => {
                format!("It is the home of block {number}, which lives here.")
            }
            None => format!("It is the home of block {number}; no table says where that lives."),
        }
    }
}

impl View {
    /// Says what a sector of the reserved cylinder is for.
    fn use_of_any(&self, sector: u32) -> Option<Use> {
        RESERVED_SECTORS
            .contains(&sector)
            .then(|| self.use_of(sector))
    }
}

/// Finds the block whose home a sector is.
pub fn home_block(sector: u32) -> Option<u32> {
    let behind = RESERVED_SECTORS.end - RESERVED_SECTORS.start;
    let candidates = [Some(sector), sector.checked_sub(behind)];
    let is_home = |number: &u32| {
        let found = Block::new(*number).map(home);
        *number < BLOCKS && found == Sector::new(sector)
    };
    candidates.into_iter().flatten().find(is_home)
}

/// Gives the class of a spare, and the words in its box.
pub fn spare(state: State) -> (&'static str, String) {
    match state {
        State::Unknown => ("unknown", String::from("unknown")),
        State::Unused => ("unused", String::from("unused")),
        State::Moved(block) => ("live", format!("block {}", block.number())),
        State::Dead => ("dead", String::from("dead")),
    }
}

/// The sector of the table.
pub fn table_sector() -> u32 {
    TABLE.number()
}

#[cfg(test)]
mod tests {
    use super::*;

    #[test]
    fn homes_and_their_blocks() {
        for (sector, block) in [
            (0, Some(0)),
            (17, Some(17)),
            (4927, Some(4927)),
            (4928, None),
            (4991, None),
            (4992, Some(4928)),
            (9791, Some(9727)),
        ] {
            assert_eq!(home_block(sector), block, "{sector}");
        }
    }
}
