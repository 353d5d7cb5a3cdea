//! What may come of an access that is awaited.

use crate::controller::{Awaited, Awaits, Phase, Stage, TRIAL_REREADS};
use crate::geometry::SECTOR_BYTES;
use crate::surface::{Access, Fate, Left, Outcome, Sectors, FATES};

/// The byte that CRC errors bring.
const WRONG: u8 = 0xEE;

/// How one access goes.
#[derive(Clone, Copy, Debug, PartialEq, Eq)]
pub enum Then {
    /// A read brings what is held, a write leaves its bytes.
    Good,
    /// A write is done and spoils the sector.
    Spoiling,
    Crc,
    Timeout,
    NoSettle,
    /// The power is cut.
    Cut(Fate),
}

impl Then {
    /// Gives the outcome by which the surface answers so; a write was sent these bytes.
    pub fn outcome(self, sectors: &Sectors, access: Access, sent: Vec<u8>) -> Outcome {
        match (self, access) {
            (Then::Good, Access::Read(sector)) => {
                let held = sectors.get(sector).expect("a sector not spoiled");
                Outcome::new(0, held.to_vec())
            }
            (Then::Good, Access::Write(_)) => Outcome::done(Left::Held(sent)),
            (Then::Spoiling, _) => Outcome::done(Left::Spoiled),
            (Then::Crc, _) => Outcome::new(1, vec![WRONG; SECTOR_BYTES]),
            (Then::Timeout, _) => Outcome::new(2, vec![]),
            (Then::NoSettle, _) => Outcome::new(3, vec![]),
            (Then::Cut(_), _) => unreachable!("a cut is no answer"),
        }
    }
}

/// Some accesses that all go one way, and then one more.
#[derive(Clone, Copy, Debug, PartialEq, Eq)]
pub struct Choice {
    pub lead: Then,
    pub before: u32,
    pub then: Then,
}

impl Choice {
    /// Makes the choice of one access.
    fn one(then: Then) -> Choice {
        Choice {
            lead: then,
            before: 0,
            then,
        }
    }

    /// Says what it is, for messages.
    pub fn words(self) -> String {
        match self.before {
            0 => format!("{:?}", self.then),
            before => format!("{before} x {:?}, {:?}", self.lead, self.then),
        }
    }
}

/// Lists the choices in a phase in which an access is awaited. The sector is held or
/// spoiled, and the power may be cut or not.
pub fn all(phase: Phase, held: bool, cuts: bool) -> Vec<Choice> {
    match phase {
        Phase::Trying(_, trial) => match trial.awaits {
            Awaits::Write => of_write(cuts),
            Awaits::Reread(_) => of_rereads(held, cuts),
        },
        Phase::Starting { .. } => of_many_reads(10, held, cuts),
        Phase::Reading(_, reading) => match reading.stage {
            // Ten timeouts spend the 90.
            Stage::Further { .. } => of_many_reads(10, held, cuts),
            _ => of_read(held, cuts),
        },
        phase => match phase.awaited() {
            Some(Awaited::Write) => of_write(cuts),
            _ => of_read(held, cuts),
        },
    }
}

/// Lists those of a write.
fn of_write(cuts: bool) -> Vec<Choice> {
    let mut all = vec![Then::Good, Then::Spoiling, Then::Timeout, Then::NoSettle];
    if cuts {
        all.extend(FATES.map(Then::Cut));
    }
    all.into_iter().map(Choice::one).collect()
}

/// Lists those of a read.
fn of_read(held: bool, cuts: bool) -> Vec<Choice> {
    let mut all = vec![Then::Crc, Then::Timeout, Then::NoSettle];
    if held {
        all.push(Then::Good);
    }
    if cuts {
        all.push(Then::Cut(Fate::Old));
    }
    all.into_iter().map(Choice::one).collect()
}

/// Lists those of so many reads at most: a good one ends them, and so do answer 3 and a
/// cut.
fn of_many_reads(most: u32, held: bool, cuts: bool) -> Vec<Choice> {
    let timeouts = |before: u32, then: Then| Choice {
        lead: Then::Timeout,
        before,
        then,
    };
    let mut all = vec![
        timeouts(0, Then::NoSettle),
        timeouts(most - 1, Then::Timeout),
    ];
    if held {
        all.extend([0, 1].map(|before| timeouts(before, Then::Good)));
    }
    if cuts {
        all.extend([0, 1].map(|before| timeouts(before, Then::Cut(Fate::Old))));
    }
    all
}

/// Lists those of the rereads of a trial.
fn of_rereads(held: bool, cuts: bool) -> Vec<Choice> {
    let last = TRIAL_REREADS - 1;
    let lead = if held { Then::Good } else { Then::Timeout };
    let mut all = vec![Choice {
        lead: Then::Timeout,
        before: last,
        then: Then::Timeout,
    }];
    if held {
        all.push(Choice {
            lead: Then::Good,
            before: last,
            then: Then::Good,
        });
    }
    let ends = before_an_end(cuts).into_iter();
    all.extend(ends.map(|(before, then)| Choice { lead, before, then }));
    all
}

/// Says how many rereads come before answer 3 or a cut.
fn before_an_end(cuts: bool) -> Vec<(u32, Then)> {
    let last = TRIAL_REREADS - 1;
    let mut ends = vec![(0, Then::NoSettle), (last, Then::NoSettle)];
    if cuts {
        let cut = Then::Cut(Fate::Old);
        ends.extend([(0, cut), (last / 2, cut), (last, cut)]);
    }
    ends
}
