//! Random faults: at a stated rate, from a seed. Some of the sectors that they come to
//! die.

use std::collections::BTreeMap;

use reference::geometry::{Sector, TABLE};
use reference::rng::Rng;

use super::Effect;
use crate::board::Purpose;

/// A share: so many of so many, on average.
#[derive(Clone, Copy, Debug, PartialEq, Eq)]
pub struct Share {
    pub some: u32,
    /// Not 0.
    pub of: u32,
}

impl Share {
    /// Draws whether it is one of those. Nothing is drawn if there are none.
    fn draw(self, rng: &mut Rng) -> bool {
        self.some > 0 && rng.below(self.of) < self.some
    }
}

/// None of any number.
pub const NONE: Share = Share { some: 0, of: 1 };

/// How a sector died. Every further access of it fails.
#[derive(Clone, Copy, Debug, PartialEq, Eq)]
enum Death {
    /// Its bytes are gone: reads have CRC errors, and writes leave it unreadable.
    Bytes,
    /// Its header is gone: the sector is not found.
    Header,
}

impl Death {
    /// Returns the death by a fault. Heads that do not settle are no fault of the sector.
    fn by(fault: Effect) -> Option<Death> {
        match fault {
            Effect::Crc | Effect::Unreadable => Some(Death::Bytes),
            Effect::Timeout => Some(Death::Header),
            Effect::NoSettle | Effect::Good => None,
        }
    }

    /// Returns what an access of the dead sector does.
    fn effect(self, reads: bool) -> Effect {
        match (self, reads) {
            (Death::Header, _) => Effect::Timeout,
            (Death::Bytes, true) => Effect::Crc,
            (Death::Bytes, false) => Effect::Unreadable,
        }
    }
}

/// Random faults: so many accesses have one, on average. Of the sectors that meet one,
/// so many die of their first.
#[derive(Clone, Debug)]
pub struct Random {
    rng: Rng,
    rate: Share,
    dying: Share,
    /// The sectors that met a fault of their own, and whether they died of the first.
    struck: BTreeMap<Sector, Option<Death>>,
    faults: u64,
}

impl Random {
    /// Makes faults that come at this rate, and kill this share of the sectors.
    pub fn new(seed: u64, rate: Share, dying: Share) -> Random {
        Random {
            rng: Rng::new(seed),
            rate,
            dying,
            struck: BTreeMap::new(),
            faults: 0,
        }
    }

    /// Returns how many faults came. The failures of dead sectors are none.
    pub fn faults(&self) -> u64 {
        self.faults
    }

    /// Returns the sectors that died, in their order.
    pub fn dead(&self) -> impl Iterator<Item = Sector> + '_ {
        let dead = self.struck.iter().filter(|(_, death)| death.is_some());
        dead.map(|(sector, _)| *sector)
    }

    /// Returns what an access does: what its dead sector does, or a random fault.
    pub fn order(&mut self, purpose: Purpose, sector: Sector) -> Option<Effect> {
        if let Some(Some(death)) = self.struck.get(&sector) {
            return Some(death.effect(purpose.reads()));
        }
        if self.rng.below(self.rate.of) >= self.rate.some {
            return None;
        }
        let fault = self.fault(purpose.reads(), sector);
        self.faults += 1;
        self.strike(sector, fault);
        Some(fault)
    }

    /// Draws a fault. The table's sector is never made unreadable: without it there is no
    /// drive.
    fn fault(&mut self, reads: bool, sector: Sector) -> Effect {
        match (reads, self.rng.below(100)) {
            (_, 0) => Effect::NoSettle,
            (true, 1..=80) => Effect::Crc,
            (false, 1..=40) if sector != TABLE => Effect::Unreadable,
            _ => Effect::Timeout,
        }
    }

    /// Lets a sector die of its first fault, or not. The table's sector does not.
    fn strike(&mut self, sector: Sector, fault: Effect) {
        let Some(death) = Death::by(fault) else {
            return;
        };
        if sector != TABLE && !self.struck.contains_key(&sector) {
            let dies = self.dying.draw(&mut self.rng);
            self.struck.insert(sector, dies.then_some(death));
        }
    }
}

#[cfg(test)]
mod tests {
    use super::*;

    const ALWAYS: Share = Share { some: 1, of: 1 };

    fn sector(number: u32) -> Sector {
        Sector::new(number).expect("a sector")
    }

    fn share(some: u32, of: u32) -> Share {
        Share { some, of }
    }

    /// What an access of each of the first so many sectors does.
    fn each(random: &mut Random, purpose: Purpose, sectors: u32) -> Vec<Option<Effect>> {
        let orders = (0..sectors).map(|number| random.order(purpose, sector(number)));
        orders.collect()
    }

    #[test]
    fn the_table_stays_readable() {
        let mut random = Random::new(7, ALWAYS, ALWAYS);
        let mut met = |purpose, sectors: &[Sector]| {
            let effects = sectors.iter().map(|&sector| random.order(purpose, sector));
            effects.filter(|&e| e == Some(Effect::Unreadable)).count()
        };
        let others: Vec<Sector> = (0..1000).map(sector).collect();
        assert_eq!(met(Purpose::Store, &[TABLE; 1000]), 0);
        assert!(met(Purpose::Write, &others[..500]) > 100);
        assert!(met(Purpose::TrialWrite, &others[500..]) > 100);
        assert!(random.dead().all(|sector| sector != TABLE));
    }

    #[test]
    fn faults_come_at_their_rate_and_again_from_the_same_seed() {
        let ordered = || {
            let mut random = Random::new(7, share(1, 50), NONE);
            let reads = (0..10_000).map(|_| random.order(Purpose::Read, sector(17)));
            let reads: Vec<Option<Effect>> = reads.collect();
            (reads, random.faults())
        };
        let (effects, faults) = ordered();
        let count = effects.iter().flatten().count();
        assert!((150..250).contains(&count), "{count}");
        assert_eq!(faults, count as u64);
        assert!(!effects.contains(&Some(Effect::Unreadable)));
        assert_eq!(ordered(), (effects, faults));
    }

    #[test]
    fn a_dead_sector_fails_for_good() {
        let mut random = Random::new(3, ALWAYS, ALWAYS);
        let first = each(&mut random, Purpose::Read, 200);
        let reads = each(&mut random, Purpose::Reread, 200);
        let writes = each(&mut random, Purpose::TrialWrite, 200);
        let faults = random.faults();
        for ((first, read), write) in first.iter().zip(reads).zip(writes) {
            match first {
                Some(Effect::Crc) => {
                    assert_eq!((read, write), (*first, Some(Effect::Unreadable)))
                }
                Some(Effect::Timeout) => assert_eq!((read, write), (*first, *first)),
                other => assert_eq!(*other, Some(Effect::NoSettle)),
            }
        }
        // Only those that met heads that did not settle meet a fault of their own later.
        let unsettled = first
            .iter()
            .filter(|&&e| e == Some(Effect::NoSettle))
            .count();
        assert!(unsettled > 0 && random.dead().count() >= 200 - unsettled);
        assert!(faults <= 200 + 2 * unsettled as u64, "{faults}");
    }

    #[test]
    fn a_sector_that_survives_its_first_fault_never_dies() {
        let mut random = Random::new(5, ALWAYS, share(1, 4));
        for _ in 0..3 {
            each(&mut random, Purpose::Read, 1000);
        }
        let dead = random.dead().count();
        assert!((200..300).contains(&dead), "{dead}");
        for _ in 0..20 {
            each(&mut random, Purpose::Read, 1000);
        }
        // A few met nothing but no settles before.
        assert!(random.dead().count() <= dead + 2);
    }

    #[test]
    fn none_die_if_the_share_is_none() {
        let mut random = Random::new(5, ALWAYS, NONE);
        each(&mut random, Purpose::Write, 1000);
        assert_eq!(random.dead().count(), 0);
    }
}
