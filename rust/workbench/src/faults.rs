//! What the surface is ordered to do: faults planned sector by sector, and random
//! ones at a stated rate.

mod random;

use std::collections::{BTreeSet, HashMap, VecDeque};

use reference::geometry::Sector;

use crate::board::Purpose;
pub use random::{Random, Share, NONE};

/// What one access is ordered to do.
#[derive(Clone, Copy, Debug, PartialEq, Eq)]
pub enum Effect {
    Good,
    /// A read brings its bytes damaged.
    Crc,
    Timeout,
    NoSettle,
    /// A write is done and leaves its sector unreadable.
    Unreadable,
}

/// Which accesses of a sector are meant. A store is a write of sector 4960.
#[derive(Clone, Copy, Debug, PartialEq, Eq)]
pub enum Kind {
    /// All reads, those of trials too.
    Reads,
    /// The reads of trials alone.
    Rereads,
    Writes,
}

impl Kind {
    /// Says whether accesses for this purpose are meant.
    fn covers(self, purpose: Purpose) -> bool {
        match self {
            Kind::Reads => purpose.reads(),
            Kind::Rereads => purpose == Purpose::Reread,
            Kind::Writes => !purpose.reads(),
        }
    }
}

/// A planned fault: what it orders for each access that it is asked about.
#[derive(Clone, Debug, PartialEq, Eq)]
pub enum Fault {
    /// The effects in turn, each so many times, once at least; then nothing more.
    InTurn(VecDeque<(u32, Effect)>),
    /// All from now on.
    All(Effect),
    /// Of every `of` accesses `fails`, evenly spread: of any `of` in a row exactly so
    /// many. `seen` counts those it was asked about, from 0 again after `of`.
    Spread {
        fails: u32,
        of: u32,
        seen: u32,
        effect: Effect,
    },
}

impl Fault {
    /// The next so many accesses, one at least.
    pub fn next(times: u32, effect: Effect) -> Fault {
        Fault::InTurn(VecDeque::from([(times, effect)]))
    }

    /// Of every `of` accesses `fails`, `of` not 0.
    pub fn spread(fails: u32, of: u32, effect: Effect) -> Fault {
        Fault::Spread {
            fails,
            of,
            seen: 0,
            effect,
        }
    }

    /// Says whether it orders nothing more, ever.
    fn is_used_up(&self) -> bool {
        matches!(self, Fault::InTurn(turns) if turns.is_empty())
    }

    /// What it orders for the next access, nothing if it lets it pass.
    fn order(&mut self) -> Option<Effect> {
        match self {
            Fault::InTurn(turns) => {
                let (times, effect) = turns.front_mut()?;
                let effect = *effect;
                *times -= 1;
                if *times == 0 {
                    turns.pop_front();
                }
                Some(effect)
            }
            Fault::All(effect) => Some(*effect),
            Fault::Spread {
                fails,
                of,
                seen,
                effect,
            } => {
                let due = |seen: u32| u64::from(seen) * u64::from(*fails) / u64::from(*of);
                let is_due = due(*seen + 1) > due(*seen);
                *seen = (*seen + 1) % *of;
                is_due.then_some(*effect)
            }
        }
    }
}

/// All that was ordered.
#[derive(Clone, Debug, Default)]
pub struct Faults {
    /// Those of each sector's reads, and those of its writes, in the order of their lines;
    /// none is used up.
    planned: HashMap<(Sector, bool), VecDeque<(Kind, Fault)>>,
    random: Option<Random>,
    /// Random faults that no line of a plan ordered.
    beside: Option<Random>,
}

impl Faults {
    /// Plans one more fault, to be asked after those that this sector has.
    pub fn add(&mut self, sector: Sector, kind: Kind, fault: Fault) {
        let reads = kind != Kind::Writes;
        let planned = self.planned.entry((sector, reads)).or_default();
        planned.push_back((kind, fault));
    }

    /// From now on random faults come too, these and no others.
    pub fn set_random(&mut self, random: Random) {
        self.random = Some(random);
    }

    /// Sets random faults that come beside those of a plan.
    pub fn set_beside(&mut self, random: Random) {
        self.beside = Some(random);
    }

    /// Returns the random faults that come beside those of a plan.
    pub fn beside(&self) -> Option<&Random> {
        self.beside.as_ref()
    }

    /// Returns the sectors that died of random faults, in their order.
    pub fn dead(&self) -> Vec<Sector> {
        let random = self.random.iter().chain(&self.beside);
        let dead: BTreeSet<Sector> = random.flat_map(Random::dead).collect();
        dead.into_iter().collect()
    }

    /// Forgets all faults that a plan ordered, random ones too.
    pub fn clear(&mut self) {
        let beside = self.beside.take();
        *self = Faults {
            beside,
            ..Faults::default()
        };
    }

    /// Forgets what was planned for a sector.
    pub fn clear_sector(&mut self, sector: Sector) {
        for reads in [true, false] {
            self.planned.remove(&(sector, reads));
        }
    }

    /// What this access is ordered to do: what the first planned fault says that
    /// does not let it pass, else a random fault, one of the plan first, else good.
    pub fn order(&mut self, purpose: Purpose, sector: Sector) -> Effect {
        self.planned(purpose, sector)
            .or_else(|| self.random.as_mut()?.order(purpose, sector))
            .or_else(|| self.beside.as_mut()?.order(purpose, sector))
            .unwrap_or(Effect::Good)
    }

    /// Gives what the first planned fault says that does not let the access pass. Forgets
    /// one that is used up by it.
    fn planned(&mut self, purpose: Purpose, sector: Sector) -> Option<Effect> {
        let planned = self.planned.get_mut(&(sector, purpose.reads()))?;
        let numbered = planned.iter_mut().enumerate();
        let mut meant = numbered.filter(|(_, (kind, _))| kind.covers(purpose));
        let (place, effect) =
            meant.find_map(|(place, (_, fault))| Some((place, fault.order()?)))?;
        if planned[place].1.is_used_up() {
            planned.remove(place);
        }
        Some(effect)
    }
}

#[cfg(test)]
mod tests {
    use super::*;

    fn sector(number: u32) -> Sector {
        Sector::new(number).expect("a sector")
    }

    /// What the next reads of sector 17 are ordered to do.
    fn reads(faults: &mut Faults, count: usize) -> Vec<Effect> {
        (0..count)
            .map(|_| faults.order(Purpose::Read, sector(17)))
            .collect()
    }

    /// How many of the next rereads of sector 17 are ordered to fail.
    fn failing(faults: &mut Faults, count: usize) -> usize {
        let rereads = (0..count).map(|_| faults.order(Purpose::Reread, sector(17)));
        rereads.filter(|&effect| effect != Good).count()
    }

    fn with(planned: &[Fault]) -> Faults {
        let mut faults = Faults::default();
        for fault in planned {
            faults.add(sector(17), Kind::Reads, fault.clone());
        }
        faults
    }

    use Effect::{Crc, Good, NoSettle, Timeout};

    #[test]
    fn the_next_so_many() {
        let mut faults = with(&[Fault::next(2, Crc)]);
        assert_eq!(reads(&mut faults, 4), [Crc, Crc, Good, Good]);
    }

    #[test]
    fn used_up_faults_are_forgotten() {
        let mut faults = with(&vec![Fault::next(1, Crc); 20_000]);
        let turns = VecDeque::from([(1, Timeout), (2, Good)]);
        faults.add(sector(17), Kind::Writes, Fault::InTurn(turns));
        faults.add(sector(17), Kind::Reads, Fault::spread(1, 2, Timeout));
        assert_eq!(reads(&mut faults, 20_000), [Crc; 20_000]);
        let left = |faults: &Faults| faults.planned.values().map(VecDeque::len).sum::<usize>();
        assert_eq!(left(&faults), 2);
        let mut write = || faults.order(Purpose::Write, sector(17));
        assert_eq!([write(), write(), write()], [Timeout, Good, Good]);
        assert_eq!(left(&faults), 1);
        assert_eq!(reads(&mut faults, 4), [Good, Timeout, Good, Timeout]);
    }

    #[test]
    fn all_from_now_on() {
        let mut faults = with(&[Fault::All(Timeout)]);
        assert_eq!(reads(&mut faults, 300), [Timeout; 300]);
    }

    #[test]
    fn every_third() {
        let mut faults = with(&[Fault::spread(1, 3, NoSettle)]);
        assert_eq!(
            reads(&mut faults, 7),
            [Good, Good, NoSettle, Good, Good, NoSettle, Good]
        );
    }

    #[test]
    fn of_any_hundred_in_a_row_so_many_fail() {
        for fails in [0, 1, 30, 31, 50, 99, 100] {
            let mut faults = Faults::default();
            let fault = Fault::spread(fails, 100, Crc);
            faults.add(sector(17), Kind::Rereads, fault);
            failing(&mut faults, 37);
            for _ in 0..3 {
                assert_eq!(failing(&mut faults, 100), fails as usize);
            }
        }
    }

    #[test]
    fn a_share_of_the_most_that_can_be_said() {
        let mut faults = with(&[Fault::spread(u32::MAX, u32::MAX, Crc)]);
        assert_eq!(reads(&mut faults, 3), [Crc; 3]);
        let mut faults = with(&[Fault::spread(1, u32::MAX, Crc)]);
        assert_eq!(reads(&mut faults, 3), [Good; 3]);
    }

    #[test]
    fn faults_of_rereads_leave_other_reads_alone() {
        let mut faults = Faults::default();
        faults.add(sector(17), Kind::Rereads, Fault::next(2, Crc));
        assert_eq!(reads(&mut faults, 3), [Good; 3]);
        assert_eq!(failing(&mut faults, 5), 2);
    }

    #[test]
    fn faults_of_reads_and_rereads_are_asked_in_the_order_of_their_lines() {
        let mut faults = Faults::default();
        faults.add(sector(17), Kind::Reads, Fault::next(2, Timeout));
        faults.add(sector(17), Kind::Rereads, Fault::All(Crc));
        let mut next = |purpose| faults.order(purpose, sector(17));
        assert_eq!(next(Purpose::Reread), Timeout);
        assert_eq!(next(Purpose::Read), Timeout);
        assert_eq!(next(Purpose::Read), Good);
        assert_eq!(next(Purpose::Reread), Crc);
    }

    #[test]
    fn one_after_another() {
        let turns = VecDeque::from([(1, Crc), (2, Good), (1, Timeout)]);
        let mut faults = with(&[Fault::InTurn(turns), Fault::All(Crc)]);
        // The first fault's `good` hides the access from the second.
        assert_eq!(reads(&mut faults, 6), [Crc, Good, Good, Timeout, Crc, Crc]);
    }

    #[test]
    fn an_access_that_was_answered_is_not_counted_again() {
        let every = Fault::spread(1, 2, Timeout);
        let mut faults = with(&[Fault::next(3, Crc), every]);
        assert_eq!(
            reads(&mut faults, 7),
            [Crc, Crc, Crc, Good, Timeout, Good, Timeout]
        );
    }

    #[test]
    fn other_sectors_and_writes_are_left_alone() {
        let mut faults = with(&[Fault::All(Crc)]);
        assert_eq!(faults.order(Purpose::Read, sector(16)), Good);
        assert_eq!(faults.order(Purpose::Write, sector(17)), Good);
        assert_eq!(faults.order(Purpose::TrialWrite, sector(17)), Good);
        assert_eq!(faults.order(Purpose::Reread, sector(17)), Crc);
        assert_eq!(reads(&mut faults, 1), [Crc]);
        faults.add(sector(17), Kind::Writes, Fault::All(Timeout));
        faults.clear_sector(sector(17));
        assert_eq!(reads(&mut faults, 1), [Good]);
        assert_eq!(faults.order(Purpose::Write, sector(17)), Good);
    }

    /// Random faults at every access.
    fn always(seed: u64, dying: Share) -> Random {
        Random::new(seed, Share { some: 1, of: 1 }, dying)
    }

    #[test]
    fn a_plan_clears_its_own_random_faults_alone() {
        let mut faults = Faults::default();
        faults.set_random(always(7, NONE));
        assert_ne!(reads(&mut faults, 10), [Good; 10]);
        faults.clear();
        assert_eq!(reads(&mut faults, 10), [Good; 10]);
        faults.set_beside(always(7, NONE));
        faults.add(sector(17), Kind::Reads, Fault::next(2, Good));
        assert_eq!(reads(&mut faults, 3)[..2], [Good; 2]);
        faults.clear();
        assert!(!reads(&mut faults, 10).contains(&Good));
        assert_eq!(faults.beside().map(Random::faults), Some(11));
    }

    #[test]
    fn sectors_die_of_either_kind_of_random_faults() {
        let mut faults = Faults::default();
        assert_eq!(faults.dead(), []);
        let dying = Share { some: 1, of: 1 };
        faults.set_random(always(7, dying));
        faults.order(Purpose::Read, sector(18));
        faults.set_beside(always(7, dying));
        faults.order(Purpose::Read, sector(17));
        assert_eq!(faults.dead(), [sector(17), sector(18)]);
        faults.clear();
        faults.order(Purpose::Read, sector(9));
        assert_eq!(faults.dead(), [sector(9)]);
    }
}
