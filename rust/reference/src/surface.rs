//! A simulated surface (document 01, "Surface"): sectors that hold bytes or are
//! spoiled, and a random policy that answers accesses.
//!
//! The policy keeps the surface's rules unless it is told to lie.

use std::collections::BTreeMap;
use std::rc::Rc;

use crate::geometry::{Sector, SECTOR_BYTES};
use crate::rng::Rng;

/// What a sector holds.
pub type Bytes = Rc<[u8]>;

/// All sectors.
#[derive(Clone, Debug, Default, PartialEq, Eq, Hash)]
pub struct Sectors {
    /// Those that were changed; nothing stands for a spoiled one.
    changed: BTreeMap<Sector, Option<Bytes>>,
}

impl Sectors {
    /// Sectors of which each holds its own bytes: its number, then one byte
    /// over and over.
    pub fn new() -> Sectors {
        Sectors::default()
    }

    /// What a sector holds, if it is not spoiled.
    pub fn get(&self, sector: Sector) -> Option<Bytes> {
        match self.changed.get(&sector) {
            Some(held) => held.clone(),
            None => Some(found(sector)),
        }
    }

    /// Lets a sector hold these 532 bytes.
    pub fn hold(&mut self, sector: Sector, bytes: &[u8]) {
        assert_eq!(bytes.len(), SECTOR_BYTES, "a sector holds 532 bytes");
        self.changed.insert(sector, Some(Rc::from(bytes)));
    }

    /// Spoils a sector.
    pub fn spoil(&mut self, sector: Sector) {
        self.changed.insert(sector, None);
    }

    /// Does to the sector of an access what its outcome says.
    pub fn leave(&mut self, access: Access, left: &Left) {
        match left {
            Left::Alone => {}
            Left::Held(bytes) => self.hold(access.sector(), bytes),
            Left::Spoiled => self.spoil(access.sector()),
        }
    }
}

/// What a sector holds that was never changed.
fn found(sector: Sector) -> Bytes {
    let [.., high, low] = sector.number().to_be_bytes();
    let mut bytes = [(sector.number() % 251) as u8; SECTOR_BYTES];
    bytes[..2].copy_from_slice(&[high, low]);
    Rc::from(bytes)
}

/// One access that the controller asks for. A store is a write of 4960.
#[derive(Clone, Copy, Debug, PartialEq, Eq)]
pub enum Access {
    Read(Sector),
    Write(Sector),
}

impl Access {
    /// Its sector.
    pub fn sector(self) -> Sector {
        match self {
            Access::Read(sector) | Access::Write(sector) => sector,
        }
    }
}

/// What an access does to its sector.
#[derive(Clone, Debug, PartialEq, Eq)]
pub enum Left {
    Alone,
    Held(Vec<u8>),
    Spoiled,
}

/// How the surface answers an access.
#[derive(Clone, Debug, PartialEq, Eq)]
pub struct Outcome {
    pub answer: u8,
    pub bytes: Vec<u8>,
    pub left: Left,
}

impl Outcome {
    /// An answer that brings these bytes and leaves the sector alone.
    pub fn new(answer: u8, bytes: Vec<u8>) -> Outcome {
        let left = Left::Alone;
        Outcome {
            answer,
            bytes,
            left,
        }
    }

    /// A write that is done.
    pub fn done(left: Left) -> Outcome {
        Outcome {
            answer: 0,
            bytes: vec![],
            left,
        }
    }
}

/// Whether an outcome keeps the surface's rules; a write was sent these bytes.
pub fn obeys(sectors: &Sectors, access: Access, sent: &[u8], outcome: &Outcome) -> bool {
    let Outcome {
        answer,
        bytes,
        left,
    } = outcome;
    match (access, answer) {
        (Access::Read(sector), 0) => {
            let held = sectors.get(sector);
            *left == Left::Alone && held.is_some_and(|held| held[..] == bytes[..])
        }
        (Access::Read(_), 1) => *left == Left::Alone && bytes.len() == SECTOR_BYTES,
        (Access::Write(_), 0) => {
            let kept = match left {
                Left::Alone => false,
                Left::Held(held) => held[..] == sent[..],
                Left::Spoiled => true,
            };
            kept && bytes.is_empty()
        }
        (_, 2 | 3) => *left == Left::Alone && bytes.is_empty(),
        _ => false,
    }
}

/// What a power cut leaves of the one write that is pending (document 02, request 7).
#[derive(Clone, Copy, Debug, PartialEq, Eq, PartialOrd, Ord)]
pub enum Fate {
    /// What the sector held before.
    Old,
    /// The bytes that were sent.
    New,
    /// Nothing that can be read.
    Spoiled,
}

/// All fates.
pub const FATES: [Fate; 3] = [Fate::Old, Fate::New, Fate::Spoiled];

impl Fate {
    /// Gives what it does to the sector of a pending access, which a read leaves as it
    /// is; a write was sent these bytes.
    pub fn left(self, access: Access, sent: &[u8]) -> Left {
        match (access, self) {
            (Access::Read(_), _) | (_, Fate::Old) => Left::Alone,
            (Access::Write(_), Fate::New) => Left::Held(sent.to_vec()),
            (Access::Write(_), Fate::Spoiled) => Left::Spoiled,
        }
    }
}

/// Says whether a power cut may do this to the sector of a pending access.
pub fn cut_obeys(access: Access, sent: &[u8], left: &Left) -> bool {
    FATES.iter().any(|fate| fate.left(access, sent) == *left)
}

/// How the surface behaves for a while.
#[derive(Clone, Copy, Debug, PartialEq, Eq)]
pub enum Mood {
    /// All accesses are good, but for reads of spoiled sectors.
    Fine,
    /// Nearly all are.
    Calm,
    /// Half of the reads are.
    Rough,
    /// Of a trial's rereads about as many fail as just pass.
    Marginal,
    /// All writes are done, but no read is good.
    Blind,
    /// Reads are good, but no write is done.
    Stuck,
    /// Some sectors are as in `Blind`, the others as in `Calm`.
    Worn,
    /// No access is good.
    Dead,
    /// One read in seven is good, and one write in three is done.
    Faint,
    /// All writes are done, and all reads are CRC errors.
    Garbled,
}

/// Moods to turn to. Those that come more often stand there more often.
pub const MOODS: [Mood; 15] = [
    Mood::Calm,
    Mood::Calm,
    Mood::Calm,
    Mood::Marginal,
    Mood::Marginal,
    Mood::Marginal,
    Mood::Marginal,
    Mood::Rough,
    Mood::Rough,
    Mood::Worn,
    Mood::Worn,
    Mood::Worn,
    Mood::Stuck,
    Mood::Blind,
    Mood::Dead,
];

/// The policy that answers for the sectors.
#[derive(Clone, Debug)]
pub struct Policy {
    pub mood: Mood,
    /// The rules are broken now and then.
    pub lies: bool,
    /// What it turns to.
    pub moods: &'static [Mood],
    /// An access that gets no answer is a no settle once in so many times, else
    /// a timeout.
    pub no_settle: u32,
    rng: Rng,
}

impl Policy {
    /// A calm one that keeps the rules.
    pub fn new(seed: u64) -> Policy {
        Policy {
            mood: Mood::Calm,
            lies: false,
            moods: &MOODS,
            no_settle: 30,
            rng: Rng::new(seed),
        }
    }

    /// Another mood.
    pub fn turn(&mut self) {
        self.mood = self.rng.pick(self.moods);
    }

    /// How an access is answered. Nothing changes before `Sectors::leave`.
    pub fn answer(&mut self, sectors: &Sectors, access: Access, sent: &[u8]) -> Outcome {
        if self.lies && self.rng.one_in(6) {
            return self.lie(access, sent);
        }
        match access {
            Access::Read(sector) => self.read(sectors, sector),
            Access::Write(sector) => self.write(sector, sent),
        }
    }

    /// Out of 100: good and CRC for a read, done for a write. The rest get no
    /// answer.
    fn chances(&self, sector: Sector) -> (u32, u32, u32) {
        let weak = sector.number().is_multiple_of(3);
        match self.mood {
            Mood::Fine => (100, 0, 100),
            Mood::Calm => (96, 2, 98),
            Mood::Rough => (50, 35, 75),
            Mood::Marginal => (70, 25, 97),
            Mood::Blind => (0, 60, 100),
            Mood::Stuck => (70, 20, 0),
            Mood::Worn if weak => (0, 70, 80),
            Mood::Worn => (97, 2, 98),
            Mood::Dead => (0, 50, 0),
            Mood::Faint => (14, 60, 33),
            Mood::Garbled => (0, 100, 100),
        }
    }

    /// Chooses what a power cut leaves of an access that is pending.
    pub fn cut(&mut self, access: Access, sent: &[u8]) -> Left {
        if self.lies && self.rng.one_in(6) {
            return self.lie(access, sent).left;
        }
        self.rng.pick(&FATES).left(access, sent)
    }

    fn read(&mut self, sectors: &Sectors, sector: Sector) -> Outcome {
        let (good, crc, _) = self.chances(sector);
        let draw = self.rng.below(100);
        match sectors.get(sector) {
            Some(held) if draw < good => Outcome::new(0, held.to_vec()),
            held if draw < good + crc => Outcome::new(1, self.garbled(held)),
            _ => self.no_answer(),
        }
    }

    fn write(&mut self, sector: Sector, sent: &[u8]) -> Outcome {
        let (_, _, done) = self.chances(sector);
        if self.rng.below(100) >= done {
            return self.no_answer();
        }
        let mild = matches!(self.mood, Mood::Fine | Mood::Calm | Mood::Marginal);
        let spoils = self.rng.one_in(if mild { 40 } else { 6 });
        Outcome::done(match spoils {
            true => Left::Spoiled,
            false => Left::Held(sent.to_vec()),
        })
    }

    fn no_answer(&mut self) -> Outcome {
        let answer = if self.rng.one_in(self.no_settle) {
            3
        } else {
            2
        };
        Outcome::new(answer, vec![])
    }

    /// What a CRC error brings: any bytes.
    fn garbled(&mut self, held: Option<Bytes>) -> Vec<u8> {
        match held {
            Some(held) if self.rng.one_in(2) => {
                let mut bytes = held.to_vec();
                // Sometimes it is the right bytes after all.
                if !self.rng.one_in(4) {
                    let place = self.rng.place(SECTOR_BYTES);
                    bytes[place] = self.rng.other_byte(bytes[place]);
                }
                bytes
            }
            _ => plain_bytes(&mut self.rng),
        }
    }

    /// An outcome that breaks the rules, of a form that is not refused.
    fn lie(&mut self, access: Access, sent: &[u8]) -> Outcome {
        let other = plain_bytes(&mut self.rng);
        let mut outcome = match access {
            Access::Read(_) => match self.rng.below(3) {
                0 => self.no_answer(),
                1 => Outcome::new(1, other.clone()),
                _ => return Outcome::new(0, other),
            },
            Access::Write(_) => {
                let answer = self.rng.pick(&[0, 0, 2, 3]);
                Outcome::new(answer, vec![])
            }
        };
        outcome.left = match self.rng.below(3) {
            0 if outcome.answer != 0 => Left::Spoiled,
            1 if outcome.answer != 0 && !sent.is_empty() => Left::Held(sent.to_vec()),
            2 if outcome.answer == 0 => Left::Alone,
            _ => Left::Held(other),
        };
        outcome
    }
}

/// Other bytes that nearly are these: two of them swapped, one of them one more
/// and another one less, or one alone another.
pub fn near_miss(rng: &mut Rng, bytes: &[u8]) -> Vec<u8> {
    let mut near = bytes.to_vec();
    let (one, other) = (rng.place(bytes.len()), rng.place(bytes.len()));
    match rng.below(4) {
        0 => near.swap(one, other),
        1 => {
            near[one] = near[one].wrapping_add(1);
            near[other] = near[other].wrapping_sub(1);
        }
        _ => {}
    }
    if near == bytes {
        let place = telling_place(rng, bytes);
        near[place] = rng.other_byte(near[place]);
    }
    near
}

/// A place that a comparison may fail to look at: one that the stored scripts try,
/// the first of the zeros at the end, or any.
fn telling_place(rng: &mut Rng, bytes: &[u8]) -> usize {
    let last = bytes.len() - 1;
    let zeros = bytes
        .iter()
        .rposition(|&byte| byte != 0)
        .map_or(0, |at| at + 1);
    match rng.below(3) {
        0 => rng.pick(&[0, 265, 300, last]).min(last),
        1 => zeros.min(last),
        _ => rng.place(bytes.len()),
    }
}

/// Bytes for a sector that are written in few words: up to three runs.
pub fn plain_bytes(rng: &mut Rng) -> Vec<u8> {
    let mut bytes = vec![rng.byte(); SECTOR_BYTES];
    for _ in 0..rng.below(3) {
        let from = rng.place(SECTOR_BYTES);
        let byte = rng.byte();
        bytes[from..].fill(byte);
    }
    bytes
}

#[cfg(test)]
mod tests {
    use super::*;
    use std::collections::HashSet;

    fn sector(number: u32) -> Sector {
        Sector::new(number).expect("a sector")
    }

    #[test]
    fn every_sector_has_its_own_bytes() {
        let sectors = Sectors::new();
        let all: HashSet<Bytes> = (0..9792)
            .filter_map(|number| sectors.get(sector(number)))
            .collect();
        assert_eq!(all.len(), 9792);
    }

    #[test]
    fn rules_of_a_read() {
        let mut sectors = Sectors::new();
        let here = sector(17);
        let held = sectors.get(here).expect("held").to_vec();
        let read = |sectors: &Sectors, answer, bytes: &[u8]| {
            let outcome = Outcome::new(answer, bytes.to_vec());
            obeys(sectors, Access::Read(here), &[], &outcome)
        };
        assert!(read(&sectors, 0, &held));
        assert!(!read(&sectors, 0, &[7; 532]));
        assert!(read(&sectors, 1, &held));
        assert!(read(&sectors, 1, &[7; 532]));
        assert!(!read(&sectors, 1, &[]));
        assert!(read(&sectors, 2, &[]));
        assert!(!read(&sectors, 2, &held));
        assert!(read(&sectors, 3, &[]));
        assert!(!read(&sectors, 4, &[]));
        let changing = Outcome {
            left: Left::Spoiled,
            ..Outcome::new(2, vec![])
        };
        assert!(!obeys(&sectors, Access::Read(here), &[], &changing));
        sectors.spoil(here);
        assert!(!read(&sectors, 0, &held));
        assert!(read(&sectors, 1, &held));
    }

    #[test]
    fn rules_of_a_write() {
        let sectors = Sectors::new();
        let sent = vec![7; 532];
        let write = |answer, left: Left| {
            let outcome = Outcome {
                answer,
                bytes: vec![],
                left,
            };
            obeys(&sectors, Access::Write(sector(17)), &sent, &outcome)
        };
        assert!(write(0, Left::Held(sent.clone())));
        assert!(write(0, Left::Spoiled));
        assert!(!write(0, Left::Alone));
        assert!(!write(0, Left::Held(vec![8; 532])));
        assert!(!write(1, Left::Alone));
        for answer in [2, 3] {
            assert!(write(answer, Left::Alone));
            assert!(!write(answer, Left::Spoiled));
            assert!(!write(answer, Left::Held(sent.clone())));
        }
    }

    #[test]
    fn near_misses_differ_in_little() {
        let mut rng = Rng::new(13);
        let sum = |bytes: &[u8]| {
            bytes
                .iter()
                .fold(0, |sum: u8, &byte| sum.wrapping_add(byte))
        };
        let (mut ones, mut pairs) = (HashSet::new(), 0);
        for _ in 0..30_000 {
            let bytes = plain_bytes(&mut rng);
            let near = near_miss(&mut rng, &bytes);
            let places: Vec<usize> = (0..532).filter(|&at| bytes[at] != near[at]).collect();
            match places[..] {
                [place] => {
                    ones.insert(place);
                }
                [_, _] => {
                    assert_eq!(sum(&near), sum(&bytes));
                    pairs += 1;
                }
                _ => panic!("{places:?}"),
            }
        }
        assert_eq!(ones.len(), 532);
        assert!(pairs > 1000, "{pairs}");
        // With nothing to swap one byte is another.
        assert_ne!(near_miss(&mut rng, &[7]), [7]);
    }

    #[test]
    fn rules_of_a_cut() {
        let here = sector(17);
        let sent = [7; 532];
        let held = Left::Held(sent.to_vec());
        let other = Left::Held(vec![8; 532]);
        for (left, allowed) in [
            (&Left::Alone, true),
            (&held, true),
            (&Left::Spoiled, true),
            (&other, false),
        ] {
            assert_eq!(cut_obeys(Access::Write(here), &sent, left), allowed);
            // A read changes nothing.
            let alone = *left == Left::Alone;
            assert_eq!(cut_obeys(Access::Read(here), &sent, left), alone);
        }
        for (fate, left) in FATES.iter().zip([Left::Alone, held, Left::Spoiled]) {
            assert_eq!(fate.left(Access::Write(here), &sent), left);
            assert_eq!(fate.left(Access::Read(here), &sent), Left::Alone);
        }
    }

    /// How many of a thousand outcomes keep the rules.
    fn obedient(lies: bool) -> usize {
        let mut sectors = Sectors::new();
        let mut policy = Policy::new(11);
        policy.lies = lies;
        let mut rng = Rng::new(12);
        let mut count = 0;
        for _ in 0..1000 {
            if rng.one_in(20) {
                policy.turn();
            }
            let here = sector(rng.below(10));
            let sent = plain_bytes(&mut rng);
            let access = match rng.below(2) {
                0 => Access::Read(here),
                _ => Access::Write(here),
            };
            let outcome = policy.answer(&sectors, access, &sent);
            if obeys(&sectors, access, &sent, &outcome) {
                count += 1;
            }
            sectors.leave(access, &outcome.left);
        }
        count
    }

    #[test]
    fn the_policy_keeps_the_rules_unless_it_lies() {
        assert_eq!(obedient(false), 1000);
        let count = obedient(true);
        assert!((800..950).contains(&count), "{count}");
    }
}
