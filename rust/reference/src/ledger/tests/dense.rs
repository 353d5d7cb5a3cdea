//! A ledger that keeps a line for every block, as the text has it, against the one that
//! keeps only what was touched: random lists, most of which no controller makes.

use super::*;
use crate::geometry::{home, spare, BLOCKS};
use crate::image::Spare;
use crate::rng::Rng;

/// The ledger with a line for every block.
struct Dense {
    sectors: Sectors,
    places: Vec<Option<Sector>>,
    candidates: Vec<Vec<Bytes>>,
    first: bool,
    imaged: bool,
    table_awaited: bool,
    offer: Option<Offer>,
    fed: Vec<u8>,
    data: Vec<u8>,
    acted: Option<Acted>,
    allowed: bool,
}

/// A command that was acted on.
struct Acted {
    opcode: u8,
    block: Option<usize>,
    bytes: Vec<u8>,
    accesses: Vec<(bool, Sector)>,
}

impl Dense {
    fn new(sectors: &Sectors) -> Dense {
        Dense {
            sectors: sectors.clone(),
            places: vec![None; BLOCKS as usize],
            candidates: vec![vec![]; BLOCKS as usize],
            first: true,
            imaged: false,
            table_awaited: true,
            offer: None,
            fed: vec![],
            data: vec![],
            acted: None,
            allowed: true,
        }
    }

    fn call(&mut self, call: &Call, answer: Answer, buffer: &[u8]) {
        if matches!(answer, Answer::Refused(_)) || matches!(call, Call::Image) {
            return;
        }
        match call {
            Call::Start => {
                let cut = self.acted.take();
                self.add(cut);
                self.offer = None;
                self.imaged = false;
            }
            Call::Reset | Call::Lower(0..=0x54 | 0x56..) => {
                self.acted = None;
                self.offer = None;
            }
            Call::Lower(_) => {
                if matches!(self.offer.take(), Some(Offer::Read | Offer::Act)) {
                    self.act();
                }
            }
            Call::Feed(bytes) => {
                self.fed.extend(bytes);
                self.data.extend(bytes);
            }
            Call::Surface(0, bytes) if self.table_awaited => self.image(bytes),
            _ => {}
        }
        self.hear(answer, buffer);
    }

    /// Adds the bytes of a write that asked for a write s.
    fn add(&mut self, acted: Option<Acted>) {
        let Some(acted) = acted else { return };
        let wrote = acted.accesses.iter().any(|(write, _)| *write);
        if let (1 | 2, Some(block), true) = (acted.opcode, acted.block, wrote) {
            self.candidates[block].push(Rc::from(acted.bytes));
        }
    }

    fn act(&mut self) {
        let mut bytes = self.data.clone();
        bytes.resize(SECTOR_BYTES, 0);
        let number = match self.fed[..] {
            [_, high, middle, low, ..] => u32::from_be_bytes([0, high, middle, low]),
            _ => u32::MAX,
        };
        self.acted = Some(Acted {
            opcode: self.fed.first().copied().unwrap_or(0xFF),
            block: Block::new(number).map(|block| block.number() as usize),
            bytes,
            accesses: vec![],
        });
    }

    fn image(&mut self, bytes: &[u8]) {
        let Ok((_, table)) = image::read(bytes) else {
            return;
        };
        self.imaged = true;
        for block in (0..BLOCKS).filter_map(Block::new) {
            let listed = |k: &usize| table.spares()[*k].spare == Spare::Moved(block);
            let spare_of = (0..table.spares().len()).find(listed).and_then(spare);
            let place = spare_of.unwrap_or(home(block));
            let line = block.number() as usize;
            self.places[line] = Some(place);
            if self.first {
                self.candidates[line] = self.sectors.get(place).into_iter().collect();
            }
        }
        self.first = false;
    }

    fn hear(&mut self, answer: Answer, buffer: &[u8]) {
        self.table_awaited = answer == Answer::Read(TABLE);
        match answer {
            Answer::Offer(offer) => {
                self.offer = Some(offer);
                match offer {
                    Offer::Command => self.fed.clear(),
                    Offer::Write | Offer::Verify => self.data.clear(),
                    _ => {}
                }
            }
            Answer::Read(sector) => self.access(false, sector),
            Answer::Write(sector) => self.access(true, sector),
            Answer::Finished => {
                if let Some(acted) = self.acted.take() {
                    self.report(acted, buffer);
                }
            }
            _ => {}
        }
    }

    fn access(&mut self, write: bool, sector: Sector) {
        let Some(acted) = &mut self.acted else { return };
        if acted.accesses.is_empty() {
            let place = acted.block.and_then(|block| self.places[block]);
            self.allowed &= place == Some(sector);
        }
        acted.accesses.push((write, sector));
    }

    fn report(&mut self, acted: Acted, buffer: &[u8]) {
        let Some(block) = acted.block else { return };
        let good = buffer[0] & 1 == 0;
        let read: Bytes = Rc::from(&buffer[STATUS..]);
        self.allowed &= !good || acted.opcode > 2 || self.imaged;
        let last_read = acted.accesses.iter().rev().find(|(write, _)| !write);
        let moved = last_read.copied().filter(|_| buffer[1] & 4 != 0);
        match (acted.opcode, good) {
            (0, true) => {
                self.allowed &= self.candidates[block].contains(&read);
                self.candidates[block] = vec![read];
            }
            (1 | 2, true) => {
                let bytes = &acted.bytes[..SECTOR_BYTES];
                self.candidates[block] = vec![Rc::from(bytes)];
            }
            (1 | 2, false) => self.add(Some(acted)),
            _ => {}
        }
        if let Some((_, sector)) = moved {
            let others = self.places.iter().enumerate();
            let taken =
                |(other, place): (usize, &Option<Sector>)| other != block && *place == Some(sector);
            self.allowed &= !others.into_iter().any(taken);
            self.places[block] = Some(sector);
        }
    }
}

/// Both ledgers, and what makes the list.
struct Pair {
    rng: Rng,
    one: Ledger,
    other: Dense,
    buffer: Vec<u8>,
    /// Where each block of the lists is likely to stand.
    likely: [u32; 3],
}

const NUMBERS: [u8; 3] = [5, 6, 7];

impl Pair {
    fn new(seed: u64) -> Pair {
        let mut sectors = Sectors::new();
        sectors.hold(sector(5), &OLD);
        sectors.spoil(sector(6));
        sectors.hold(sector(4928), &NEW);
        Pair {
            rng: Rng::new(seed),
            one: Ledger::new(&sectors),
            other: Dense::new(&sectors),
            buffer: vec![0; BUFFER],
            likely: [5, 6, 7],
        }
    }

    /// Shows a call to both, and says whether both allow the list.
    fn call(&mut self, call: Call, answer: Answer) -> bool {
        self.one.call(&call, answer, &self.buffer);
        self.other.call(&call, answer, &self.buffer);
        let allowed = self.one.verdict().is_ok();
        assert_eq!(allowed, self.other.allowed, "{call:?} {answer:?}");
        allowed
    }

    fn bytes(&mut self) -> Vec<u8> {
        let byte = self.rng.pick(&[1, 1, 2, 2, 3]);
        vec![byte; SECTOR_BYTES]
    }

    /// A start, with an image or without.
    fn start(&mut self) -> bool {
        let mut allowed = self.call(Call::Start, Answer::Read(TABLE));
        let spares = self.rng.pick(&[&[][..], &[5], &[0xFF_FFFE, 5, 6], &[7, 6]]);
        if self.rng.one_in(4) {
            allowed &= self.call(Call::Surface(2, vec![]), Answer::Read(TABLE));
        }
        if self.rng.one_in(5) {
            return allowed & self.call(Call::Surface(3, vec![]), Answer::Wait);
        }
        for (place, number) in self.likely.iter_mut().zip(NUMBERS) {
            let listed = spares.iter().position(|&entry| entry == u32::from(number));
            *place = listed.map_or(u32::from(number), |k| 4928 + k as u32);
        }
        let image = Draft::new(spares, &[]).bytes();
        allowed & self.call(Call::Surface(0, image), Answer::Wait)
    }

    /// A command up to the lower that acts on it; gives its place among the numbers.
    fn command(&mut self) -> usize {
        let which = self.rng.place(3);
        let number = NUMBERS[which];
        let opcode = self.rng.pick(&[0, 0, 1, 2]);
        let offer = [Offer::Read, Offer::Write, Offer::Verify][usize::from(opcode)];
        self.call(Call::Raise, Answer::Offer(Offer::Command));
        self.call(Call::Lower(0x55), Answer::Wait);
        let bytes = vec![opcode, 0, 0, number, 0, 0];
        self.call(Call::Feed(bytes), Answer::Wait);
        self.call(Call::Raise, Answer::Offer(offer));
        if opcode > 0 {
            self.call(Call::Lower(0x55), Answer::Wait);
            let bytes = self.bytes();
            self.call(Call::Feed(bytes), Answer::Wait);
            self.call(Call::Raise, Answer::Offer(Offer::Act));
        }
        which
    }

    /// A whole command, or one that ends in some other way.
    fn step(&mut self) -> bool {
        let which = self.command();
        let place = match self.rng.one_in(20) {
            true => 4928 + self.rng.below(3),
            false => self.likely[which],
        };
        let mut answer = self.access(place);
        let mut call = Call::Lower(0x55);
        let mut last = None;
        for _ in 0..self.rng.below(4) {
            self.call(call, answer);
            call = Call::Surface(2, vec![]);
            let at = self.rng.pick(&[place, 4928, 4929]);
            if let Answer::Read(sector) = answer {
                last = Some(sector.number());
            }
            answer = self.access(at);
        }
        let going = self.call(call, answer);
        if let Answer::Read(sector) = answer {
            last = Some(sector.number());
        }
        match self.rng.below(8) {
            0 => going & self.start(),
            1 => going & self.call(Call::Reset, Answer::Wait),
            2 => going & self.call(Call::Lower(0), Answer::Finished),
            _ => {
                let status = self.rng.pick(&[[0; 4], [0; 4], [5, 0, 0, 0], [4, 4, 0, 0]]);
                if status[1] != 0 {
                    self.likely[which] = last.unwrap_or(self.likely[which]);
                }
                self.buffer[..STATUS].copy_from_slice(&status);
                let data = self.bytes();
                self.buffer[STATUS..].copy_from_slice(&data);
                going & self.call(Call::Surface(0, vec![]), Answer::Finished)
            }
        }
    }

    fn access(&mut self, place: u32) -> Answer {
        match self.rng.below(3) {
            0 => Answer::Write(sector(place)),
            _ => Answer::Read(sector(place)),
        }
    }
}

#[test]
fn both_ledgers_allow_the_same_lists() {
    let (mut steps, mut ended) = (0, 0);
    for seed in 0..600 {
        let mut pair = Pair::new(seed);
        let mut allowed = pair.start();
        for _ in 0..12 {
            steps += 1;
            allowed = allowed && pair.step();
            if pair.rng.one_in(4) {
                allowed = allowed && pair.start();
            }
            if !allowed {
                ended += 1;
                break;
            }
        }
    }
    // Some lists go on for a while, and most end in a breach of some rule.
    assert!(
        steps > 1500 && (200..600).contains(&ended),
        "{steps} {ended}"
    );
}
