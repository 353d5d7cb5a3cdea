//! The board: the proved controller over the platter. It does each access that the
//! controller asks for as it was ordered, holds it against the surface's rules, and
//! tells the history of every call. At an access at which the power fails it does no
//! more, and is off.

use controller::raw::{self, kind};
use controller::{Answer, Drive, BUFFER, SECTOR_BYTES, STATUS};
use reference::drive::Call;
use reference::geometry::{Sector, TABLE};
use reference::image::{form_b, Form, Table};
use reference::surface::{cut_obeys, obeys, Access, Left};

use crate::clock::Clock;
use crate::faults::Faults;
use crate::history::History;
use crate::platter::Platter;
use crate::power::{Fate, Power};
use crate::{surface, table_files};

/// What stands in the words of the record and in the buffer of a drive that was switched
/// off. A start may be given anything.
const LOST_WORD: u16 = 0xA5A5;
const LOST_BYTE: u8 = 0xA5;

/// What an access is for.
#[derive(Clone, Copy, Debug, PartialEq, Eq)]
pub enum Purpose {
    Read,
    Write,
    /// The write of a trial.
    TrialWrite,
    /// A read of a trial.
    Reread,
    Store,
}

impl Purpose {
    /// Says whether it reads.
    pub fn reads(self) -> bool {
        matches!(self, Purpose::Read | Purpose::Reread)
    }
}

/// An access that was done.
#[derive(Clone, Copy, Debug, PartialEq, Eq)]
pub struct Accessed {
    pub purpose: Purpose,
    pub sector: Sector,
    /// The surface's answer.
    pub answer: u8,
    /// The sector is unreadable since then.
    pub unreadable: bool,
}

/// An access at which the power failed.
#[derive(Clone, Copy, Debug, PartialEq, Eq)]
pub struct Cut {
    pub purpose: Purpose,
    pub sector: Sector,
    /// Which access of its line of the host it is, the first being 1.
    pub access: usize,
    /// What a write left.
    pub fate: Fate,
}

/// The board.
#[derive(Clone, Debug)]
pub struct Board {
    drive: Drive,
    buffer: [u8; BUFFER],
    platter: Platter,
    history: History,
    clock: Clock,
    pub faults: Faults,
    pub power: Power,
    /// It was started, and not switched off since.
    on: bool,
    /// The last answer that was neither an access nor a refusal.
    last: Answer,
}

impl Board {
    /// A board whose drive was never started.
    pub fn new(platter: Platter) -> Board {
        Board {
            drive: Drive::new(),
            buffer: [0; BUFFER],
            platter,
            history: History::default(),
            clock: Clock::new(),
            faults: Faults::default(),
            power: Power::default(),
            on: false,
            last: Answer::Wait,
        }
    }

    pub fn platter(&self) -> &Platter {
        &self.platter
    }

    pub fn platter_mut(&mut self) -> &mut Platter {
        &mut self.platter
    }

    pub fn history(&self) -> &History {
        &self.history
    }

    /// The time that the run would have taken, and where the heads are.
    pub fn clock(&self) -> &Clock {
        &self.clock
    }

    pub fn clock_mut(&mut self) -> &mut Clock {
        &mut self.clock
    }

    /// Says whether the drive was started, and not switched off since.
    pub fn is_on(&self) -> bool {
        self.on
    }

    /// Says whether the table has changes that are not stored.
    pub fn has_unstored(&self) -> bool {
        self.drive.has_unstored()
    }

    /// The last answer that was neither an access nor a refusal: where the handshake
    /// stands.
    pub fn last(&self) -> Answer {
        self.last
    }

    /// The four status bytes.
    pub fn status(&self) -> [u8; STATUS] {
        let [one, two, three, four, ..] = self.buffer;
        [one, two, three, four]
    }

    /// The data part.
    pub fn data(&self) -> &[u8] {
        &self.buffer[STATUS..]
    }

    /// The table that the controller knows; none if it is off. Its image is of form B.
    pub fn table(&self) -> Option<Table> {
        if !self.on {
            return None;
        }
        let mut bytes = [0; SECTOR_BYTES];
        match self.drive.image(&mut bytes) {
            Answer::Wait => Some(form_b::read(&bytes).expect("the image call gives form B")),
            _ => None,
        }
    }

    /// Switches the drive off, and turns the table on the platter into its other form.
    /// Returns that form, or why the platter has no table; then nothing is changed.
    pub fn convert(&mut self) -> Result<Form, String> {
        let held = table_files::held(&self.platter)?;
        let (form, image) = table_files::turned(&held)?;
        self.switch_off();
        let left = Left::Held(image.to_vec());
        self.platter.leave(Access::Write(TABLE), &image, &left);
        Ok(form)
    }

    /// Switches the drive off: what the record and the buffer held is lost.
    fn switch_off(&mut self) {
        let words = [LOST_WORD; raw::WORDS];
        self.drive = Drive::from(raw::Drive { words });
        self.buffer = [LOST_BYTE; BUFFER];
        self.on = false;
        self.last = Answer::Wait;
    }

    /// Makes a call and does the accesses that it leads to, unless the power fails at one.
    pub fn turn(&mut self, call: &Call, done: &mut Vec<Accessed>) -> Result<Answer, Cut> {
        let mut answer = self.call(call);
        while let Some((purpose, sector)) = asked(answer, self.drive.phase()) {
            if let Some(fate) = self.power.fails(purpose) {
                let access = done.len() + 1;
                let cut = Cut {
                    purpose,
                    sector,
                    access,
                    fate,
                };
                self.cut(cut);
                return Err(cut);
            }
            answer = self.access(purpose, sector, done);
        }
        if !matches!(answer, Answer::Refused(_)) {
            self.last = answer;
        }
        Ok(answer)
    }

    /// Cuts the power at an access that was asked for.
    fn cut(&mut self, cut: Cut) {
        let (access, sent) = self.asked_for(cut.purpose, cut.sector);
        let left = surface::left_at_a_cut(access, &sent, cut.fate);
        assert!(
            cut_obeys(access, &sent, &left),
            "the simulated surface broke its rules at a power cut: {access:?} left {:?}",
            cut.fate
        );
        self.platter.leave(access, &sent, &left);
        self.switch_off();
    }

    /// Makes one call and tells the history.
    fn call(&mut self, call: &Call) -> Answer {
        let buffer = &mut self.buffer;
        let answer = match call {
            Call::Start => self.drive.start(buffer),
            Call::Raise => self.drive.raise(buffer),
            Call::Lower(byte) => self.drive.lower(buffer, *byte),
            Call::Feed(bytes) => self.drive.feed(buffer, bytes),
            Call::Surface(answer, bytes) => self.drive.surface(buffer, *answer, bytes),
            Call::Reset => self.drive.reset(buffer),
            Call::Image | Call::Convert(_) => unreachable!("it is lent other bytes"),
        };
        match call {
            Call::Start => {
                self.on = true;
                self.clock.park();
                let sectors = self.platter.sectors();
                self.history.start(sectors, answer, &self.buffer);
            }
            _ => self.history.call(call, answer, &self.buffer),
        }
        answer
    }

    /// Does one access as it is ordered, and tells the controller how it went.
    fn access(&mut self, purpose: Purpose, sector: Sector, done: &mut Vec<Accessed>) -> Answer {
        let (access, sent) = self.asked_for(purpose, sector);
        let effect = self.faults.order(purpose, sector);
        let outcome = surface::outcome(&self.platter, access, &sent, effect);
        assert!(
            obeys(self.platter.sectors(), access, &sent, &outcome),
            "the simulated surface broke its rules: {access:?} ordered {effect:?}"
        );
        self.platter.leave(access, &sent, &outcome.left);
        self.clock.access(purpose.reads(), sector, outcome.answer);
        done.push(Accessed {
            purpose,
            sector,
            answer: outcome.answer,
            unreadable: outcome.left == Left::Spoiled,
        });
        self.call(&Call::Surface(outcome.answer, outcome.bytes))
    }

    /// The access for a purpose, with the bytes that a write is sent.
    fn asked_for(&self, purpose: Purpose, sector: Sector) -> (Access, Vec<u8>) {
        match purpose {
            Purpose::Read | Purpose::Reread => (Access::Read(sector), vec![]),
            Purpose::Write | Purpose::TrialWrite => (Access::Write(sector), self.data().to_vec()),
            Purpose::Store => (Access::Write(sector), self.image_to_store()),
        }
    }

    fn image_to_store(&self) -> Vec<u8> {
        let mut bytes = vec![0; SECTOR_BYTES];
        let answer = self.drive.image(&mut bytes);
        assert_eq!(answer, Answer::Wait, "a store has a table to store");
        bytes
    }
}

/// The access that an answer asks for in a phase.
fn asked(answer: Answer, phase: u8) -> Option<(Purpose, Sector)> {
    let (purpose, number) = match (answer, phase) {
        (Answer::Read(sector), kind::TRIAL_READ) => (Purpose::Reread, sector.number()),
        (Answer::Read(sector), _) => (Purpose::Read, sector.number()),
        (Answer::Write(sector), kind::TRIAL_WRITE) => (Purpose::TrialWrite, sector.number()),
        (Answer::Write(sector), _) => (Purpose::Write, sector.number()),
        (Answer::Store, _) => (Purpose::Store, TABLE.number()),
        _ => return None,
    };
    let sector = Sector::new(number).expect("the controller asks for sectors alone");
    Some((purpose, sector))
}
