//! The ledger (document 01, "Ledger"; document 02, request 7): which lists of calls
//! are allowed.
//!
//! A list begins where an accepted start returned, and further starts may stand in
//! it. The ledger sees the sectors as they are when it begins, and of each call its
//! arguments, its answer and the buffer it left; it knows nothing of the record.

mod places;

use std::collections::BTreeMap;
use std::fmt;
use std::hash::{Hash, Hasher};
use std::rc::Rc;

use crate::controller::{Answer, Offer, GO_ON, STATUS};
use crate::drive::Call;
use crate::geometry::{Block, Sector, SECTOR_BYTES, TABLE};
use crate::image::{self, Table};
use crate::surface::{Bytes, Sectors};
use places::{place, Places};

/// How a list breaks the ledger.
#[derive(Clone, Copy, Debug, PartialEq, Eq)]
pub enum Broken {
    /// A good read of this block gave bytes that are no candidate.
    GoodRead(Block),
    /// The first access of a command was not at its block's sector.
    FirstAccess {
        number: u32,
        wanted: Option<Sector>,
        found: Sector,
    },
    /// Two blocks had the same sector.
    SameSector(Block, Block, Sector),
    /// A command for this block was reported good with no image read since the last
    /// start. This is none of the ledger's three rules, but request 7's last sentence,
    /// which is looked at beside them.
    NoTable(Block),
}

impl fmt::Display for Broken {
    fn fmt(&self, f: &mut fmt::Formatter) -> fmt::Result {
        match self {
            Broken::GoodRead(block) => write!(
                f,
                "a good read of block {} gave other bytes",
                block.number()
            ),
            Broken::FirstAccess {
                number,
                wanted,
                found,
            } => {
                write!(f, "the first access for {number} was at {}", found.number())?;
                match wanted {
                    Some(sector) => write!(f, " and not at {}", sector.number()),
                    None => write!(f, ", and it has no sector"),
                }
            }
            Broken::SameSector(one, other, sector) => write!(
                f,
                "blocks {} and {} had both sector {}",
                one.number(),
                other.number(),
                sector.number()
            ),
            Broken::NoTable(block) => write!(
                f,
                "a command for block {} was good without a table",
                block.number()
            ),
        }
    }
}

/// The candidates of a block.
#[derive(Clone, Debug, PartialEq, Eq, Hash)]
struct Page {
    /// What its first place held as the list began is a candidate.
    found: bool,
    /// The other candidates.
    others: Vec<Bytes>,
}

/// The page of a block that no command has touched.
impl Default for Page {
    fn default() -> Page {
        Page {
            found: true,
            others: vec![],
        }
    }
}

impl Page {
    /// Makes these bytes the only candidate.
    fn only(&mut self, bytes: &[u8]) {
        self.found = false;
        self.others = vec![Rc::from(bytes)];
    }

    /// Adds these bytes to the candidates.
    fn add(&mut self, bytes: &[u8]) {
        if !self.others.iter().any(|other| other[..] == *bytes) {
            self.others.push(Rc::from(bytes));
        }
    }
}

/// A command that was acted on, and neither reported nor broken off.
#[derive(Clone, Debug, Hash)]
struct Command {
    opcode: u8,
    number: u32,
    /// A write's bytes: those fed, then zeros up to 532 (document 02, request 1).
    bytes: Vec<u8>,
    /// An access was asked for.
    accessed: bool,
    /// A write s was asked for.
    wrote: bool,
    last_read: Option<Sector>,
}

/// The ledger of one list.
#[derive(Clone, Debug)]
pub struct Ledger {
    /// The sectors as the list began.
    sectors: Rc<Sectors>,
    /// The table of the first image that was read: it gives the candidates.
    first: Option<Rc<Table>>,
    /// The pages of the blocks that commands have touched.
    pages: BTreeMap<Block, Page>,
    places: Places,
    /// A read of 4960 is awaited.
    table_awaited: bool,
    /// An image was read since the last start.
    imaged: bool,
    /// The offer that stands.
    offer: Option<Offer>,
    /// The first bytes fed since the last offer 01, four at most.
    fed: Vec<u8>,
    /// The first bytes fed since the last offer 03 or 04, 532 at most.
    data: Vec<u8>,
    command: Option<Command>,
    broken: Option<Broken>,
    good_reads: u64,
}

impl Ledger {
    /// The list begins with these sectors and the read of 4960 awaited.
    pub fn new(sectors: &Sectors) -> Ledger {
        Ledger {
            sectors: Rc::new(sectors.clone()),
            first: None,
            pages: BTreeMap::new(),
            places: Places::default(),
            table_awaited: true,
            imaged: false,
            offer: None,
            fed: vec![],
            data: vec![],
            command: None,
            broken: None,
            good_reads: 0,
        }
    }

    /// Whether the list up to here is allowed, and else the first rule that was
    /// broken.
    pub fn verdict(&self) -> Result<(), Broken> {
        match self.broken {
            None => Ok(()),
            Some(broken) => Err(broken),
        }
    }

    /// How many good reads of blocks met their rule.
    pub fn good_reads(&self) -> u64 {
        self.good_reads
    }

    /// Hashes what the ledger knows while no offer is made and no bytes are taken: two
    /// ledgers of the same list's beginning that agree in it go on alike.
    pub fn hash_standing(&self, hasher: &mut impl Hasher) {
        (&self.first, &self.pages, &self.places).hash(hasher);
        (self.table_awaited, self.imaged, &self.command).hash(hasher);
    }

    /// Takes the next call of the list. Image and convert are no calls of it.
    pub fn call(&mut self, call: &Call, answer: Answer, buffer: &[u8]) {
        if matches!(answer, Answer::Refused(_)) || !call.may_change() {
            return;
        }
        self.take(call);
        self.table_awaited = answer == Answer::Read(TABLE);
        match answer {
            Answer::Offer(offer) => {
                self.offer = Some(offer);
                match offer {
                    Offer::Command => self.fed.clear(),
                    Offer::Write | Offer::Verify => self.data.clear(),
                    Offer::Read | Offer::Act => {}
                }
            }
            Answer::Read(sector) => {
                self.access(sector);
                if let Some(command) = &mut self.command {
                    command.last_read = Some(sector);
                }
            }
            Answer::Write(sector) => {
                self.access(sector);
                if let Some(command) = &mut self.command {
                    command.wrote = true;
                }
            }
            Answer::Finished => {
                if let Some(command) = self.command.take() {
                    let (status, data) = buffer.split_at(STATUS);
                    self.report(command, status, data);
                }
            }
            Answer::Wait | Answer::Store | Answer::Refused(_) => {}
        }
    }

    /// What the arguments of an accepted call say.
    fn take(&mut self, call: &Call) {
        match call {
            Call::Feed(bytes) => {
                let room = 4 - self.fed.len();
                self.fed.extend(bytes.iter().take(room));
                let room = SECTOR_BYTES - self.data.len();
                self.data.extend(bytes.iter().take(room));
            }
            Call::Lower(GO_ON) => {
                if let Some(Offer::Read | Offer::Act) = self.offer.take() {
                    self.command = Some(self.acted_on());
                }
            }
            // The command is neither good nor failed, whatever finish comes.
            Call::Lower(_) | Call::Reset => {
                self.offer = None;
                self.command = None;
            }
            Call::Surface(0, bytes) if self.table_awaited => {
                if let Ok((_, table)) = image::read(bytes) {
                    self.take_table(Rc::new(table));
                }
            }
            Call::Start => self.start(),
            _ => {}
        }
    }

    /// Ends the command under way at a start. A write of a block that has asked for a
    /// write s counts as reported failed. Sectors and candidates stay.
    fn start(&mut self) {
        self.offer = None;
        self.imaged = false;
        let Some(command) = self.command.take() else {
            return;
        };
        if let (Some(block), 0x01 | 0x02, true) =
            (Block::new(command.number), command.opcode, command.wrote)
        {
            self.page(block).add(&command.bytes);
        }
    }

    fn acted_on(&self) -> Command {
        let byte = |place: usize| self.fed.get(place).copied().unwrap_or(0xFF);
        let mut bytes = self.data.clone();
        bytes.resize(SECTOR_BYTES, 0);
        Command {
            opcode: byte(0),
            number: u32::from_be_bytes([0, byte(1), byte(2), byte(3)]),
            bytes,
            accessed: false,
            wrote: false,
            last_read: None,
        }
    }

    /// Takes the table of an image that was read: it gives each block its sector. The
    /// first one of the list gives the candidates too, from the sectors as it began.
    fn take_table(&mut self, table: Rc<Table>) {
        self.imaged = true;
        if self.first.is_none() {
            self.first = Some(table.clone());
            self.pages.clear();
        }
        self.places = Places::new(table);
    }

    /// Gives the page of a block, for a change.
    fn page(&mut self, block: Block) -> &mut Page {
        self.pages.entry(block).or_default()
    }

    /// Says whether these bytes are a candidate of a block.
    fn is_candidate(&self, block: Block, bytes: &[u8]) -> bool {
        let untouched = Page::default();
        let page = self.pages.get(&block).unwrap_or(&untouched);
        let first = self.first.as_ref().filter(|_| page.found);
        let found = first.and_then(|table| self.sectors.get(place(table, block)));
        let mut candidates = page.others.iter().chain(&found);
        candidates.any(|candidate| candidate[..] == *bytes)
    }

    /// The block's sector is now this one.
    fn put(&mut self, block: Block, sector: Sector) {
        if let Some(other) = self.places.put(block, sector) {
            self.broken
                .get_or_insert(Broken::SameSector(other, block, sector));
        }
    }

    /// A read s or a write s was asked for.
    fn access(&mut self, sector: Sector) {
        let Some(command) = &mut self.command else {
            return;
        };
        if command.accessed {
            return;
        }
        command.accessed = true;
        let number = command.number;
        let wanted = Block::new(number).and_then(|block| self.places.of(block));
        if wanted != Some(sector) {
            self.broken.get_or_insert(Broken::FirstAccess {
                number,
                wanted,
                found: sector,
            });
        }
    }

    /// A command was reported.
    fn report(&mut self, command: Command, status: &[u8], data: &[u8]) {
        let Some(block) = Block::new(command.number) else {
            return;
        };
        let good = status[0] & 1 == 0;
        if good && matches!(command.opcode, 0x00..=0x02) && !self.imaged {
            self.broken.get_or_insert(Broken::NoTable(block));
        }
        match command.opcode {
            0x00 if good => {
                if self.is_candidate(block, data) {
                    self.good_reads += 1;
                } else {
                    self.broken.get_or_insert(Broken::GoodRead(block));
                }
                self.page(block).only(data);
            }
            0x01 | 0x02 if good => self.page(block).only(&command.bytes),
            0x01 | 0x02 if command.wrote => self.page(block).add(&command.bytes),
            _ => {}
        }
        if status[1] & (1 << 2) != 0 {
            if let Some(sector) = command.last_read {
                self.put(block, sector);
            }
        }
    }
}

/// Ledgers that are wrong, for searches that have to find them out.
#[cfg(test)]
impl Ledger {
    /// Lets the next image be the first one.
    pub(crate) fn forget_first_image(&mut self) {
        self.first = None;
    }

    /// Gives the sectors of the blocks, if there are any.
    pub(crate) fn places_now(&self) -> Option<Places> {
        self.first.as_ref().map(|_| self.places.clone())
    }

    /// Takes such sectors back.
    pub(crate) fn keep_places(&mut self, places: Option<Places>) {
        if let Some(places) = places {
            self.places = places;
        }
    }
}

#[cfg(test)]
mod tests;
