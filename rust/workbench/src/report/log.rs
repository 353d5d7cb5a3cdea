//! What a run keeps for its page: the commands of a line, folded, and what happened to
//! each sector. Both are bounded, however long the run is.

use super::kept::{Kept, Part, Room};
use super::sectors::Sectors;
use crate::board::{Accessed, Cut, Purpose};
use crate::clock::Time;
use crate::host::{End, Report};
use crate::picture::Outcome;
use crate::{show, surface, trace, trials};

/// The commands of one line: while few are kept in all, and then.
const CARDS: Room = Room {
    plain: (40, 10),
    noted: (150, 50),
};
const FEWER_CARDS: Room = Room {
    plain: (1, 1),
    noted: (1, 1),
};
const MANY_CARDS: usize = 1200;

/// The rows of one command: while few are kept in all, and then.
const ROWS: Room = Room {
    plain: (40, 20),
    noted: (80, 40),
};
const FEWER_ROWS: Room = Room {
    plain: (1, 1),
    noted: (1, 1),
};
const MANY_ROWS: usize = 6000;

/// Commands with more rows than this share no card.
const FEW_ROWS: usize = 6;

/// Accesses that went alike, or the rereads of a trial.
#[derive(Clone, Debug, PartialEq, Eq)]
pub struct Row {
    pub purpose: Purpose,
    /// How they went.
    pub how: String,
    /// All of them went well.
    pub well: bool,
    pub answer: u8,
    /// How many of a trial's rereads failed.
    pub failed: u64,
    /// The sector, one for each command of the card.
    pub sectors: Vec<u32>,
}

/// Commands that came to the same, or one.
#[derive(Clone, Debug)]
pub struct Card {
    /// The first word of their names, and what follows it in the first and in the last.
    pub verb: String,
    pub first: String,
    pub last: String,
    pub commands: u64,
    /// What they came to.
    pub words: String,
    pub status: Option<[u8; 4]>,
    pub outcome: Outcome,
    /// A block moved, whether its command was good or failed.
    pub moved: bool,
    /// Trials, moves and dead spares.
    pub lines: Vec<String>,
    pub rows: Kept<Row>,
    pub cut: Option<Cut>,
    /// What they would have taken on the drive.
    pub took: Time,
    /// A comparison wanted other bytes than they brought.
    pub other_bytes: bool,
    /// A spare changed.
    changed: bool,
}

/// What a run keeps.
#[derive(Clone, Debug)]
pub struct Log {
    cards: Kept<Card>,
    sectors: Sectors,
    /// How many cards and rows are kept of the lines before.
    kept_cards: usize,
    kept_rows: usize,
}

impl Default for Log {
    fn default() -> Log {
        Log {
            cards: Kept::new(CARDS),
            sectors: Sectors::default(),
            kept_cards: 0,
            kept_rows: 0,
        }
    }
}

impl Log {
    /// Keeps what a command of this line came to.
    pub fn command(&mut self, line: usize, name: &str, report: &Report) {
        self.sectors.command(line, name, report);
        let room = match self.kept_rows < MANY_ROWS {
            true => ROWS,
            false => FEWER_ROWS,
        };
        let card = Card::new(name, report, room);
        if let Some(last) = self.cards.last().filter(|last| last.shares(&card)) {
            last.take(card);
            self.cards.lengthen(1);
            return;
        }
        self.kept_rows += card.rows.kept();
        let noted = card.noted();
        self.cards.push(card, 1, noted);
    }

    /// Hands back the commands since the last call.
    pub fn take(&mut self) -> Kept<Card> {
        self.kept_cards += self.cards.kept();
        let room = match self.kept_cards < MANY_CARDS {
            true => CARDS,
            false => FEWER_CARDS,
        };
        std::mem::replace(&mut self.cards, Kept::new(room))
    }

    /// Shows what happened to the sectors.
    pub fn sectors(&self) -> &Sectors {
        &self.sectors
    }
}

impl Card {
    /// Makes the card of one command.
    fn new(name: &str, report: &Report, room: Room) -> Card {
        let (verb, rest) = name.split_once(' ').unwrap_or((name, ""));
        let changes = show::spare_changes(&report.changes);
        let changed = !changes.is_empty();
        let trials = trials::lines(std::slice::from_ref(report));
        Card {
            verb: verb.to_string(),
            first: rest.to_string(),
            last: rest.to_string(),
            commands: 1,
            words: words(report),
            status: match report.end {
                End::Finished(bytes) => Some(bytes),
                _ => None,
            },
            outcome: show::outcome(report),
            moved: show::moved(report).is_some(),
            lines: trials.into_iter().chain(changes).collect(),
            rows: rows(&report.accesses, room),
            cut: match report.end {
                End::Cut(cut) => Some(cut),
                _ => None,
            },
            took: report.took,
            other_bytes: report.other_bytes,
            changed,
        }
    }

    /// Names the commands: "write 1..39", "health, 2 times".
    pub fn name(&self) -> String {
        let Card {
            verb, first, last, ..
        } = self;
        match (first.is_empty(), first == last) {
            _ if self.commands == 1 => format!("{verb} {first}").trim_end().to_string(),
            (true, _) => format!("{verb}, {} times", self.commands),
            (_, true) => format!("{verb} {first}, {} times", self.commands),
            _ => format!("{verb} {first}..{last}"),
        }
    }

    /// Says whether something went otherwise than well.
    pub fn noted(&self) -> bool {
        let well = matches!(self.outcome, Outcome::Good | Outcome::None);
        !well || self.changed || self.other_bytes || self.rows.things().iter().any(|row| !row.well)
    }

    /// Says whether the next command is shown on the same card.
    fn shares(&self, next: &Card) -> bool {
        let (one, two) = (self.rows.parts(), next.rows.parts());
        self.verb == next.verb
            && self.follows(&next.first)
            && self.status == next.status
            && self.other_bytes == next.other_bytes
            && !(self.changed || next.changed)
            && self.cut.is_none()
            && next.cut.is_none()
            && self.words == next.words
            && one.len() == two.len()
            && one.len() <= FEW_ROWS
            && one.iter().zip(&two).all(|(one, two)| alike(one, two))
    }

    /// Says whether this is the next block, or the same.
    fn follows(&self, next: &str) -> bool {
        let number = |text: &str| text.parse::<u32>().ok();
        match (number(&self.last), number(next)) {
            _ if self.first == next => self.last == next,
            (Some(last), Some(next)) if last + 1 == next => {
                self.commands == 1 || self.first != self.last
            }
            _ => false,
        }
    }

    /// Takes a command onto the card.
    fn take(&mut self, next: Card) {
        self.commands += 1;
        self.took += next.took;
        self.last = next.last;
        self.lines.clear();
        let next: Vec<Row> = next.rows.things().into_iter().cloned().collect();
        self.rows.each(|place, row| {
            row.sectors.extend(&next[place].sectors);
        });
    }
}

/// Says whether two rows have as many accesses of one kind, which went alike.
fn alike(one: &Part<Row>, two: &Part<Row>) -> bool {
    match (one, two) {
        (Part::Thing(one, _, times), Part::Thing(two, _, others)) => {
            let shape = |row: &Row| (row.purpose, row.answer, row.failed, row.well);
            shape(one) == shape(two) && one.how == two.how && times == others
        }
        _ => false,
    }
}

/// Says what a command came to.
fn words(report: &Report) -> String {
    match report.end {
        End::Finished(_) => show::command(report),
        end => {
            let mut words = show::folded(&report.accesses);
            words.push(show::ending(end));
            words.join(", ")
        }
    }
}

/// Folds accesses into rows.
fn rows(accesses: &[Accessed], room: Room) -> Kept<Row> {
    let mut rows: Kept<Row> = Kept::new(room);
    for part in trace::parts(accesses) {
        let row = row(part);
        let length = part.len() as u64;
        match rows.last() {
            Some(last) if *last == row && length == 1 => rows.lengthen(1),
            _ => {
                let noted = !row.well;
                rows.push(row, length, noted);
            }
        }
    }
    rows
}

/// Makes the row of an access, or of a trial's rereads.
fn row(part: &[Accessed]) -> Row {
    let one = &part[0];
    let failed = part.iter().filter(|a| a.answer != surface::GOOD).count() as u64;
    Row {
        purpose: one.purpose,
        how: match part {
            [one] => trace::how(one).to_string(),
            rereads => trace::answers(rereads),
        },
        well: failed == 0 && !part.iter().any(|a| a.unreadable),
        answer: one.answer,
        failed,
        sectors: vec![one.sector.number()],
    }
}
