//! The time line of a plan's run: a row for each heading, and in it a card for
//! each host command, with a mark for each of its surface accesses and a symbol
//! for its outcome. The rereads of a trial are one mark. Neighbouring commands of
//! one kind that came to the same share a card.

mod choice;
mod marks;

pub use marks::{Mark, Move, Outcome};

use super::svg::{counted, room, Canvas, EDGE, FAINT, WIDTH};
use crate::clock::Time;
use crate::show::{self, shorten};

/// One host command, or a heading, of a plan's run.
#[derive(Clone, Debug, PartialEq, Eq)]
pub struct Moment {
    /// Begins a new row, such as "Monday: the host writes the file".
    pub heading: Option<String>,
    /// The host's command, such as "read 17"; empty for a heading alone.
    pub command: String,
    /// The command's surface accesses in their order.
    pub accesses: Vec<Mark>,
    /// How the command ended.
    pub outcome: Outcome,
    /// The block that it moved, if it did.
    pub moved: Option<Move>,
    /// What it would have taken on the drive.
    pub took: Time,
    /// A comparison found other bytes than it should.
    pub other_bytes: bool,
}

/// The headings' column, and the lines of words in it.
const LETTERS: usize = 26;
const BOLD_LETTERS: usize = 20;
const LABEL_LINE: i32 = 16;

/// The cards' column, from here to the right edge.
const CARDS: i32 = 230;
const CARDS_END: i32 = WIDTH - EDGE;

/// A card: its height, what lies between two, and its inner margin.
const CARD: i32 = 52;
const CARD_GAP: i32 = 8;
const MARGIN: i32 = 9;

/// Marks of a card take at most this room; of more, the first and the last
/// are shown, with the number of the others between them.
const ROOM: i32 = 480;
const FIRST_ROOM: i32 = 330;
const LAST_ROOM: i32 = 90;
const MORE_ROOM: i32 = 115;

/// So few marks stand further apart.
const FEW: usize = 24;
const FEW_APART: i32 = 3;

/// A row has at most this many cards; further commands are counted.
const MOST_CARDS: usize = 300;

/// The first row begins here, and rows are this far apart.
const TOP: i32 = 88;
const ROW_GAP: i32 = 20;

const CARD_STYLE: &str = r##"rx="6" fill="#f6f8fa" stroke="#d1d9e0""##;

/// A heading's line.
struct Line {
    look: Look,
    words: String,
}

/// What stands in a heading's line: the heading's name, what its commands took, or more.
#[derive(Clone, Copy)]
enum Look {
    Name,
    Took,
    Rest,
}

/// A card: commands of one kind.
struct Card {
    label: String,
    marks: Vec<Mark>,
    /// The marks are those of each of so many commands.
    times: usize,
    outcome: Outcome,
    moved: Option<Move>,
    took: Time,
    other_bytes: bool,
}

/// What stands in a row: a card, or a gap for so many commands that have none.
enum Item {
    Card(Card),
    Gap(usize),
}

/// A row: its heading, and its items, each with its place and its line.
struct Row {
    heading: Vec<Line>,
    items: Vec<(i32, i32, Item)>,
}

/// What is drawn in a card's row of marks.
enum Piece {
    One(Mark),
    Words(String),
}

/// The time line as SVG.
pub fn timeline(title: &str, moments: &[Moment]) -> String {
    let mut canvas = Canvas::new();
    canvas.heading(title, &summary(moments));
    let mut top = TOP;
    for moments in moments.chunk_by(|_, next| next.heading.is_none()) {
        top = draw_row(&mut canvas, top, &row(moments));
    }
    let other_bytes = moments.iter().any(|moment| moment.other_bytes);
    let end = canvas.legend(top, 6, &marks::keys(other_bytes));
    canvas.finish(title, end + 20)
}

/// "162 commands (1 moved a block, 0 failed), 223 surface accesses (9 errors)", blocks with
/// other bytes and power cuts, if there are any, and the time of all. Commands count when
/// they finished, accesses when they were answered, whatever asked for them.
fn summary(moments: &[Moment]) -> String {
    let count = |wanted: fn(Outcome) -> bool| moments.iter().filter(|m| wanted(m.outcome)).count();
    let finished = |outcome| !matches!(outcome, Outcome::Refused | Outcome::Cut | Outcome::None);
    let commands = count(finished);
    let moved = moments.iter().filter(|moment| moment.moved.is_some());
    let moved = moved.count();
    let failed = count(|outcome| outcome == Outcome::Failed);
    let marks = || moments.iter().flat_map(|moment| &moment.accesses);
    let errors = marks().map(|mark| mark.errors()).sum();
    let commands = counted(commands, "command");
    let accesses = counted(accesses_of(marks()), "surface access");
    let errors = counted(errors, "error");
    let others = match moments.iter().filter(|moment| moment.other_bytes).count() {
        0 => String::new(),
        others => format!(", {} with other bytes", counted(others, "block")),
    };
    let cuts = match count(|outcome| outcome == Outcome::Cut) {
        0 => String::new(),
        cuts => format!(", {}", counted(cuts, "power cut")),
    };
    let rest = format!("{others}{cuts}{}", time_of(moments.iter()).about());
    format!("{commands} ({moved} moved a block, {failed} failed), {accesses} ({errors}){rest}")
}

/// How many accesses the marks stand for.
fn accesses_of<'a>(marks: impl Iterator<Item = &'a Mark>) -> usize {
    marks.map(|mark| mark.accesses()).sum()
}

/// How long the moments take together.
fn time_of<'a>(moments: impl Iterator<Item = &'a Moment>) -> Time {
    moments.map(|moment| moment.took).sum()
}

/// The row of the moments from a heading to the next.
fn row(moments: &[Moment]) -> Row {
    let took = time_of(moments.iter());
    let heading = moments[0].heading.as_deref();
    let mut heading = heading.map_or(Vec::new(), |heading| lines(heading, took));
    let commands: Vec<&Moment> = moments.iter().filter(|moment| !is_bare(moment)).collect();
    let alike: Vec<&[&Moment]> = commands.chunk_by(|one, next| share(one, next)).collect();
    let drawn = choice::drawn(&alike, MOST_CARDS);
    heading.extend(not_drawn(&choice::left_out(&alike, &drawn)));
    Row {
        heading,
        items: placed(items(&alike, &drawn)),
    }
}

/// Makes cards of those groups of commands that are drawn, and gaps of the others.
fn items(alike: &[&[&Moment]], drawn: &[bool]) -> Vec<Item> {
    let groups: Vec<(&&[&Moment], &bool)> = alike.iter().zip(drawn).collect();
    let runs = groups.chunk_by(|one, next| !one.1 && !next.1);
    let items = runs.map(|run| match run {
        [(same, true)] => Item::Card(card(same)),
        left_out => Item::Gap(left_out.iter().map(|(same, _)| same.len()).sum()),
    });
    items.collect()
}

/// Says in a heading how many commands have no card.
fn not_drawn(commands: &[&Moment]) -> Vec<Line> {
    let line = |words| Line {
        look: Look::Rest,
        words,
    };
    let notable = commands.iter().filter(|moment| choice::is_notable(moment));
    let rest = match notable.count() {
        0 => String::from("no failure or move"),
        1 => String::from("1 failure or move"),
        some => format!("{some} failures or moves"),
    };
    let all = commands.len();
    let words = match all {
        0 => String::new(),
        _ => format!("{all} more not drawn, {rest} among them"),
    };
    wrapped(&words, LETTERS).into_iter().map(line).collect()
}

/// A heading alone.
fn is_bare(moment: &Moment) -> bool {
    moment.command.is_empty() && moment.accesses.is_empty() && moment.outcome == Outcome::None
}

/// A heading's lines: what stands before its colon in bold, what its commands took, then the
/// rest.
fn lines(heading: &str, took: Time) -> Vec<Line> {
    let (name, rest) = show::heading(heading);
    let line = |look| move |words| Line { look, words };
    let name = wrapped(name, BOLD_LETTERS)
        .into_iter()
        .map(line(Look::Name));
    let rest = wrapped(rest, LETTERS).into_iter().map(line(Look::Rest));
    let about = (took > Time::ZERO).then(|| format!("about {took}"));
    let about = about.into_iter().map(line(Look::Took));
    name.chain(about).chain(rest).collect()
}

/// The words in lines of at most this many letters; longer words are cut.
fn wrapped(words: &str, most: usize) -> Vec<String> {
    let words = words.split_whitespace().map(|word| shorten(word, most));
    let words: Vec<String> = words.collect();
    show::wrapped(&words.join(" "), most)
}

/// The two commands share a card: they are of one kind, have like accesses, and came to
/// the same. A move and a power cut have cards of their own.
fn share(one: &Moment, next: &Moment) -> bool {
    let alone = |moment: &Moment| moment.moved.is_some() || moment.outcome == Outcome::Cut;
    !(alone(one) || alone(next))
        && one.outcome == next.outcome
        && one.other_bytes == next.other_bytes
        && one.accesses == next.accesses
        && split(&one.command).0 == split(&next.command).0
}

/// Says whether nothing went wrong in the command.
fn is_clean(moment: &Moment) -> bool {
    !choice::is_notable(moment) && moment.accesses.iter().all(|mark| mark.errors() == 0)
}

/// A command's first word and what follows it.
fn split(command: &str) -> (&str, &str) {
    command.split_once(' ').unwrap_or((command, ""))
}

/// Makes the card of commands that share one: with the marks of all if nothing went wrong in
/// them, and else with those that each of them has.
fn card(moments: &[&Moment]) -> Card {
    let first = moments[0];
    let (shown, times) = match is_clean(first) {
        true => (moments, 1),
        false => (&moments[..1], moments.len()),
    };
    let marks = shown.iter().flat_map(|moment| &moment.accesses);
    Card {
        label: label(moments),
        marks: marks.copied().collect(),
        times,
        outcome: first.outcome,
        moved: first.moved,
        took: time_of(moments.iter().copied()),
        other_bytes: first.other_bytes,
    }
}

/// "read 17" for one command, "40 writes, blocks 0–39" for more, and
/// "health, 2 times" for more of one that has no number.
fn label(moments: &[&Moment]) -> String {
    let (verb, rest) = split(&moments[0].command);
    let counts = counted(moments.len(), verb);
    match (moments, block_range(moments)) {
        ([one], _) => shorten(&one.command, 60),
        (_, Some((first, last))) => format!("{counts}, blocks {first}–{last}"),
        _ if rest.is_empty() => format!("{verb}, {} times", moments.len()),
        _ if moments.iter().all(|next| split(&next.command).1 == rest) => {
            shorten(&format!("{counts} {rest}"), 60)
        }
        _ if !is_clean(moments[0]) => shorten(&format!("{counts}{}", of_blocks(moments)), 60),
        _ => shorten(&counts, 60),
    }
}

/// Names the blocks of commands: ", blocks 3, 7–9".
fn of_blocks(moments: &[&Moment]) -> String {
    let number = |moment: &&Moment| split(split(&moment.command).1).0.parse().ok();
    let numbers: Option<Vec<u32>> = moments.iter().map(number).collect();
    numbers.map_or(String::new(), |numbers| {
        format!(", blocks {}", show::ranges(&numbers).replace("..", "–"))
    })
}

/// The first and the last number, if each command has the next one.
fn block_range(moments: &[&Moment]) -> Option<(u32, u32)> {
    let numbers = moments
        .iter()
        .map(|moment| split(&moment.command).1.parse());
    let numbers: Vec<u32> = numbers.collect::<Result<_, _>>().ok()?;
    let (first, last) = (*numbers.first()?, *numbers.last()?);
    let follows = numbers
        .windows(2)
        .all(|pair| pair[0].checked_add(1) == Some(pair[1]));
    follows.then_some((first, last))
}

/// Gives the items their places, from left to right in as many lines as needed.
fn placed(items: Vec<Item>) -> Vec<(i32, i32, Item)> {
    let mut placed = Vec::new();
    let (mut x, mut line) = (CARDS, 0);
    for item in items {
        let width = item.width();
        if x + width > CARDS_END && x > CARDS {
            (x, line) = (CARDS, line + 1);
        }
        placed.push((x, line, item));
        x += width + CARD_GAP;
    }
    placed
}

impl Item {
    fn width(&self) -> i32 {
        match self {
            Item::Card(card) => card.width(),
            Item::Gap(commands) => room(&gap(*commands), 12),
        }
    }

    fn draw(&self, canvas: &mut Canvas, x: i32, y: i32) {
        match self {
            Item::Card(card) => card.draw(canvas, x, y),
            Item::Gap(commands) => {
                let style = format!(r#"fill="{FAINT}""#);
                canvas.text((x, y + CARD / 2 + 4), &style, &gap(*commands));
            }
        }
    }

    /// Tells the item in words.
    fn told(&self) -> String {
        match self {
            Item::Card(card) => card.told(),
            Item::Gap(commands) => format!("{} not drawn", counted(*commands, "command")),
        }
    }
}

/// Gives the words of a gap for so many commands.
fn gap(commands: usize) -> String {
    format!("… {commands} more …")
}

impl Piece {
    fn room(&self) -> i32 {
        match self {
            Piece::One(mark) => mark.room(),
            Piece::Words(words) => room(words, 12) + 8,
        }
    }

    fn draw(&self, canvas: &mut Canvas, x: i32, y: i32) {
        match self {
            Piece::One(mark) => mark.draw(canvas, x, y),
            Piece::Words(words) => {
                let style = format!(r#"fill="{FAINT}""#);
                canvas.text((x + 3, y + 4), &style, words);
            }
        }
    }
}

impl Card {
    /// The marks to draw: all, or the first and the last of too many.
    fn pieces(&self) -> Vec<Piece> {
        let marks = &self.marks;
        let all: i32 = marks.iter().map(|mark| mark.room()).sum();
        let ones = |marks: &[Mark]| marks.iter().copied().map(Piece::One).collect();
        if marks.is_empty() && self.outcome == Outcome::Cut {
            return vec![];
        }
        if marks.is_empty() {
            return vec![Piece::Words("no access".to_string())];
        }
        let apart = self.apart() * marks.len() as i32;
        let free = CARDS_END - CARDS - 2 * MARGIN - self.end_room() - apart;
        if all <= ROOM.min(free) {
            return ones(marks);
        }
        let first = FIRST_ROOM.min(free - MORE_ROOM - LAST_ROOM);
        let first = fitting(marks.iter(), first);
        let last = marks.len() - fitting(marks.iter().rev(), LAST_ROOM);
        let mut pieces: Vec<Piece> = ones(&marks[..first]);
        let more = accesses_of(marks[first..last].iter());
        pieces.push(Piece::Words(format!("… {more} more …")));
        pieces.extend(ones(&marks[last..]));
        pieces
    }

    /// What lies between two marks, beside their own room.
    fn apart(&self) -> i32 {
        if self.marks.len() <= FEW {
            FEW_APART
        } else {
            0
        }
    }

    /// Says whether the marks are those of each of several commands.
    fn is_each(&self) -> bool {
        self.times > 1 && !self.marks.is_empty()
    }

    /// Gives what stands above the marks.
    fn title(&self) -> String {
        match self.is_each() {
            true => format!("{}, each", self.label),
            false => self.label.clone(),
        }
    }

    /// Gives the time of all its commands: "184 s", or "184 s in all" beside the marks of each.
    fn time(&self) -> Option<String> {
        match (self.took, self.is_each()) {
            (Time::ZERO, _) => None,
            (took, true) => Some(format!("{took} in all")),
            (took, false) => Some(took.to_string()),
        }
    }

    /// Gives the outcome whose symbol is drawn: none for a good one with a move or other
    /// bytes, which have marks of their own.
    fn symbol(&self) -> Outcome {
        match self.outcome {
            Outcome::Good if self.other_bytes || self.moved.is_some() => Outcome::None,
            outcome => outcome,
        }
    }

    fn width(&self) -> i32 {
        let pieces = self.pieces();
        let marks: i32 = pieces.iter().map(|piece| piece.room() + self.apart()).sum();
        let words = room(&self.title(), 12) + self.time_room();
        words.max(marks + self.end_room()) + 2 * MARGIN
    }

    /// Gives the room behind the marks for a move, the outcome and other bytes.
    fn end_room(&self) -> i32 {
        let moved = self.moved.map_or(0, Move::room);
        let others = i32::from(self.other_bytes) * marks::other_bytes_room();
        moved + self.symbol().room() + others
    }

    /// Draws the move, the outcome and other bytes in their room, which begins at `x`.
    fn draw_end(&self, canvas: &mut Canvas, mut x: i32, y: i32) {
        if let Some(moved) = self.moved {
            moved.draw(canvas, x, y);
            x += moved.room();
        }
        self.symbol().draw(canvas, x, y);
        if self.other_bytes {
            marks::other_bytes(canvas, x + self.symbol().room(), y);
        }
    }

    /// Room for the time behind the title.
    fn time_room(&self) -> i32 {
        self.time().map_or(0, |time| room(&time, 12) + MARGIN)
    }

    /// Draws the time in the card's upper right corner, unless there is none.
    fn draw_time(&self, canvas: &mut Canvas, right: i32, y: i32) {
        if let Some(time) = self.time() {
            let style = format!(r#"text-anchor="end" fill="{FAINT}""#);
            canvas.text((right - MARGIN, y + 18), &style, &time);
        }
    }

    fn draw(&self, canvas: &mut Canvas, x: i32, y: i32) {
        canvas.rect((x, y), (self.width(), CARD), CARD_STYLE);
        canvas.text((x + MARGIN, y + 18), "", &self.title());
        self.draw_time(canvas, x + self.width(), y);
        let (mut x, y) = (x + MARGIN, y + 35);
        for piece in self.pieces() {
            piece.draw(canvas, x, y);
            x += piece.room() + self.apart();
        }
        self.draw_end(canvas, x, y);
    }

    /// The card in words.
    fn told(&self) -> String {
        let accesses = counted(self.times * accesses_of(self.marks.iter()), "access");
        let errors: usize = self.marks.iter().map(|mark| mark.errors()).sum();
        let (label, errors) = (&self.label, counted(self.times * errors, "error"));
        let others = match self.other_bytes {
            true => ", other bytes",
            false => "",
        };
        let (end, about) = (self.ended(), self.took.about());
        format!("{label}: {accesses}, {errors}{end}{others}{about}")
    }

    /// Says how the commands ended, and what moved: ", failed, spared: 5 → sector 4928, timeout".
    fn ended(&self) -> String {
        match (self.outcome, self.moved) {
            (outcome, None) => outcome.words(),
            (Outcome::Good, Some(moved)) => format!(", spared: {}", moved.words()),
            (outcome, Some(moved)) => format!("{}, spared: {}", outcome.words(), moved.words()),
        }
    }
}

/// How many marks fit into this room.
fn fitting<'a>(marks: impl Iterator<Item = &'a Mark>, room: i32) -> usize {
    let ends = marks.scan(0, |end, mark| {
        *end += mark.room();
        Some(*end)
    });
    ends.take_while(|&end| end <= room).count()
}

/// Draws a row from this height on; hands back where the next begins.
fn draw_row(canvas: &mut Canvas, top: i32, row: &Row) -> i32 {
    draw_heading(canvas, top, &row.heading);
    for (x, line, item) in &row.items {
        let y = top + line * (CARD + CARD_GAP);
        canvas.tip(&item.told(), |canvas| item.draw(canvas, *x, y));
    }
    let lines = row.items.last().map_or(0, |(_, line, _)| line + 1);
    let cards = lines * (CARD + CARD_GAP) - CARD_GAP;
    let heading = row.heading.len() as i32 * LABEL_LINE;
    let end = top + cards.max(heading).max(0) + ROW_GAP / 2;
    let steps = format!("M{EDGE} {end}H{CARDS_END}");
    canvas.path(&steps, r##"stroke="#d1d9e0""##);
    end + ROW_GAP / 2
}

fn draw_heading(canvas: &mut Canvas, top: i32, heading: &[Line]) {
    for (at, line) in heading.iter().enumerate() {
        let style = match line.look {
            Look::Name => r#"font-size="14" font-weight="bold""#.to_string(),
            Look::Took => String::new(),
            Look::Rest => format!(r#"fill="{FAINT}""#),
        };
        let y = top + 13 + LABEL_LINE * at as i32;
        canvas.text((EDGE, y), &style, &line.words);
    }
}

#[cfg(test)]
mod tests {
    use reference::image::Cause;

    use super::super::svg::check;
    use super::Mark::*;
    use super::*;
    use crate::clock::REVOLUTION;

    fn heading(words: &str) -> Moment {
        Moment {
            heading: Some(words.to_string()),
            ..moment("", &[], Outcome::None)
        }
    }

    fn moment(command: &str, accesses: &[Mark], outcome: Outcome) -> Moment {
        Moment {
            heading: None,
            command: command.to_string(),
            accesses: accesses.to_vec(),
            outcome,
            moved: None,
            took: Time::ZERO,
            other_bytes: false,
        }
    }

    /// The command, which moved this block to the first spare.
    fn moving(block: u32, moment: Moment) -> Moment {
        let moved = Move {
            block,
            sector: 4928,
            cause: Cause::Crc,
        };
        Moment {
            moved: Some(moved),
            ..moment
        }
    }

    /// A good command on each of the blocks.
    fn each(verb: &str, blocks: std::ops::Range<u32>, accesses: &[Mark]) -> Vec<Moment> {
        let command = |block| moment(&format!("{verb} {block}"), accesses, Outcome::Good);
        blocks.map(command).collect()
    }

    /// The labels of the cards that these commands get, all in one row.
    fn labels(moments: &[Moment]) -> Vec<String> {
        let items = row(moments).items.into_iter();
        let label = |item| match item {
            Item::Card(card) => card.title(),
            Item::Gap(commands) => gap(commands),
        };
        items.map(|(_, _, item)| label(item)).collect()
    }

    /// The picture, looked over.
    fn drawn(moments: &[Moment]) -> String {
        let svg = timeline("A run", moments);
        check::picture(&svg);
        svg
    }

    fn rereads(failed: u32) -> Mark {
        Rereads { all: 100, failed }
    }

    fn week() -> Vec<Moment> {
        let long = [CrcError, Read, CrcError, Timeout, Read, Write, rereads(31)];
        let moved = [&long[..], &[Write, rereads(0), Store]].concat();
        [
            vec![heading("Monday: the host writes the file")],
            each("write", 0..40, &[Write]),
            each("read", 0..40, &[Read]),
            vec![heading("Tuesday: two rereads")],
            vec![moment(
                "read 17",
                &[CrcError, CrcError, Read],
                Outcome::Good,
            )],
            vec![heading("Wednesday: the block moves")],
            vec![moving(17, moment("read 17", &moved, Outcome::Good))],
            vec![heading("Thursday: nothing is left to store")],
            vec![moment("raise", &[], Outcome::None)],
            vec![heading("Friday: written with verify")],
            each("write/verify", 0..40, &[Write, Read]),
            vec![heading("Saturday: it is cut")],
            each("read", 0..40, &[Read]),
        ]
        .concat()
    }

    #[test]
    fn the_week() {
        let svg = drawn(&week());
        for words in [
            "40 writes, blocks 0–39: 40 accesses, 0 errors, good",
            "read 17: 3 accesses, 2 errors, good",
            "read 17: 208 accesses, 34 errors, spared: 17 → sector 4928, CRC error",
            "raise: 0 accesses, 0 errors",
            "40 write/verifies, blocks 0–39: 80 accesses, 0 errors, good",
        ] {
            assert!(svg.contains(&format!("<title>{words}</title>")), "{words}");
        }
        let sum = "162 commands (1 moved a block, 0 failed), 411 surface accesses (36 errors)";
        assert!(svg.contains(&format!(">{sum}</text>")));
        for words in ["31 of 100", "0 of 100"] {
            assert_eq!(
                svg.matches(&format!(">{words}</text>")).count(),
                1,
                "{words}"
            );
        }
        assert_eq!(svg.matches(">40 reads, blocks 0–39</text>").count(), 2);
        let words = ">17 → sector 4928, CRC error</text>";
        assert_eq!(svg.matches(words).count(), 1);
        assert!(svg.len() < 25_000, "{}", svg.len());
    }

    #[test]
    fn a_heading_begins_a_row() {
        let svg = drawn(&week());
        for day in [
            "Monday",
            "Tuesday",
            "Wednesday",
            "Thursday",
            "Friday",
            "Saturday",
        ] {
            assert!(
                svg.contains(&format!("font-weight=\"bold\">{day}</text>")),
                "{day}"
            );
        }
        let with = Moment {
            heading: Some("Sunday".to_string()),
            ..moment("raise", &[], Outcome::None)
        };
        assert_eq!(labels(&[with]), ["raise"]);
        assert!(labels(&[heading("Sunday")]).is_empty());
    }

    #[test]
    fn clean_commands_of_one_kind_share_a_card() {
        let two = |other: Moment| labels(&[moment("read 1", &[Read], Outcome::Good), other]);
        assert_eq!(
            two(moment("read 2", &[Read], Outcome::Good)),
            ["2 reads, blocks 1–2"]
        );
        assert_eq!(two(moment("read 7", &[Read], Outcome::Good)), ["2 reads"]);
        assert_eq!(two(moment("read 1", &[Read], Outcome::Good)), ["2 reads 1"]);
        assert_eq!(
            two(moment("write 2", &[Read], Outcome::Good)),
            ["read 1", "write 2"]
        );
        assert_eq!(
            two(moment("read 2", &[Read, Read], Outcome::Good)),
            ["read 1", "read 2"]
        );
        assert_eq!(
            two(moment("read 2", &[Read], Outcome::Failed)),
            ["read 1", "read 2"]
        );
    }

    #[test]
    fn reads_of_the_health_block() {
        let health = moment("health", &[], Outcome::Good);
        let svg = drawn(&[heading("Monday"), health.clone()]);
        assert!(svg.contains("<title>health: 0 accesses, 0 errors, good</title>"));
        assert!(svg.contains(">no access</text>"));
        assert_eq!(
            labels(&[health.clone(), health.clone()]),
            ["health, 2 times"]
        );
        let failed = moment("health", &[], Outcome::Failed);
        assert_eq!(labels(&[failed.clone(), health]), ["health", "health"]);
        assert_eq!(labels(&[failed.clone(), failed]), ["health, 2 times"]);
    }

    #[test]
    fn equal_errors_and_failures_fold() {
        let fold = |one: &str, other: &str, marks: &[Mark], outcome| {
            labels(&[moment(one, marks, outcome), moment(other, marks, outcome)])
        };
        let error = [CrcError, Read];
        assert_eq!(
            fold("read 1", "read 1", &error, Outcome::Good),
            ["2 reads 1, each"]
        );
        assert_eq!(
            fold("read 1", "read 2", &error, Outcome::Failed),
            ["2 reads, blocks 1–2, each"]
        );
        assert_eq!(
            fold("read 9 2 1", "read 7 3 1", &error, Outcome::Failed),
            ["2 reads, blocks 9, 7, each"]
        );
        let reads = |numbers: [u32; 4]| {
            labels(&numbers.map(|n| moment(&format!("read {n}"), &error, Outcome::Failed)))
        };
        assert_eq!(reads([3, 4, 5, 3]), ["4 reads, blocks 3–5, 3, each"]);
        assert_eq!(
            fold("raise", "raise", &[], Outcome::Refused),
            ["raise, 2 times"]
        );
        assert_eq!(fold("read 1", "write 1", &error, Outcome::Failed).len(), 2);
        for outcome in [Outcome::Good, Outcome::Failed] {
            let moved = moving(1, moment("read 1", &error, outcome));
            assert_eq!(labels(&[moved.clone(), moved.clone()]).len(), 2);
            let not = moment("read 1", &error, outcome);
            assert_eq!(labels(&[not, moved]).len(), 2);
        }
        let failed = moment("read 1", &error, Outcome::Failed);
        let other = moment("read 1", &[CrcError], Outcome::Failed);
        assert_eq!(labels(&[failed, other]).len(), 2);
    }

    #[test]
    fn folded_failures_show_the_marks_of_one_and_count_those_of_all() {
        let failed = |block| moment(&format!("read {block}"), &[CrcError; 11], Outcome::Failed);
        let moments: Vec<Moment> = (100..140).map(failed).collect();
        let svg = drawn(&moments);
        let words = "40 reads, blocks 100–139: 440 accesses, 440 errors, failed";
        assert!(svg.contains(&format!("<title>{words}</title>")));
        assert!(svg.contains(">40 reads, blocks 100–139, each</text>"));
        // Eleven on the card, and one in the legend.
        assert_eq!(svg.matches("l8 8m0 -8l-8 8").count(), 12);
        assert!(svg.contains(">40 commands (0 moved a block, 40 failed), 440 surface accesses"));
    }

    #[test]
    fn other_bytes_are_a_failure() {
        let good = moment("read 1", &[Read], Outcome::Good);
        let other = Moment {
            other_bytes: true,
            ..moment("read 2", &[Read], Outcome::Good)
        };
        assert_eq!(labels(&[good.clone(), other.clone()]).len(), 2);
        let more = Moment {
            command: String::from("read 3"),
            ..other.clone()
        };
        let svg = drawn(&[good, other.clone(), more]);
        assert!(svg.contains("<title>read 1: 1 access, 0 errors, good</title>"));
        let words = "2 reads, blocks 2–3: 2 accesses, 0 errors, good, other bytes";
        assert!(svg.contains(&format!("<title>{words}</title>")));
        // The words stand on the card and in the legend, and the tick of a good command on
        // the first card and in the legend alone.
        assert_eq!(svg.matches(">other bytes</text>").count(), 2);
        assert_eq!(svg.matches("l3 3l5 -6").count(), 2);
        assert!(svg.contains(" surface accesses (0 errors), 2 blocks with other bytes<"));
        let svg = drawn(&[moving(2, other)]);
        assert!(svg.contains(">2 → sector 4928, CRC error</text>"));
        assert_eq!(svg.matches(">other bytes</text>").count(), 2);
    }

    #[test]
    fn a_move_whose_command_failed_has_both_marks() {
        let moved = |outcome| moving(5, moment("write 5", &[Timeout, Write, Timeout], outcome));
        let svg = drawn(&[moved(Outcome::Failed)]);
        let words = "write 5: 3 accesses, 2 errors, failed, spared: 5 → sector 4928, CRC error";
        assert!(svg.contains(&format!("<title>{words}</title>")), "{svg}");
        let sum = ">1 command (1 moved a block, 1 failed), 3 surface accesses (2 errors)</text>";
        assert!(svg.contains(sum), "{svg}");
        let pill = svg.find(">5 → sector 4928, CRC error</text>");
        let pill = pill.expect("the move");
        // The cross of a failed command is on the card behind the move, and in the legend.
        let cross = "l6 6m0 -6l-6 6";
        assert_eq!(svg.matches(cross).count(), 2);
        assert_eq!(svg[pill..].matches(cross).count(), 2);
        let width = |outcome| card(&[&moved(outcome)]).width();
        let failure = Outcome::Failed.room();
        assert_eq!(width(Outcome::Failed), width(Outcome::Good) + failure);
    }

    #[test]
    fn power_cuts() {
        let cut = moment("read 17", &[CrcError, Read, Write], Outcome::Cut);
        let svg = drawn(&[heading("Wednesday"), cut.clone()]);
        let words = "read 17: 3 accesses, 1 error, power fails";
        assert!(svg.contains(&format!("<title>{words}</title>")));
        // Its card and the legend have the words.
        assert_eq!(svg.matches(">power fails</text>").count(), 2);
        let sum =
            "0 commands (0 moved a block, 0 failed), 3 surface accesses (1 error), 1 power cut";
        assert!(svg.contains(&format!(">{sum}</text>")));
        assert_eq!(labels(&[cut.clone(), cut]), ["read 17", "read 17"]);
        let first = drawn(&[moment("start", &[], Outcome::Cut)]);
        assert!(first.contains("<title>start: 0 accesses, 0 errors, power fails</title>"));
        assert!(!first.contains(">no access</text>"));
    }

    #[test]
    fn commands_that_share_a_card_have_their_time_together() {
        let took = REVOLUTION * 30;
        let timed = |moment: Moment| Moment { took, ..moment };
        let all: Vec<Moment> = each("read", 0..4, &[Read]).into_iter().map(timed).collect();
        let svg = drawn(&all);
        let words = "4 reads, blocks 0–3: 4 accesses, 0 errors, good, about 2.0 s";
        assert!(svg.contains(&format!("<title>{words}</title>")), "{svg}");
        assert!(svg.contains(">2.0 s</text>"));
        assert!(svg.contains(", 4 surface accesses (0 errors), about 2.0 s</text>"));
        let width = |moments: &[Moment]| row(moments).items[0].2.width();
        let without = width(&[moment("read 1", &[Read], Outcome::None)]);
        let with = width(&[timed(moment("read 1", &[Read], Outcome::None))]);
        assert_eq!(with - without, room("0.500 s", 12) + MARGIN);
    }

    #[test]
    fn a_heading_has_the_time_of_its_commands() {
        let timed = |name| Moment {
            took: REVOLUTION * 30,
            ..moment(name, &[Read], Outcome::Good)
        };
        let svg = drawn(&[
            timed("start"),
            heading("Monday: it is read"),
            timed("read 1"),
            timed("read 1000"),
            timed("read 7"),
            heading("Tuesday"),
            moment("raise", &[], Outcome::None),
        ]);
        assert_eq!(svg.matches(">about ").count(), 1, "{svg}");
        let words = [
            ">Monday</text>",
            ">about 1.5 s</text>",
            ">it is read</text>",
        ];
        let places = words.map(|words| svg.find(words).expect(words));
        assert!(places.is_sorted());
    }

    #[test]
    fn folded_failures_have_their_time_together() {
        let took = REVOLUTION * 30;
        let failed = |block: u64| Moment {
            took: took * (1 + block % 2),
            ..moment(&format!("read {block}"), &[CrcError], Outcome::Failed)
        };
        let all: Vec<Moment> = (0..40).map(failed).collect();
        let svg = drawn(&all);
        let words = "40 reads, blocks 0–39: 40 accesses, 40 errors, failed, about 30.0 s";
        assert!(svg.contains(&format!("<title>{words}</title>")), "{svg}");
        assert!(svg.contains(">40 reads, blocks 0–39, each</text>"));
        assert!(svg.contains(">30.0 s in all</text>"));
        let title = room("40 reads, blocks 0–39, each", 12);
        let width = title + room("30.0 s in all", 12) + 3 * MARGIN;
        assert_eq!(row(&all).items[0].2.width(), width);
        assert!(drawn(&all[1..2]).contains(">1.0 s</text>"));
    }

    #[test]
    fn the_line_below_the_title_has_other_bytes_power_cuts_and_the_time() {
        let took = REVOLUTION * 30;
        let timed = |moment: Moment| Moment { took, ..moment };
        let other = Moment {
            other_bytes: true,
            ..timed(moment("read 1", &[Read], Outcome::Good))
        };
        let cut = timed(moment("read 2", &[Read], Outcome::Cut));
        let svg = drawn(&[other, cut]);
        let words = " (0 errors), 1 block with other bytes, 1 power cut, about 1.0 s</text>";
        assert!(svg.contains(words), "{svg}");
        let words = "read 1: 1 access, 0 errors, good, other bytes, about 0.500 s";
        assert!(svg.contains(&format!("<title>{words}</title>")), "{svg}");
    }

    #[test]
    fn too_many_cards_are_counted() {
        let refused = |at: u32| moment(&format!("raise{at}"), &[], Outcome::Refused);
        let refused: Vec<Moment> = (0..300).map(refused).collect();
        let all = [refused, each("read", 0..7, &[Read])].concat();
        assert!(row(&all[..300]).heading.is_empty());
        let words: Vec<String> = row(&all).heading.into_iter().map(|l| l.words).collect();
        assert_eq!(
            words.join(" "),
            "7 more not drawn, no failure or move among them"
        );
        let labels = labels(&all);
        assert_eq!((labels.len(), labels[300].as_str()), (301, "… 7 more …"));
        drawn(&all);
    }

    #[test]
    fn failures_and_moves_are_drawn_before_others() {
        let command = |at: u32| match at {
            350 | 920 => moment(&format!("read {at}"), &[CrcError], Outcome::Failed),
            400 => Moment {
                other_bytes: true,
                ..moment("read 400", &[Read], Outcome::Good)
            },
            901 => moving(901, moment("read 901", &[CrcError], Outcome::Good)),
            // Good ones that share no card.
            _ => moment(&format!("x{at}"), &[Read], Outcome::Good),
        };
        let moments: Vec<Moment> = (0..1000).map(command).collect();
        let labels = labels(&moments);
        assert_eq!(labels[..2], ["x0", "x1"]);
        let last = [
            "x295",
            "… 54 more …",
            "read 350",
            "… 49 more …",
            "read 400",
            "… 500 more …",
            "read 901",
            "… 18 more …",
            "read 920",
            "… 79 more …",
        ];
        assert_eq!(labels[295..], last);
        let heading = row(&moments).heading;
        assert_eq!(heading[0].words, "700 more not drawn, no");
        drawn(&moments);
    }

    #[test]
    fn of_too_many_failures_the_first_are_drawn_and_all_moves() {
        let failed = |at: u32| moment(&format!("x{at}"), &[], Outcome::Failed);
        let mut moments: Vec<Moment> = (0..310).map(failed).collect();
        moments.push(Moment {
            other_bytes: true,
            ..moment("read 5", &[Read], Outcome::Good)
        });
        moments.push(moving(6, moment("write 6", &[Timeout], Outcome::Failed)));
        let words: Vec<String> = row(&moments).heading.into_iter().map(|l| l.words).collect();
        assert_eq!(
            words.join(" "),
            "12 more not drawn, 12 failures or moves among them"
        );
        let labels = labels(&moments);
        assert_eq!(labels[297..], ["x297", "… 12 more …", "read 5", "write 6"]);
    }

    #[test]
    fn too_many_marks_are_counted() {
        let card =
            |marks: usize| card(&[&moment("read 1", &vec![CrcError; marks], Outcome::Failed)]);
        assert_eq!(card(40).pieces().len(), 40);
        let pieces = card(346).pieces();
        let left: Vec<String> = pieces
            .iter()
            .filter_map(|piece| match piece {
                Piece::Words(words) => Some(words.clone()),
                Piece::One(_) => None,
            })
            .collect();
        let shown = pieces.len() - 1;
        assert_eq!(left, [format!("… {} more …", 346 - shown)]);
        assert!(card(346).width() <= CARDS_END - CARDS);
    }

    #[test]
    fn the_longest_read_fits_its_card() {
        let trial = [
            Write,
            Rereads {
                all: 100,
                failed: 31,
            },
        ];
        let marks = [vec![CrcError; 346], trial.repeat(33), vec![Store]].concat();
        let moment = moment("read 1", &marks, Outcome::Failed);
        let card = card(&[&moment]);
        assert_eq!(card.told(), "read 1: 3680 accesses, 1369 errors, failed");
        assert!(card.width() <= CARDS_END - CARDS);
        let pieces = card.pieces();
        let shown = pieces.iter().map(|piece| match piece {
            Piece::One(mark) => mark.accesses(),
            Piece::Words(_) => 0,
        });
        let words = format!("… {} more …", 3680 - shown.sum::<usize>());
        let left = |piece: &Piece| matches!(piece, Piece::Words(said) if *said == words);
        assert!(pieces.iter().any(left), "{words}");
        drawn(&[moment]);
    }

    #[test]
    fn a_long_move_that_failed_fits_its_card() {
        let trials = [Write, rereads(31)].repeat(4);
        let long = [vec![Timeout; 346], trials.repeat(8)].concat();
        let few = [vec![Timeout; 11], trials].concat();
        for marks in [long, few] {
            let moment = moving(9727, moment("write 9727", &marks, Outcome::Failed));
            let card = card(&[&moment]);
            assert!(card.width() <= CARDS_END - CARDS, "{}", card.width());
            let some = |piece: &Piece| matches!(piece, Piece::Words(_));
            assert!(card.pieces().iter().any(some));
            drawn(&[moment]);
        }
    }

    #[test]
    fn trials_that_went_well_share_a_card() {
        let two = |failed| labels(&each("write", 1..3, &[Write, rereads(failed)]));
        assert_eq!(two(0), ["2 writes, blocks 1–2"]);
        assert_eq!(two(1), ["2 writes, blocks 1–2, each"]);
    }

    #[test]
    fn long_rows_wrap() {
        let command = |block| {
            moving(
                block,
                moment(&format!("read {block}"), &[NoSettle; 100], Outcome::Good),
            )
        };
        let moments: Vec<Moment> = (0..9).map(command).collect();
        let lines: Vec<i32> = row(&moments).items.iter().map(|item| item.1).collect();
        assert_eq!(lines, [0, 1, 2, 3, 4, 5, 6, 7, 8]);
        let svg = drawn(&moments);
        for block in 0..9 {
            let words = format!("{block} → sector 4928, CRC error");
            assert!(svg.contains(&format!(">{words}</text>")), "{words}");
        }
        let short = [
            moment("x", &[], Outcome::Good),
            moment("y", &[], Outcome::Good),
        ];
        let short = row(&short).items;
        assert_eq!((short[0].1, short[1].1), (0, 0));
        assert_eq!(short[1].0, CARDS + short[0].2.width() + CARD_GAP);
    }

    #[test]
    fn headings_wrap_between_words() {
        let words = "31 of a hundred rereads fail, and the block moves to a spare";
        let lines = wrapped(words, LETTERS);
        assert!(lines.iter().all(|line| line.chars().count() <= LETTERS));
        assert_eq!(lines.join(" "), words);
        assert_eq!(lines.len(), 3);
        assert_eq!(wrapped("abcdefgh", 4), ["abc…"]);
        assert!(wrapped(" ", 4).is_empty());
    }

    #[test]
    fn text_is_escaped() {
        let svg = drawn(&[
            heading("<Monday> & more: \"so\""),
            moment("read <17>", &[], Outcome::Refused),
        ]);
        assert!(svg.contains(">&lt;Monday&gt; &amp; more</text>"));
        assert!(svg.contains(">&quot;so&quot;</text>"));
        assert!(svg.contains("<title>read &lt;17&gt;: 0 accesses, 0 errors, refused</title>"));
        assert!(svg.contains(">no access</text>"));
    }

    #[test]
    fn nothing_to_show() {
        let svg = drawn(&[]);
        assert!(
            svg.contains(">0 commands (0 moved a block, 0 failed), 0 surface accesses (0 errors)<")
        );
    }

    #[test]
    fn a_long_run_stays_small() {
        let moments = each("write", 0..9728, &[Write, Read]);
        assert!(drawn(&moments).len() < 12_000);
        assert_eq!(labels(&moments), ["9728 writes, blocks 0–9727"]);
    }
}
