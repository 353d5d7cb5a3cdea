//! The marks of a time line: surface accesses and outcomes of commands.

use reference::image::Cause;

use super::super::svg::{room, Canvas, Key, BAD, MOVED, TABLE};
use crate::table;

/// One surface access, or the rereads of a trial. Read, write and store went well; CRC
/// error, timeout and no settle are errors.
#[derive(Clone, Copy, Debug, PartialEq, Eq)]
pub enum Mark {
    Read,
    Write,
    Store,
    CrcError,
    Timeout,
    NoSettle,
    /// So many of them failed.
    Rereads {
        all: u32,
        failed: u32,
    },
}

/// How a command ended.
#[derive(Clone, Copy, Debug, PartialEq, Eq)]
pub enum Outcome {
    Good,
    Failed,
    Refused,
    /// The power failed.
    Cut,
    None,
}

/// A block that moved to a spare, whether its command was good or failed.
#[derive(Clone, Copy, Debug, PartialEq, Eq)]
pub struct Move {
    pub block: u32,
    pub sector: u32,
    pub cause: Cause,
}

const READ: &str = r##"fill="#2563a8""##;
const WRITE: &str = r##"fill="#e5a50a""##;
const GOOD: &str = r##"fill="#1f883d""##;
const REFUSED: &str = r##"fill="#59636e""##;
const WHITE_LINE: &str = r##"fill="none" stroke="#ffffff" stroke-width="2""##;
const WHITE_WORDS: &str = r##"font-weight="bold" text-anchor="middle" fill="#ffffff""##;

/// The bar of a trial's rereads is this wide.
const REREADS: i32 = 78;

/// The words of a power cut.
const POWER_FAILS: &str = "power fails";

/// A comparison found other bytes.
const OTHER_BYTES: &str = "other bytes";

/// What stands behind the words of a power cut, and its flash.
const DARK: &str = "#1f2328";
const FLASH: &str = r##"fill="#ffd33d""##;

/// Errors have shades of red; that of a CRC error is `BAD`.
const TIMEOUT: &str = "#a40e26";
const NO_SETTLE: &str = "#6e011a";

impl Mark {
    /// How many accesses it stands for.
    pub fn accesses(self) -> usize {
        match self {
            Mark::Rereads { all, .. } => all as usize,
            _ => 1,
        }
    }

    /// How many of them went wrong.
    pub fn errors(self) -> usize {
        match self {
            Mark::Read | Mark::Write | Mark::Store => 0,
            Mark::CrcError | Mark::Timeout | Mark::NoSettle => 1,
            Mark::Rereads { failed, .. } => failed as usize,
        }
    }

    /// Room from one mark to the next.
    pub fn room(self) -> i32 {
        match self {
            Mark::Read | Mark::Write => 5,
            Mark::CrcError | Mark::Timeout | Mark::NoSettle => 12,
            Mark::Store => 18,
            Mark::Rereads { .. } => REREADS + 4,
        }
    }

    /// Draws it in its room, which begins at `x`, around the height `y`.
    pub fn draw(self, canvas: &mut Canvas, x: i32, y: i32) {
        let line = |colour| format!(r#"fill="none" stroke="{colour}" stroke-width="2""#);
        match self {
            Mark::Read => canvas.rect((x + 1, y - 8), (3, 16), READ),
            Mark::Write => canvas.rect((x + 1, y - 8), (3, 16), WRITE),
            Mark::Store => store(canvas, x, y),
            Mark::CrcError => {
                let steps = format!("M{} {}l8 8m0 -8l-8 8", x + 2, y - 4);
                canvas.path(&steps, &line(BAD));
            }
            Mark::Timeout => canvas.circle((x + 6, y), 4, &line(TIMEOUT)),
            Mark::NoSettle => {
                let steps = format!("M{} {}l6 11h-12Z", x + 6, y - 6);
                canvas.path(&steps, &format!(r#"fill="{NO_SETTLE}""#));
            }
            Mark::Rereads { all, failed } => {
                bar(canvas, (x + 2, y), REREADS, (failed, all));
                let at = (x + 2 + REREADS / 2, y + 4);
                canvas.text(at, WHITE_WORDS, &format!("{failed} of {all}"));
            }
        }
    }

    /// Draws it in the legend, around a place.
    fn key(self, canvas: &mut Canvas, x: i32, y: i32) {
        self.draw(canvas, x - self.room() / 2, y);
    }
}

/// The rereads of a trial: a bar of this width around the height `y`, and at its left the
/// share of those that failed.
fn bar(canvas: &mut Canvas, (x, y): (i32, i32), width: i32, (failed, all): (u32, u32)) {
    let share = i64::from(width) * i64::from(failed) / i64::from(all.max(1));
    canvas.rect((x, y - 8), (width, 16), READ);
    if share > 0 {
        canvas.rect((x, y - 8), (share as i32, 16), &format!(r#"fill="{BAD}""#));
    }
}

/// A store: the table in its colour, with two of its lines.
fn store(canvas: &mut Canvas, x: i32, y: i32) {
    let style = format!(r#"rx="2" fill="{TABLE}""#);
    canvas.rect((x + 1, y - 8), (16, 16), &style);
    canvas.path(&format!("M{} {}h10m-10 6h10", x + 4, y - 3), WHITE_LINE);
}

impl Outcome {
    /// Room behind the marks.
    pub fn room(self) -> i32 {
        match self {
            Outcome::Good | Outcome::Failed | Outcome::Refused => 24,
            Outcome::Cut => room(POWER_FAILS, 12) + 36,
            Outcome::None => 0,
        }
    }

    /// Draws its symbol in its room, which begins at `x`.
    pub fn draw(self, canvas: &mut Canvas, x: i32, y: i32) {
        match self {
            Outcome::Good => good(canvas, x + 14, y),
            Outcome::Failed => failed(canvas, x + 14, y),
            Outcome::Refused => refused(canvas, x + 14, y),
            Outcome::Cut => cut(canvas, x + 6, y),
            Outcome::None => {}
        }
    }

    /// How a card's words end.
    pub fn words(self) -> String {
        match self {
            Outcome::Good => ", good".to_string(),
            Outcome::Failed => ", failed".to_string(),
            Outcome::Refused => ", refused".to_string(),
            Outcome::Cut => format!(", {POWER_FAILS}"),
            Outcome::None => String::new(),
        }
    }
}

impl Move {
    /// Gives the room behind the marks.
    pub fn room(self) -> i32 {
        room(&self.words(), 12) + 24
    }

    /// Draws it in its room, which begins at `x`.
    pub fn draw(self, canvas: &mut Canvas, x: i32, y: i32) {
        pill(canvas, x + 6, y, &self.words());
    }

    /// Says where the block moved and why: "17 → sector 4929, CRC error".
    pub fn words(self) -> String {
        let cause = table::cause(self.cause);
        format!("{} → sector {}, {cause}", self.block, self.sector)
    }
}

fn good(canvas: &mut Canvas, x: i32, y: i32) {
    canvas.circle((x, y), 8, GOOD);
    canvas.path(&format!("M{} {y}l3 3l5 -6", x - 4), WHITE_LINE);
}

fn failed(canvas: &mut Canvas, x: i32, y: i32) {
    canvas.circle((x, y), 8, &format!(r#"fill="{BAD}""#));
    canvas.path(&format!("M{} {}l6 6m0 -6l-6 6", x - 3, y - 3), WHITE_LINE);
}

fn refused(canvas: &mut Canvas, x: i32, y: i32) {
    canvas.circle((x, y), 8, REFUSED);
    canvas.path(&format!("M{} {y}h8", x - 4), WHITE_LINE);
}

/// A power cut: a flash, and its words.
fn cut(canvas: &mut Canvas, x: i32, y: i32) {
    let width = room(POWER_FAILS, 12) + 28;
    let style = format!(r#"rx="3" fill="{DARK}""#);
    canvas.rect((x, y - 9), (width, 18), &style);
    flash(canvas, x + 11, y);
    let at = (x + 19 + room(POWER_FAILS, 12) / 2, y + 4);
    canvas.text(at, WHITE_WORDS, POWER_FAILS);
}

/// A flash around a place.
fn flash(canvas: &mut Canvas, x: i32, y: i32) {
    let steps = format!("M{} {}l-6 9h4l-2 6l7 -9h-4l3 -6Z", x + 1, y - 8);
    canvas.path(&steps, FLASH);
}

/// A power cut in the legend.
fn cut_key(canvas: &mut Canvas, x: i32, y: i32) {
    let style = format!(r#"rx="3" fill="{DARK}""#);
    canvas.rect((x - 9, y - 9), (18, 18), &style);
    flash(canvas, x, y);
}

/// Words on a long round mark.
fn pill(canvas: &mut Canvas, x: i32, y: i32, words: &str) {
    let width = room(words, 12) + 16;
    let style = format!(r#"rx="9" fill="{MOVED}""#);
    canvas.rect((x, y - 9), (width, 18), &style);
    canvas.text((x + width / 2, y + 4), WHITE_WORDS, words);
}

/// Gives the room that other bytes take behind an outcome.
pub fn other_bytes_room() -> i32 {
    room(OTHER_BYTES, 12) + 40
}

/// Says in its room, which begins at `x`, that other bytes were found.
pub fn other_bytes(canvas: &mut Canvas, x: i32, y: i32) {
    let width = room(OTHER_BYTES, 12) + 30;
    let style = format!(r#"rx="9" fill="{BAD}""#);
    canvas.rect((x + 6, y - 9), (width, 18), &style);
    failed(canvas, x + 15, y);
    let at = (x + 25 + room(OTHER_BYTES, 12) / 2, y + 4);
    canvas.text(at, WHITE_WORDS, OTHER_BYTES);
}

/// Gives the legend of marks and outcomes, with other bytes if they are wanted.
pub fn keys(other_bytes: bool) -> Vec<Key> {
    let key = |symbol: fn(&mut Canvas, i32, i32), words: &str| (symbol, words.to_string());
    let others = other_bytes.then(|| key(other_bytes_key, OTHER_BYTES));
    let always = vec![
        key(|c, x, y| Mark::Read.key(c, x, y), "read, good"),
        key(|c, x, y| Mark::Write.key(c, x, y), "write, done"),
        key(|c, x, y| Mark::Store.key(c, x, y), "store of the table"),
        key(|c, x, y| Mark::CrcError.key(c, x, y), "CRC error"),
        key(|c, x, y| Mark::Timeout.key(c, x, y), "timeout"),
        key(|c, x, y| Mark::NoSettle.key(c, x, y), "no settle"),
        key(
            |c, x, y| bar(c, (x - 12, y), 24, (31, 100)),
            "a trial's rereads",
        ),
        key(good, "command good"),
        key(|c, x, y| pill(c, x - 12, y, "→"), "moved to a spare"),
        key(failed, "command failed"),
        key(refused, "refused"),
        key(cut_key, POWER_FAILS),
    ];
    always.into_iter().chain(others).collect()
}

/// Draws other bytes in the legend.
fn other_bytes_key(canvas: &mut Canvas, x: i32, y: i32) {
    let style = format!(r#"rx="9" fill="{BAD}""#);
    canvas.rect((x - 12, y - 9), (24, 18), &style);
    failed(canvas, x, y);
}
