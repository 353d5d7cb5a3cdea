//! Colours and symbols of a platter's picture, and its legend.

use reference::geometry::{BLOCKS, SPARES, TABLE as TABLE_SECTOR};

use super::super::svg::{Canvas, Key, BAD, INK, MOVED, TABLE};
use super::map::CELL;
use super::view::{State, Use, View, RESERVED_SECTORS};
use crate::show::count_or_no;

/// What the sectors are filled with, beside moved blocks and the table.
pub const HOME: &str = "#c3d3e6";
const NO_USE: &str = "#e6e3dc";
const UNUSED: &str = "#bfe3c4";
const UNKNOWN: &str = "#ffffff";
const DEAD: &str = "#59636e";

/// The outline of a spare of which nothing is known.
pub const DASHES: &str = r##"stroke="#8c959f" stroke-dasharray="3 2""##;

/// The legend, with a count before each noun. What only a table tells is not known without
/// one.
pub fn keys(view: &View) -> Vec<Key> {
    let known = |count: usize, noun: &str| match view.known {
        true => count_of(count, noun),
        false => format!("{noun}s: not known"),
    };
    let spares: Key = match view.known {
        true => (
            unused_key,
            count_of(view.count(State::Unused), "unused spare"),
        ),
        false => (unknown_key, format!("{SPARES} spares, states not known")),
    };
    let uses = RESERVED_SECTORS.map(|sector| view.use_of(sector));
    let no_use = uses.filter(|&of| of == Use::Nothing).count();
    let table = TABLE_SECTOR.number();
    vec![
        (home_key, format!("{BLOCKS} homes of blocks")),
        (moved_key, known(view.moves.len(), "moved block")),
        (bad_key, known(view.bads.len(), "bad block")),
        (
            dot_key,
            count_of(view.unreadable.len(), "unreadable sector"),
        ),
        spares,
        (dead_key, known(view.count(State::Dead), "dead spare")),
        (table_key, format!("the table, in sector {table}")),
        (no_use_key, format!("{no_use} sectors of no use")),
    ]
}

/// Counts things: "2 bad blocks", or "no bad block".
fn count_of(count: usize, noun: &str) -> String {
    count_or_no(count as u64, noun, &format!("{noun}s"))
}

/// The attribute of a filled shape.
pub fn filled(colour: &str) -> String {
    format!(r#"fill="{colour}""#)
}

/// The colour of a sector of cylinder 77.
pub fn colour(of: Use) -> &'static str {
    match of {
        Use::Spare(_, State::Unused) => UNUSED,
        Use::Spare(_, State::Unknown) => UNKNOWN,
        Use::Spare(_, State::Dead) => DEAD,
        Use::Spare(_, State::Moved(_)) => MOVED,
        Use::Table => TABLE,
        Use::Nothing => NO_USE,
    }
}

/// The cross of a dead spare.
pub fn cross(canvas: &mut Canvas, x: i32, y: i32, half: i32) {
    let (left, top, side) = (x - half, y - half, 2 * half);
    let steps = format!("M{left} {top}l{side} {side}m0 -{side}l-{side} {side}");
    canvas.path(&steps, r##"stroke="#ffffff" stroke-width="2""##);
}

/// The mark of a moved block's home.
pub fn ring(canvas: &mut Canvas, x: i32, y: i32) {
    let style = format!(r##"fill="#ffffff" stroke="{MOVED}" stroke-width="2""##);
    canvas.circle((x, y), 5, &style);
    canvas.circle((x, y), 2, &filled(MOVED));
}

/// The mark of a bad block.
pub fn diamond(canvas: &mut Canvas, x: i32, y: i32) {
    let steps = format!("M{x} {}l6 6l-6 6l-6 -6Z", y - 6);
    let style = format!(r##"fill="{BAD}" stroke="#ffffff""##);
    canvas.path(&steps, &style);
}

/// Round dots, one on each cell that a line on the map meets.
pub fn dot_style(colour: &str, size: i32) -> String {
    let line = format!(r#"stroke="{colour}" stroke-width="{size}" stroke-linecap="round""#);
    format!(r#"fill="none" {line} stroke-dasharray="0 {}""#, CELL.1)
}

/// A cell of the legend.
fn key(canvas: &mut Canvas, x: i32, y: i32, style: &str) {
    let style = format!(r#"rx="3" {style}"#);
    canvas.rect((x - 9, y - 8), (18, 16), &style);
}

fn home_key(canvas: &mut Canvas, x: i32, y: i32) {
    key(canvas, x, y, &filled(HOME));
}

fn moved_key(canvas: &mut Canvas, x: i32, y: i32) {
    home_key(canvas, x, y);
    ring(canvas, x, y);
}

pub fn bad_key(canvas: &mut Canvas, x: i32, y: i32) {
    home_key(canvas, x, y);
    diamond(canvas, x, y);
}

pub fn dot_key(canvas: &mut Canvas, x: i32, y: i32) {
    home_key(canvas, x, y);
    canvas.path(&format!("M{x} {y}v0.1"), &dot_style(INK, 6));
}

fn unused_key(canvas: &mut Canvas, x: i32, y: i32) {
    key(canvas, x, y, &filled(UNUSED));
}

fn unknown_key(canvas: &mut Canvas, x: i32, y: i32) {
    key(canvas, x, y, &format!(r#"fill="{UNKNOWN}" {DASHES}"#));
}

fn dead_key(canvas: &mut Canvas, x: i32, y: i32) {
    key(canvas, x, y, &filled(DEAD));
    cross(canvas, x, y, 5);
}

fn table_key(canvas: &mut Canvas, x: i32, y: i32) {
    key(canvas, x, y, &filled(TABLE));
}

fn no_use_key(canvas: &mut Canvas, x: i32, y: i32) {
    key(canvas, x, y, &filled(NO_USE));
}
