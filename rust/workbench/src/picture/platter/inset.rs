//! Cylinder 77 enlarged: its spares with their numbers and causes, the table, and
//! the sectors of no use.

use reference::image::Cause;

use super::super::svg::{Canvas, FAINT};
use super::map::{cell, heads, CELL, MAP, MAP_END};
use super::symbols::{colour, cross, filled, DASHES};
use super::view::{parts, State, Use, View, FIRST, HEADS, PLACES, RESERVED, RESERVED_SECTORS};
use crate::table;

/// Cylinder 77 enlarged: its upper left corner, cells, and distance of cells.
pub const INSET: (i32, i32) = (MAP.0, MAP_END + 62);
pub const BOX: (i32, i32) = (37, 44);
const BOX_STEP: (i32, i32) = (40, 48);

/// The upper left corner of a sector in the enlarged cylinder.
pub fn corner(sector: u32) -> (i32, i32) {
    let (_, head, place) = parts(sector);
    let (across, down) = BOX_STEP;
    let y = INSET.1 + head as i32 * down;
    (INSET.0 + place as i32 * across, y)
}

/// Cylinder 77 enlarged, on a ground that leads there from the map.
pub fn inset(canvas: &mut Canvas, view: &View) {
    let (left, right) = (INSET.0 - 6, INSET.0 + PLACES as i32 * BOX_STEP.0 + 3);
    let (top, bottom) = (INSET.1 - 6, INSET.1 + HEADS as i32 * BOX_STEP.1 + 2);
    let (x, begin) = (cell(FIRST).0, MAP_END + 2);
    let (from, to) = (x - 1, x + CELL.0 + 1);
    let steps = format!("M{from} {begin}L{left} {top}V{bottom}H{right}V{top}L{to} {begin}Z");
    canvas.path(&steps, r##"fill="#f6f8fa" stroke="#d1d9e0""##);
    heads(canvas, |head| corner(head * PLACES).1 + 26);
    let words = format!(
        "cylinder {RESERVED} enlarged: spares 0 to 31 with their causes, the table, and sectors of no use"
    );
    canvas.text((INSET.0, bottom + 17), &filled(FAINT), &words);
    for sector in RESERVED_SECTORS {
        canvas.tip(&told(view, sector), |canvas| one_box(canvas, view, sector));
    }
}

/// A sector of cylinder 77 in words.
fn told(view: &View, sector: u32) -> String {
    let words = match view.use_of(sector) {
        Use::Spare(k, State::Unused) => format!("spare {k}, unused"),
        Use::Spare(k, State::Unknown) => format!("spare {k}, not known"),
        Use::Spare(k, State::Dead | State::Moved(_)) => {
            format!("spare {k}, {}", table::entry(view.entries[k]))
        }
        Use::Table => "the table".to_string(),
        Use::Nothing => "no use".to_string(),
    };
    let unreadable = view.unreadable.contains(&sector);
    let end = if unreadable { ", unreadable" } else { "" };
    format!("sector {sector}: {words}{end}")
}

/// One sector of the enlarged cylinder: a spare's number, what it holds, and the cause.
fn one_box(canvas: &mut Canvas, view: &View, sector: u32) {
    let ((x, y), of) = (corner(sector), view.use_of(sector));
    let unknown = matches!(of, Use::Spare(_, State::Unknown));
    let dashes = if unknown { DASHES } else { "" };
    let style = format!(r#"rx="3" fill="{}" {dashes}"#, colour(of));
    canvas.rect((x, y), BOX, &style);
    if let Use::Spare(k, state) = of {
        let dark = matches!(state, State::Moved(_) | State::Dead);
        let colour = if dark { "#ffffff" } else { FAINT };
        let style = format!(r#"font-size="11" fill="{colour}""#);
        canvas.text((x + 4, y + 12), &style, &k.to_string());
    }
    let base = (x + BOX.0 / 2, y + 28);
    match of {
        Use::Spare(_, State::Moved(block)) => {
            white(canvas, base, (11, "bold"), &block.number().to_string());
        }
        Use::Spare(_, State::Dead) => cross(canvas, x + BOX.0 / 2, y + 22, 8),
        Use::Table => white(canvas, base, (11, "normal"), "table"),
        _ => {}
    }
    if let Use::Spare(k, State::Moved(_) | State::Dead) = of {
        let words = cause(view.entries[k].cause);
        white(canvas, (x + BOX.0 / 2, y + 40), (9, "normal"), words);
    }
}

/// Says a cause in a box. An unknown one is left out.
fn cause(cause: Cause) -> &'static str {
    match cause {
        Cause::Unknown => "",
        Cause::Crc => "CRC",
        Cause::Timeout => "timeout",
        Cause::NoSettle => "no settle",
    }
}

/// Writes white words around a place on their base line, of this size and weight; nothing
/// if there are none.
fn white(canvas: &mut Canvas, place: (i32, i32), (size, weight): (i32, &str), words: &str) {
    if words.is_empty() {
        return;
    }
    let style = format!(r#"font-size="{size}" font-weight="{weight}" text-anchor="middle""#);
    canvas.text(place, &format!(r##"{style} fill="#ffffff""##), words);
}

/// Where a mark stands in a box of the enlarged cylinder.
pub fn upper_right(sector: u32) -> (i32, i32) {
    let (x, y) = corner(sector);
    (x + BOX.0 - 8, y + 8)
}

#[cfg(test)]
mod tests {
    use std::collections::HashSet;

    use super::*;

    #[test]
    fn each_sector_has_a_box_of_its_own() {
        let boxes: HashSet<(i32, i32)> = RESERVED_SECTORS.map(corner).collect();
        assert_eq!(boxes.len(), 64);
        assert_eq!(corner(4928), INSET);
        assert_eq!(corner(4943), (INSET.0 + 15 * 40, INSET.1));
        assert_eq!(corner(4960), (INSET.0, INSET.1 + 2 * 48));
    }
}
