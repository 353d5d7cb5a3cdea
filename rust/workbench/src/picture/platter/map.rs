//! The map of a platter: a column for each cylinder, and a row for each place of
//! each head.

use super::super::svg::{Canvas, EDGE, FAINT, INK, WIDTH};
use super::symbols::{colour, filled, HOME};
use super::view::{parts, View, CYLINDERS, FIRST, HEADS, PLACES, RESERVED, RESERVED_SECTORS};

/// The map: its upper left corner, the size of a cell, the gap between heads.
pub const MAP: (i32, i32) = (78, 108);
pub const CELL: (i32, i32) = (6, 5);
const HEAD_GAP: i32 = 8;

/// A head's rows on the map, and where the map ends.
const TRACK: i32 = PLACES as i32 * CELL.1;
pub const MAP_END: i32 = MAP.1 + HEADS as i32 * (TRACK + HEAD_GAP) - HEAD_GAP;

/// The upper left corner of a sector's cell on the map.
pub fn cell(sector: u32) -> (i32, i32) {
    let (cylinder, head, place) = parts(sector);
    let y = MAP.1 + head as i32 * (TRACK + HEAD_GAP) + place as i32 * CELL.1;
    (MAP.0 + cylinder as i32 * CELL.0, y)
}

/// The middle of a sector's cell on the map.
pub fn middle(sector: u32) -> (i32, i32) {
    let (x, y) = cell(sector);
    (x + CELL.0 / 2, y + CELL.1 / 2)
}

/// Numbers of cylinders and heads, and the size of the drive.
pub fn axes(canvas: &mut Canvas) {
    let right = format!(r#"text-anchor="end" fill="{FAINT}""#);
    canvas.text((MAP.0 - 10, MAP.1 - 8), &right, "cylinder");
    let words = format!("{CYLINDERS} cylinders × {HEADS} heads × {PLACES} sectors");
    canvas.text((WIDTH - EDGE, 64), &right, &words);
    heads(canvas, |head| cell(head * PLACES).1 + TRACK / 2 + 4);
    number(canvas, RESERVED, INK);
    let tens = (0..CYLINDERS).step_by(10);
    for cylinder in tens.filter(|ten| ten.abs_diff(RESERVED) > 5) {
        number(canvas, cylinder, FAINT);
    }
}

/// The number of a cylinder above the map.
fn number(canvas: &mut Canvas, cylinder: u32, colour: &str) {
    let (x, _) = middle(cylinder * HEADS * PLACES);
    let style = format!(r#"text-anchor="middle" fill="{colour}""#);
    canvas.text((x, MAP.1 - 8), &style, &cylinder.to_string());
}

/// Names the heads at the left; `height` gives the base line of each.
pub fn heads(canvas: &mut Canvas, height: impl Fn(u32) -> i32) {
    let style = format!(r#"text-anchor="end" fill="{FAINT}""#);
    for head in 0..HEADS {
        let place = (MAP.0 - 10, height(head));
        canvas.text(place, &style, &format!("head {head}"));
    }
}

/// All sectors: homes in one piece for each head, cylinder 77, the grid.
pub fn map(canvas: &mut Canvas, view: &View) {
    for head in 0..HEADS {
        homes(canvas, head, 0, RESERVED);
        homes(canvas, head, RESERVED + 1, CYLINDERS);
    }
    column(canvas, view);
    grid(canvas);
    let (x, y) = cell(FIRST);
    let style = format!(r#"fill="none" stroke="{INK}""#);
    let size = (CELL.0 + 2, MAP_END - MAP.1 + 4);
    canvas.rect((x - 1, y - 2), size, &style);
}

/// The homes of one head from one cylinder to another.
fn homes(canvas: &mut Canvas, head: u32, from: u32, to: u32) {
    let place = cell((from * HEADS + head) * PLACES);
    let width = (to - from) as i32 * CELL.0;
    canvas.rect(place, (width, TRACK), &filled(HOME));
}

/// Cylinder 77 on the map, sectors of one colour in one piece.
fn column(canvas: &mut Canvas, view: &View) {
    let sectors: Vec<u32> = RESERVED_SECTORS.collect();
    let colour_of = |sector: u32| colour(view.use_of(sector));
    let alike = |&one: &u32, &next: &u32| next % PLACES != 0 && colour_of(one) == colour_of(next);
    for run in sectors.chunk_by(alike) {
        let size = (CELL.0, run.len() as i32 * CELL.1);
        canvas.rect(cell(run[0]), size, &filled(colour_of(run[0])));
    }
}

/// White lines between the cells.
fn grid(canvas: &mut Canvas) {
    let (width, height) = (CYLINDERS as i32 * CELL.0, MAP_END - MAP.1);
    let columns = (1..CYLINDERS as i32).map(|column| {
        let x = MAP.0 + column * CELL.0;
        format!("M{x} {}v{height}", MAP.1)
    });
    let rows = (0..HEADS * PLACES).map(|row| {
        let (_, y) = cell(row);
        format!("M{} {y}h{width}", MAP.0)
    });
    let steps: String = columns.chain(rows).collect();
    canvas.path(&steps, r##"stroke="#ffffff" stroke-opacity="0.6""##);
}

#[cfg(test)]
mod tests {
    use std::collections::HashSet;

    use reference::geometry::SECTORS;

    use super::*;

    #[test]
    fn each_sector_has_a_cell_of_its_own() {
        let cells: HashSet<(i32, i32)> = (0..SECTORS).map(cell).collect();
        assert_eq!(cells.len(), 9792);
        let inside = |&(x, y): &(i32, i32)| x + 6 <= WIDTH - EDGE && y + 5 <= MAP_END;
        assert!(cells.iter().all(inside));
    }

    #[test]
    fn cells_go_by_cylinder_head_and_place() {
        let (x, y) = MAP;
        assert_eq!(cell(0), (x, y));
        assert_eq!(cell(1), (x, y + 5));
        assert_eq!(cell(16), (x, y + 16 * 5 + HEAD_GAP));
        assert_eq!(cell(64), (x + 6, y));
        assert_eq!(cell(9791), (x + 152 * 6, MAP_END - 5));
    }
}
