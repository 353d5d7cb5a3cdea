//! The map: a column for each cylinder, and a row for each place of each head. The page's
//! script finds the sector below the pointer by the same figures.

use std::collections::BTreeSet;

use super::super::html::{escape, Html};
use super::super::told::Told;
use super::states::{table_sector, States};
use crate::picture::view::{
    parts, State, Use, CYLINDERS, HEADS, PLACES, RESERVED, RESERVED_SECTORS,
};

/// The upper left corner, the size of a cell, and what lies between two heads.
pub const CORNER: (u32, u32) = (46, 20);
pub const CELL: (u32, u32) = (6, 6);
pub const HEAD_GAP: u32 = 8;

const TRACK: u32 = PLACES * CELL.1;
const WIDTH: u32 = CORNER.0 + CYLINDERS * CELL.0 + 8;
const HEIGHT: u32 = CORNER.1 + HEADS * (TRACK + HEAD_GAP);

/// Writes the figures of the map and of the drive for the page's script.
pub fn geometry() -> String {
    let ((x, y), (width, height)) = (CORNER, CELL);
    format!(
        "{{\"x\":{x},\"y\":{y},\"width\":{width},\"height\":{height},\"gap\":{HEAD_GAP},\
         \"cylinders\":{CYLINDERS},\"heads\":{HEADS},\"places\":{PLACES},\"reserved\":{RESERVED}}}"
    )
}

/// Finds the upper left corner of a sector's cell.
fn cell(sector: u32) -> (u32, u32) {
    let (cylinder, head, place) = parts(sector);
    let y = CORNER.1 + head * (TRACK + HEAD_GAP) + place * CELL.1;
    (CORNER.0 + cylinder * CELL.0, y)
}

/// Writes the map.
pub fn map(html: &mut Html, told: &Told, states: &States) {
    let label = "The map of the sectors. Arrow keys go from sector to sector.";
    let attributes =
        format!(r#"id="map" class="scroll" tabindex="0" role="application" aria-label="{label}""#);
    html.block("div", &attributes, |html| {
        let size = format!(r#"viewBox="0 0 {WIDTH} {HEIGHT}" width="{WIDTH}" height="{HEIGHT}""#);
        let label = escape(&format!(
            "All sectors: {} of note",
            states.noted(told).len()
        ));
        let attributes = format!(r#"{size} role="img" aria-label="{label}""#);
        html.block("svg", &attributes, |html| {
            axes(html);
            homes(html);
            cells(html, told, states);
            grid(html);
            signs_of(html, states);
            html.raw("<rect id=\"chosen\" width=\"0\" height=\"0\"/>\n");
            html.raw("<rect id=\"pointed\" width=\"0\" height=\"0\"/>\n");
        });
    });
}

/// Writes the numbers of cylinders and heads.
fn axes(html: &mut Html) {
    for head in 0..HEADS {
        let (_, y) = cell(head * PLACES);
        let place = format!(r#"x="{}" y="{}""#, CORNER.0 - 6, y + TRACK / 2 + 4);
        html.line(
            "text",
            &format!(r#"{place} class="end""#),
            &format!("head {head}"),
        );
    }
    for cylinder in (0..CYLINDERS).filter(|c| c % 10 == 0 || *c == 77) {
        if cylinder != 77 && cylinder.abs_diff(77) < 5 {
            continue;
        }
        let (x, _) = cell(cylinder * HEADS * PLACES);
        let place = format!(r#"x="{}" y="{}""#, x + CELL.0 / 2, CORNER.1 - 6);
        let attributes = format!(r#"{place} class="middle""#);
        html.line("text", &attributes, &cylinder.to_string());
    }
}

/// Writes all homes, one piece for each head.
fn homes(html: &mut Html) {
    for head in 0..HEADS {
        let (x, y) = cell(head * PLACES);
        let width = CYLINDERS * CELL.0;
        html.raw(&format!(
            "<rect class=\"home\" x=\"{x}\" y=\"{y}\" width=\"{width}\" height=\"{TRACK}\"/>\n"
        ));
    }
}

/// Writes what differs from an untouched home, one path for each kind.
fn cells(html: &mut Html, told: &Told, states: &States) {
    let sectors = told.log.sectors();
    let met = sectors.iter().map(|(sector, _)| sector);
    let failed = sectors.iter().filter(|(_, story)| story.counts.failed());
    path(
        html,
        "nothing",
        reserved(states, |kind| kind == Use::Nothing),
    );
    let unused = |kind| matches!(kind, Use::Spare(_, State::Unused | State::Unknown));
    path(html, "unused", reserved(states, unused));
    path(html, "met", met.collect());
    path(html, "failed", failed.map(|(sector, _)| sector).collect());
    let live = |kind| matches!(kind, Use::Spare(_, State::Moved(_)));
    path(html, "live", reserved(states, live));
    path(html, "table", [table_sector()].into());
}

/// Writes lines between the cells.
fn grid(html: &mut Html) {
    let (width, height) = (CYLINDERS * CELL.0, HEIGHT - CORNER.1);
    let columns = (1..=CYLINDERS).map(|column| {
        let x = CORNER.0 + column * CELL.0 - 1;
        format!("M{x} {}v{height}", CORNER.1)
    });
    let rows = (0..HEADS * PLACES).map(|row| {
        let y = cell(row).1 + CELL.1 - 1;
        format!("M{} {y}h{width}", CORNER.0)
    });
    let steps: String = columns.chain(rows).collect();
    html.raw(&format!("<path class=\"grid\" d=\"{steps}\"/>\n"));
}

/// Writes the signs of what is not as it was made.
fn signs_of(html: &mut Html, states: &States) {
    let dead = |kind| matches!(kind, Use::Spare(_, State::Dead));
    let (dead, cross) = (reserved(states, dead), "m-4 -4l8 8m0 -8l-8 8");
    let ring = "m-4 0a4 4 0 1 0 8 0a4 4 0 1 0 -8 0";
    signs(html, "left", &states.left, ring);
    signs(html, "halo", &dead, cross);
    signs(html, "dead", &dead, cross);
    signs(html, "bad", &states.bad, "m0 -5l5 5l-5 5l-5 -5z");
    let square = "m-2 -2h4v4h-4z";
    signs(html, "unreadable", &states.view.unreadable, square);
}

/// Lists the sectors of the reserved cylinder with such a use.
fn reserved(states: &States, wanted: impl Fn(Use) -> bool) -> BTreeSet<u32> {
    RESERVED_SECTORS
        .filter(|&sector| wanted(states.view.use_of(sector)))
        .collect()
}

/// Writes cells, those that follow each other on a track in one piece.
fn path(html: &mut Html, class: &str, sectors: BTreeSet<u32>) {
    let sectors: Vec<u32> = sectors.into_iter().collect();
    let runs = sectors.chunk_by(|one, next| one + 1 == *next && next % PLACES != 0);
    let steps: String = runs
        .map(|run| {
            let ((x, y), height) = (cell(run[0]), run.len() as u32 * CELL.1 - 1);
            format!("M{x} {y}h{}v{height}h-{}z", CELL.0 - 1, CELL.0 - 1)
        })
        .collect();
    if !steps.is_empty() {
        html.raw(&format!("<path class=\"{class}\" d=\"{steps}\"/>\n"));
    }
}

/// Writes a sign in the middle of each of these sectors.
fn signs(html: &mut Html, class: &str, sectors: &BTreeSet<u32>, sign: &str) {
    let steps: String = sectors
        .iter()
        .map(|&sector| {
            let (x, y) = cell(sector);
            format!("M{} {}{sign}", x + CELL.0 / 2, y + CELL.1 / 2)
        })
        .collect();
    if !steps.is_empty() {
        html.raw(&format!("<path class=\"sign {class}\" d=\"{steps}\"/>\n"));
    }
}

/// Writes what the colours and signs mean.
pub fn keys(html: &mut Html) {
    let keys = [
        ("home", "", "not met in the run"),
        ("met", "", "met, all went well"),
        ("failed", "", "an access failed"),
        ("unused", "", "spare, unused"),
        ("live", "", "spare with a block"),
        ("table", "", "the table"),
        ("nothing", "", "reserved, no use"),
        ("left", "○", "home of a block that moved"),
        ("dead", "✕", "dead spare"),
        ("bad", "◆", "bad block"),
        ("unreadable", "■", "unreadable"),
    ];
    html.block("ul", r#"class="keys""#, |html| {
        for (class, sign, words) in keys {
            let kind = if sign.is_empty() { "box" } else { "symbol" };
            html.element("li", "", |html| {
                let attributes = format!(r#"class="{kind} {class}" aria-hidden="true""#);
                html.words("i", &attributes, sign);
                html.raw(" ");
                html.raw(&escape(words));
            });
            html.raw("\n");
        }
    });
}

#[cfg(test)]
mod tests {
    use std::collections::HashSet;

    use reference::geometry::SECTORS;

    use super::*;

    #[test]
    fn each_sector_has_a_cell_of_its_own_on_the_map() {
        let cells: HashSet<(u32, u32)> = (0..SECTORS).map(cell).collect();
        assert_eq!(cells.len(), 9792);
        let inside = |&(x, y): &(u32, u32)| x + CELL.0 <= WIDTH && y + CELL.1 <= HEIGHT;
        assert!(cells.iter().all(inside));
        assert_eq!(cell(0), CORNER);
        assert_eq!(cell(64), (CORNER.0 + CELL.0, CORNER.1));
    }
}
