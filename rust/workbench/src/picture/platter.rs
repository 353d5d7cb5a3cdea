//! The platter: a map of all sectors, and below it cylinder 77 enlarged, with a
//! line from the home of each moved block to its spare.

mod inset;
mod lists;
mod map;
mod symbols;
pub(crate) mod view;

use reference::geometry::home;
use reference::image::{Entry, Form, Table};

use super::svg::{counted, Canvas, BAD, INK, MOVED};
use crate::table;
use inset::{corner, inset, upper_right, BOX, INSET};
use map::{axes, map, middle, CELL};
use symbols::{diamond, dot_style, filled, keys, ring};
use view::{parts, Move, State, View, PLACES, RESERVED_SECTORS};

/// The spare list stands right of the enlarged cylinder, from here on, and has this
/// many entries.
const LIST: i32 = 742;
const LISTED: usize = 15;

/// Of more moves than this the lines are paler.
const FEW_MOVES: usize = 12;

/// The lists of bad blocks and unreadable sectors begin here, and below them the legend.
const LISTS: i32 = INSET.1 + 238;

const BOLD: &str = r#"font-size="14" font-weight="bold""#;

/// The platter as SVG. `table` is none if no good table was found, and else has its form;
/// `unreadable` are sector numbers, and those of no sector are left out.
pub fn platter(title: &str, table: Option<&(Form, Table)>, unreadable: &[u32]) -> String {
    let view = View::new(table.map(|(_, table)| table), unreadable);
    let mut canvas = Canvas::new();
    canvas.heading(title, &summary(table, view.unreadable.len()));
    axes(&mut canvas);
    map(&mut canvas, &view);
    inset(&mut canvas, &view);
    moves(&mut canvas, &view);
    box_dots(&mut canvas, &view, "#ffffff", 12);
    bads(&mut canvas, &view);
    box_dots(&mut canvas, &view, INK, 6);
    dots(&mut canvas, &view);
    list(&mut canvas, &view);
    let top = lists::lists(&mut canvas, LISTS, &view);
    let end = canvas.legend(top, 4, &keys(&view));
    canvas.finish(title, end + 20)
}

/// The platter in one line, in the words of a run.
fn summary(table: Option<&(Form, Table)>, unreadable: usize) -> String {
    let unreadable = match unreadable {
        0 => String::new(),
        sectors => format!(", {}", counted(sectors, "unreadable sector")),
    };
    let known = table.map(|(form, table)| {
        let (form, counts) = (table::form(*form, table), table::counts(table, true));
        format!("{form}, {counts}")
    });
    let unknown = || "no good table found: the moved blocks are not known".to_string();
    format!("{}{unreadable}", known.unwrap_or_else(unknown))
}

/// A ring at each moved block's home, and a line from there to its spare.
fn moves(canvas: &mut Canvas, view: &View) {
    let many = view.moves.len() > FEW_MOVES;
    let opacity = if many { "0.5" } else { "0.9" };
    let style = format!(r#"stroke="{MOVED}" stroke-width="1.5" stroke-opacity="{opacity}""#);
    canvas.group(&format!(r#"fill="none" {style}"#), |canvas| {
        for &moved in &view.moves {
            canvas.tip(&sentence(moved), |canvas| canvas.path(&way(moved), ""));
        }
    });
    rings(canvas, view);
}

fn rings(canvas: &mut Canvas, view: &View) {
    for &moved in &view.moves {
        let (x, y) = middle(home(moved.block).number());
        canvas.tip(&sentence(moved), |canvas| ring(canvas, x, y));
    }
}

/// "block 17 → spare 1 (sector 4929), CRC error".
fn sentence(moved: Move) -> String {
    let Move {
        block,
        spare,
        sector,
        cause,
    } = moved;
    let (block, cause) = (block.number(), table::cause(cause));
    format!("block {block} → spare {spare} (sector {sector}), {cause}")
}

/// The line of a move. It comes to the upper row of spares from above, and to
/// the lower one through the gap left of the spare.
fn way(moved: Move) -> String {
    let (x, y) = middle(home(moved.block).number());
    let (left, top) = corner(moved.sector);
    let (to, rest) = if top == INSET.1 {
        (left + BOX.0 / 2, String::new())
    } else {
        (left - 2, format!("V{}h4", top + BOX.1 / 2))
    };
    let (end, bend) = (INSET.1, (INSET.1 - y) / 2);
    let (first, second) = (y + bend, end - bend);
    format!("M{x} {y}C{x} {first} {to} {second} {to} {end}{rest}")
}

/// A mark at the present sector of each bad block.
fn bads(canvas: &mut Canvas, view: &View) {
    for &block in &view.bads {
        let sector = view.sector_of(block);
        let at_home = sector == home(block).number();
        let (x, y) = if at_home {
            middle(sector)
        } else {
            upper_right(sector)
        };
        let words = format!("block {} is bad, at sector {sector}", block.number());
        canvas.tip(&words, |canvas| diamond(canvas, x, y));
    }
}

/// Dots on unreadable sectors, those of one cylinder in one element.
fn dots(canvas: &mut Canvas, view: &View) {
    let sectors: Vec<u32> = view.unreadable.iter().copied().collect();
    let same_cylinder = |one: &u32, next: &u32| parts(*one).0 == parts(*next).0;
    canvas.group(&dot_style(INK, 4), |canvas| {
        for same in sectors.chunk_by(same_cylinder) {
            canvas.tip(&unreadable(same), |canvas| canvas.path(&on_map(same), ""));
        }
    });
}

/// Sectors that follow each other on a track.
fn runs(sectors: &[u32]) -> impl Iterator<Item = &[u32]> {
    sectors.chunk_by(|one, next| one + 1 == *next && next % PLACES != 0)
}

/// Unreadable sectors of one cylinder in words: "640, 642-655".
fn unreadable(sectors: &[u32]) -> String {
    let words = runs(sectors).map(|run| match run {
        [one] => one.to_string(),
        _ => format!("{}-{}", run[0], run[run.len() - 1]),
    });
    let words: Vec<String> = words.collect();
    format!("unreadable: sectors {}", words.join(", "))
}

/// The path of dots on the map: from the first to the last cell of each run.
fn on_map(sectors: &[u32]) -> String {
    let steps = runs(sectors).map(|run| {
        let (x, y) = middle(run[0]);
        let length = (run.len() as i32 - 1) * CELL.1;
        format!("M{x} {y}v{length}.1")
    });
    steps.collect()
}

/// Dots on unreadable sectors of the enlarged cylinder. The pointer meets the
/// sector below them.
fn box_dots(canvas: &mut Canvas, view: &View, colour: &str, size: i32) {
    let reserved = view.unreadable.range(RESERVED_SECTORS);
    let steps = reserved.map(|&sector| {
        let (x, y) = upper_right(sector);
        format!("M{x} {y}v0.1")
    });
    let style = format!(r#"{} pointer-events="none""#, dot_style(colour, size));
    canvas.path(&steps.collect::<String>(), &style);
}

/// The spare list in words.
fn list(canvas: &mut Canvas, view: &View) {
    let top = INSET.1 + 5;
    let title = match view.known {
        false => "no good table found".to_string(),
        true => listed_title(view.moves.len(), view.count(State::Dead)),
    };
    let colour = if view.known { INK } else { BAD };
    canvas.text((LIST, top), &format!("{BOLD} {}", filled(colour)), &title);
    for (at, words) in listed(&view.entries).iter().enumerate() {
        canvas.text((LIST, top + 19 + 14 * at as i32), "", words);
    }
}

/// Gives the list's title: "2 moved blocks, 1 dead spare:".
fn listed_title(moved: usize, dead: usize) -> String {
    match (counted(moved, "moved block"), counted(dead, "dead spare")) {
        _ if moved + dead == 0 => "no block has moved".to_string(),
        (moved, _) if dead == 0 => format!("{moved}:"),
        (_, dead) if moved == 0 => format!("{dead}:"),
        (moved, dead) => format!("{moved}, {dead}:"),
    }
}

/// The lines of the list.
fn listed(entries: &[Entry]) -> Vec<String> {
    let lines = entries.iter().enumerate();
    let lines = lines.map(|(k, &entry)| format!("spare {k}: {}", table::entry(entry)));
    let first = lines.take(LISTED);
    let more = entries.len().saturating_sub(LISTED);
    let rest = (more > 0).then(|| format!("and {more} more"));
    first.chain(rest).collect()
}

#[cfg(test)]
mod tests {
    use reference::geometry::{Block, BLOCKS, SECTORS};
    use reference::image::{Cause, Spare, MOST_BADS};

    use super::super::svg::{check, room, WIDTH};
    use super::*;

    fn block(number: u32) -> Block {
        Block::new(number).expect("a block")
    }

    /// Makes the entry of a block that moved by CRC errors.
    fn moved(number: u32) -> Entry {
        let spare = Spare::Moved(block(number));
        let cause = Cause::Crc;
        Entry { spare, cause }
    }

    fn dead(cause: Cause) -> Entry {
        let spare = Spare::Dead;
        Entry { spare, cause }
    }

    fn table(spares: &[Entry], bads: &[u32]) -> Table {
        let bads = bads.iter().map(|&number| block(number)).collect();
        Table::new(3, spares.to_vec(), bads).expect("a table")
    }

    /// Every spare has a block, from all over the platter, and so has every
    /// place of the bad list.
    fn full() -> Table {
        let spares: Vec<Entry> = (0..32).map(|k| moved(k * 8191 % BLOCKS)).collect();
        let bads: Vec<u32> = (0..MOST_BADS as u32).map(|k| k * 97).collect();
        table(&spares, &bads)
    }

    /// The picture of a table of form B, looked over.
    fn drawn(table: &Table, unreadable: &[u32]) -> String {
        drawn_in(Form::B, table, unreadable)
    }

    fn drawn_in(form: Form, table: &Table, unreadable: &[u32]) -> String {
        let svg = platter("A platter", Some(&(form, table.clone())), unreadable);
        check::picture(&svg);
        svg
    }

    #[test]
    fn the_week() {
        let svg = drawn(&table(&[moved(17)], &[]), &[17]);
        let summary =
            "form B, run number 3, 1 of 32 spares used, no bad block, 1 unreadable sector";
        assert!(svg.contains(&format!(">{summary}<")));
        assert!(svg.contains(">1 moved block:</text>"));
        assert!(svg.contains(">spare 0: block 17, CRC error</text>"));
        assert!(svg.contains("<title>block 17 → spare 0 (sector 4928), CRC error</title>"));
        assert!(svg.contains("<title>sector 4928: spare 0, block 17, CRC error</title>"));
        assert!(svg.contains("<title>sector 4929: spare 1, unused</title>"));
        assert!(svg.contains("<title>sector 4960: the table</title>"));
        assert!(svg.contains("<title>unreadable: sectors 17</title>"));
        assert!(svg.contains(">unreadable sector 17</text>"));
        for key in [
            "9728 homes of blocks",
            "1 moved block",
            "no bad block",
            "1 unreadable sector",
            "31 unused spares",
            "no dead spare",
            "the table, in sector 4960",
            "31 sectors of no use",
        ] {
            assert!(svg.contains(&format!(">{key}</text>")), "{key}");
        }
        assert!(svg.len() < 20_000, "{}", svg.len());
    }

    #[test]
    fn each_move_has_its_line() {
        let table = full();
        let svg = drawn(&table, &[]);
        for moved in View::new(Some(&table), &[]).moves {
            let line = format!("<path d=\"{}\" />", way(moved));
            let tip = format!("<g><title>{}</title>\n{line}", sentence(moved));
            assert_eq!(svg.matches(&tip).count(), 1, "{tip}");
        }
    }

    #[test]
    fn a_line_leads_from_the_home_to_the_spare() {
        let table = full();
        for moved in View::new(Some(&table), &[]).moves {
            let (steps, (x, y)) = (way(moved), middle(home(moved.block).number()));
            assert!(steps.starts_with(&format!("M{x} {y}C")), "{steps}");
            let (left, top) = corner(moved.sector);
            let end = if moved.spare < 16 {
                format!(" {} {top}", left + 18)
            } else {
                format!(" {} {}V{}h4", left - 2, INSET.1, top + 22)
            };
            assert!(steps.ends_with(&end), "{steps}");
        }
    }

    #[test]
    fn fifteen_entries_are_listed_and_the_others_counted() {
        let entries: Vec<Entry> = (0..16).map(moved).collect();
        assert_eq!(listed(&entries[..15]).len(), 15);
        let lines = listed(&entries);
        assert_eq!(lines.len(), 16);
        assert_eq!(lines[0], "spare 0: block 0, CRC error");
        assert_eq!(lines[15], "and 1 more");
    }

    #[test]
    fn the_title_of_the_list() {
        for (moved, dead, title) in [
            (0, 0, "no block has moved"),
            (1, 0, "1 moved block:"),
            (0, 2, "2 dead spares:"),
            (16, 16, "16 moved blocks, 16 dead spares:"),
        ] {
            assert_eq!(listed_title(moved, dead), title);
            assert!(LIST + room(title, 14) <= WIDTH, "{title}");
        }
    }

    #[test]
    fn the_list_has_room_for_every_entry() {
        let spare = Spare::Moved(block(9727));
        for cause in [Cause::Unknown, Cause::Crc, Cause::Timeout, Cause::NoSettle] {
            let entries = [vec![dead(cause); 14], vec![Entry { spare, cause }]].concat();
            for line in listed(&entries) {
                assert!(LIST + room(&line, 12) <= WIDTH, "{line}");
            }
        }
        let last = INSET.1 + 5 + 19 + 14 * LISTED as i32;
        assert!(last < LISTS, "{last}");
    }

    #[test]
    fn dead_spares_are_crossed() {
        let spares = [dead(Cause::Timeout), moved(3), dead(Cause::Crc)];
        let svg = drawn(&table(&spares, &[]), &[]);
        assert!(svg.contains(" 3 of 32 spares used, 2 of them dead, no bad block<"));
        for (sector, words) in [
            (4928, "spare 0, dead, timeout"),
            (4930, "spare 2, dead, CRC error"),
        ] {
            let (x, y) = corner(sector);
            let steps = format!("<path d=\"M{} {}l16 16m0 -16l-16 16\"", x + 10, y + 14);
            assert!(svg.contains(&steps), "{steps}");
            assert!(svg.contains(&format!("<title>sector {sector}: {words}</title>")));
        }
    }

    #[test]
    fn each_cause_stands_in_its_box_and_in_the_list() {
        for (cause, in_box, listed) in [
            (Cause::Crc, 1, "CRC error"),
            (Cause::Timeout, 1, "timeout"),
            (Cause::NoSettle, 1, "no settle"),
            (Cause::Unknown, 0, "cause unknown"),
        ] {
            let svg = drawn(&table(&[dead(cause)], &[]), &[]);
            let (x, y) = corner(4928);
            let place = format!("<text x=\"{}\" y=\"{}\" font-size=\"9\"", x + 18, y + 40);
            assert_eq!(svg.matches(&place).count(), in_box, "{listed}");
            assert!(svg.contains(&format!(">spare 0: dead, {listed}</text>")));
        }
        let svg = drawn(&table(&[moved(3)], &[]), &[]);
        assert!(svg.contains(">CRC</text>"));
    }

    #[test]
    fn form_a_has_no_run_number() {
        let table = table(&[], &[]);
        let svg = drawn_in(Form::A, &table, &[]);
        assert!(svg.contains(">form A, no spare used, no bad block<"));
        assert!(svg.contains(">no block has moved</text>"));
    }

    #[test]
    fn bad_blocks_are_marked_where_they_stand() {
        let svg = drawn(&table(&[moved(4928)], &[4928, 9727, 4927]), &[]);
        for words in [
            "block 4928 is bad, at sector 4928",
            "block 9727 is bad, at sector 9791",
            "block 4927 is bad, at sector 4927",
        ] {
            assert!(svg.contains(&format!("<title>{words}</title>")), "{words}");
        }
        // One in a box of the enlarged cylinder, two on the map, one before their
        // list, one in the legend.
        assert_eq!(svg.matches("l6 6l-6 6l-6 -6Z").count(), 5);
        assert!(svg.contains(">bad blocks 4927..4928, 9727</text>"));
        assert!(svg.contains(">3 bad blocks</text>"));
    }

    #[test]
    fn unreadable_sectors_are_dotted_in_runs() {
        let svg = drawn(&table(&[], &[]), &[18, 16, 17, 17, 32, 15, 9792, u32::MAX]);
        assert!(svg.contains("no bad block, 5 unreadable sectors<"));
        assert!(svg.contains("<title>unreadable: sectors 15, 16-18, 32</title>"));
        let (x, y) = middle(16);
        assert!(svg.contains(&format!("M{x} {y}v10.1")));
    }

    #[test]
    fn unreadable_sectors_of_the_reserved_cylinder_show_twice() {
        let svg = drawn(&table(&[], &[]), &[4960]);
        let ((x, y), (a, b)) = (middle(4960), upper_right(4960));
        assert_eq!(svg.matches(&format!("d=\"M{x} {y}v0.1\"")).count(), 1);
        assert_eq!(svg.matches(&format!("d=\"M{a} {b}v0.1\"")).count(), 2);
        assert!(svg.contains("<title>sector 4960: the table, unreadable</title>"));
    }

    #[test]
    fn no_table() {
        let svg = platter("A platter", None, &[4960]);
        check::picture(&svg);
        assert!(svg.contains(">no good table found</text>"));
        assert!(svg.contains(">no good table found: the moved blocks are not known, 1 unread"));
        for key in ["moved block", "bad block", "dead spare"] {
            assert!(svg.contains(&format!(">{key}s: not known</text>")), "{key}");
        }
        assert!(svg.contains(">32 spares, states not known</text>"));
        assert!(!svg.contains("unused") && !svg.contains(" of 32 spares"));
    }

    #[test]
    fn the_title_is_escaped() {
        let svg = platter("</svg> & \"<b>\"", None, &[]);
        check::picture(&svg);
        let title = "&lt;/svg&gt; &amp; &quot;&lt;b&gt;&quot;";
        assert_eq!(svg.matches(title).count(), 2);
    }

    #[test]
    fn sizes() {
        let full = full();
        assert!(drawn(&full, &[]).len() < 50_000);
        let every_other: Vec<u32> = (0..SECTORS).step_by(2).collect();
        assert!(drawn(&full, &every_other).len() < 150_000);
    }

    #[test]
    fn the_same_table_gives_the_same_bytes() {
        let full = full();
        assert_eq!(drawn(&full, &[3, 2, 1]), drawn(&full, &[1, 2, 3, 3]));
    }
}
