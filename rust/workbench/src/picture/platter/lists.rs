//! Bad blocks and unreadable sectors by number, below the enlarged cylinder.

use super::super::svg::{Canvas, EDGE, WIDTH};
use super::symbols::{bad_key, dot_key};
use super::view::View;
use crate::show::{ranges, wrapped};

/// Words begin here, behind the symbol of their list.
const WORDS: i32 = EDGE + 30;

/// A line has so many letters of size 12, and a list so many lines, this far apart.
const LETTERS: usize = 130;
const MOST_LINES: usize = 5;
const LINE: i32 = 16;

/// What lies behind a list.
const GAP: i32 = 8;

/// Draws the lists from this height on, those that have something in them, and a line
/// below them. Hands back where they end.
pub fn lists(canvas: &mut Canvas, top: i32, view: &View) -> i32 {
    let mut bads: Vec<u32> = view.bads.iter().map(|block| block.number()).collect();
    bads.sort_unstable();
    let unreadable: Vec<u32> = view.unreadable.iter().copied().collect();
    let end = list(canvas, top, bad_key, &lines("bad block", &bads));
    let unreadable = lines("unreadable sector", &unreadable);
    let end = list(canvas, end, dot_key, &unreadable);
    if end == top {
        return end;
    }
    let steps = format!("M{EDGE} {}H{}", end + GAP, WIDTH - EDGE);
    canvas.path(&steps, r##"stroke="#d1d9e0""##);
    end + 2 * GAP
}

/// Draws one list with its symbol.
fn list(canvas: &mut Canvas, top: i32, key: fn(&mut Canvas, i32, i32), lines: &[String]) -> i32 {
    if lines.is_empty() {
        return top;
    }
    key(canvas, EDGE + 12, top + 14);
    for (at, words) in (0..).zip(lines) {
        canvas.text((WORDS, top + 18 + LINE * at), "", words);
    }
    top + LINE * lines.len() as i32 + GAP
}

/// Gives a list in lines: "bad blocks 3, 17". Numbers for which there is no room are
/// counted. A number behind its noun is a name, and one before it a count.
fn lines(noun: &str, numbers: &[u32]) -> Vec<String> {
    let runs: Vec<&[u32]> = numbers.chunk_by(|one, next| one + 1 == *next).collect();
    let plural = if numbers.len() > 1 { "s" } else { "" };
    // A run has a letter, a comma and a blank at least.
    let most = runs.len().min(MOST_LINES * LETTERS / 3);
    let shown = (0..=most).rev().map(|count| {
        let shown: usize = runs[..count].iter().map(|run| run.len()).sum();
        let more = match numbers.len() - shown {
            0 => String::new(),
            more => format!(" and {more} more"),
        };
        wrapped(
            &format!("{noun}{plural} {}{more}", ranges(&numbers[..shown])),
            LETTERS,
        )
    });
    let mut fitting = shown.filter(|lines| lines.len() <= MOST_LINES);
    match numbers.is_empty() {
        true => vec![],
        false => fitting.next().unwrap_or_default(),
    }
}

#[cfg(test)]
mod tests {
    use super::super::super::svg::room;
    use super::*;

    #[test]
    fn few_numbers_stand_there_all() {
        assert!(lines("bad block", &[]).is_empty());
        assert_eq!(lines("bad block", &[17]), ["bad block 17"]);
        let numbers = [3, 17, 18, 19, 9727];
        assert_eq!(lines("bad block", &numbers), ["bad blocks 3, 17..19, 9727"]);
        let all: Vec<u32> = (0..9792).collect();
        let whole = ["unreadable sectors 0..9791"];
        assert_eq!(lines("unreadable sector", &all), whole);
    }

    #[test]
    fn a_full_bad_list_stands_there_whole() {
        let numbers: Vec<u32> = (0..100).map(|k| 9529 + 2 * k).collect();
        let lines = lines("bad block", &numbers);
        assert!(lines.len() <= MOST_LINES);
        assert!(lines[lines.len() - 1].ends_with(", 9727"), "{lines:?}");
    }

    #[test]
    fn numbers_without_room_are_counted() {
        let numbers: Vec<u32> = (0..4896).map(|k| 2 * k).collect();
        let lines = lines("unreadable sector", &numbers);
        assert_eq!(lines.len(), MOST_LINES);
        assert!(lines
            .iter()
            .all(|line| WORDS + room(line, 12) <= WIDTH - EDGE));
        let text = lines.join(" ");
        let (listed, more) = text.split_once(" and ").expect("more");
        let listed = listed.split(", ").count();
        assert_eq!(more, format!("{} more", 4896 - listed));
        assert!(listed > 100, "{listed}");
    }
}
