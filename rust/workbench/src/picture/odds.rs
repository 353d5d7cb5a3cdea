//! The odds of a plan: a column for each number of sectors that died in a run, and in it
//! the endings of those runs, one upon another, as shares of them.

use super::svg::{counted, room, Canvas, Key, BAD, EDGE, FAINT, INK, MOVED, TABLE, WIDTH};
use crate::odds::{percent, Counts, Ending, Figures, Odds};
use crate::run::Why;

/// The chart: its left and right edge, and the heights of all runs and of none.
const LEFT: i32 = 92;
const RIGHT: i32 = WIDTH - EDGE;
const TOP: i32 = 116;
const BOTTOM: i32 = 436;

/// There are so many columns at most; of more numbers several share one. A column is so
/// wide at most, and what lies between two is a sixth of it.
const MOST_COLUMNS: u64 = 20;
const WIDEST: i32 = 90;

/// A column of fewer runs is pale.
const FEW_RUNS: u64 = 10;

/// A part has its share written in it if it is so high and so wide.
const WORDS_HIGH: i32 = 16;
const WORDS_WIDE: i32 = 34;

const GRID: &str = r##"fill="none" stroke="#d1d9e0""##;
const MIDDLE: &str = r#"text-anchor="middle""#;

/// A column: the numbers of sectors that died, first and last, and how the runs ended.
struct Column {
    first: u64,
    last: u64,
    counts: Counts,
}

/// The odds as SVG.
pub fn odds(odds: &Odds) -> String {
    let figures = Figures::of(odds);
    let title = format!("The odds of {}", odds.ask.name);
    let mut canvas = Canvas::new();
    canvas.heading(&title, &summary(&figures));
    canvas.text((EDGE, 86), &faint(""), &conditions(odds, &figures));
    axes(&mut canvas);
    let columns = columns(&figures);
    let across = ((RIGHT - LEFT) / columns.len() as i32).min(WIDEST);
    let apart = labels_apart(&columns, across);
    for (at, column) in (0..).zip(&columns) {
        let x = LEFT + across * at;
        if at % apart == 0 {
            canvas.text((x + across / 2, BOTTOM + 20), MIDDLE, &column.label());
        }
        column.draw(&mut canvas, x, across);
    }
    let end = canvas.legend(BOTTOM + 76, 3, &keys(&figures));
    canvas.finish(&title, end + 20)
}

fn faint(style: &str) -> String {
    format!(r#"fill="{FAINT}" {style}"#)
}

/// "1000 runs: 412 whole (41.2 %), 588 failed, no history broken".
fn summary(figures: &Figures) -> String {
    let whole = figures.count(Ending::Whole);
    let broken = figures.count(Ending::Broken);
    let failed = figures.runs - whole - broken;
    let runs = counted(figures.runs as usize, "run");
    let share = percent(whole, figures.runs);
    let broken = match broken {
        0 => String::from("no history broken"),
        1 => String::from("1 HISTORY BROKEN"),
        more => format!("{more} HISTORIES BROKEN"),
    };
    format!("{runs}: {whole} whole ({share}), {failed} failed, {broken}")
}

/// The faults that came, and what the runs took.
fn conditions(odds: &Odds, figures: &Figures) -> String {
    let (rate, dying, time) = (odds.ask.rate, odds.ask.dying, figures.time);
    format!(
        "a random fault at {} of {} accesses; of the sectors that meet one {} of {} die; \
         a run takes {} to {}, {} on average",
        rate.some,
        rate.of,
        dying.some,
        dying.of,
        time.least,
        time.most,
        time.sum.mean_of(figures.runs)
    )
}

/// The lines of the shares, and what stands along the two sides.
fn axes(canvas: &mut Canvas) {
    for quarter in 0..=4 {
        let y = BOTTOM - (BOTTOM - TOP) * quarter / 4;
        canvas.path(&format!("M{LEFT} {y}H{RIGHT}"), GRID);
        let words = format!("{} %", 25 * quarter);
        canvas.text((LEFT - 8, y + 4), r#"text-anchor="end""#, &words);
    }
    let middle = (TOP + BOTTOM) / 2;
    let turned = format!(r#"{MIDDLE} transform="rotate(-90 34 {middle})""#);
    canvas.text((34, middle), &turned, "share of these runs");
    canvas.text(
        (LEFT - 8, BOTTOM + 40),
        &faint(r#"text-anchor="end""#),
        "runs",
    );
    let words = format!("sectors that died in a run (pale: fewer than {FEW_RUNS} runs)");
    canvas.text(((LEFT + RIGHT) / 2, BOTTOM + 62), MIDDLE, &words);
}

/// The columns, from no sector that died to the most that did.
fn columns(figures: &Figures) -> Vec<Column> {
    let most = figures.deaths.most;
    let wide = (most + 1).div_ceil(MOST_COLUMNS);
    let column = |at: u64| {
        let (first, last) = (at * wide, at * wide + wide - 1);
        let mut counts = Counts::default();
        for (_, some) in figures.by_deaths.range(first..=last) {
            counts
                .iter_mut()
                .zip(some)
                .for_each(|(sum, some)| *sum += some);
        }
        Column {
            first,
            last,
            counts,
        }
    };
    (0..=most / wide).map(column).collect()
}

/// Says every which column has its label, so that labels do not touch.
fn labels_apart(columns: &[Column], across: i32) -> i32 {
    let rooms = columns.iter().map(|column| room(&column.label(), 12));
    let widest = rooms.max().unwrap_or(0);
    (widest - 1) / across + 1
}

impl Column {
    fn runs(&self) -> u64 {
        self.counts.iter().sum()
    }

    /// "3", or "3–5".
    fn label(&self) -> String {
        match self.first == self.last {
            true => self.first.to_string(),
            false => format!("{}–{}", self.first, self.last),
        }
    }

    /// Draws it in its room, which begins at `x` and is so wide.
    fn draw(&self, canvas: &mut Canvas, x: i32, across: i32) {
        let middle = x + across / 2;
        let runs = self.runs().to_string();
        canvas.text((middle, BOTTOM + 40), &faint(MIDDLE), &runs);
        let width = across - (across / 6).max(2);
        let mut below = 0;
        for ending in Ending::all() {
            let runs = self.counts[ending.place()];
            let (low, high) = (self.height(below), self.height(below + runs));
            below += runs;
            if runs > 0 {
                let place = (middle - width / 2, high);
                canvas.tip(&self.told(ending), |canvas| {
                    self.part(canvas, place, (width, low - high), ending);
                });
            }
        }
    }

    /// A part of it in words: "3 died, 40 of 130 runs: latch".
    fn told(&self, ending: Ending) -> String {
        let (label, words) = (self.label(), ending.words());
        let (runs, of) = (self.counts[ending.place()], self.runs() as usize);
        format!("{label} died, {runs} of {}: {words}", counted(of, "run"))
    }

    /// Draws a part of it, with its share if there is room. Of few runs it is pale.
    fn part(
        &self,
        canvas: &mut Canvas,
        place: (i32, i32),
        (width, height): (i32, i32),
        ending: Ending,
    ) {
        let ((x, y), of) = (place, self.runs());
        let (opacity, ink) = match of < FEW_RUNS {
            true => ("0.4", INK),
            false => ("1", "#ffffff"),
        };
        let size = (width, height.max(1));
        canvas.rect(place, size, r##"fill="#ffffff""##);
        let style = format!(r#"fill="{}" fill-opacity="{opacity}""#, colour(ending));
        canvas.rect(place, size, &style);
        if height >= WORDS_HIGH && width >= WORDS_WIDE {
            let style = format!(r#"{MIDDLE} fill="{ink}""#);
            let words = format!("{} %", (self.counts[ending.place()] * 100 + of / 2) / of);
            canvas.text((x + width / 2, y + height / 2 + 4), &style, &words);
        }
    }

    /// The height of so many of its runs.
    fn height(&self, runs: u64) -> i32 {
        let whole = (BOTTOM - TOP) as u64;
        BOTTOM - (whole * runs / self.runs().max(1)) as i32
    }
}

/// The colour of an ending; what the other pictures have too has theirs.
fn colour(ending: Ending) -> &'static str {
    match ending {
        Ending::Whole => "#1f883d",
        Ending::Failed(Why::Unreadable) => BAD,
        Ending::Failed(Why::NoSpare) => MOVED,
        Ending::Failed(Why::Latch) => "#6e011a",
        Ending::Failed(Why::NotStored) => TABLE,
        Ending::Failed(Why::NoTable) => "#59636e",
        Ending::Failed(Why::PowerCut) => "#b87503",
        Ending::Failed(Why::Expectation) => "#2563a8",
        Ending::Failed(Why::Other) => "#8c959f",
        Ending::Broken => INK,
    }
}

/// A square of an ending's colour around a place.
fn square(canvas: &mut Canvas, x: i32, y: i32, ending: Ending) {
    let style = format!(r#"fill="{}""#, colour(ending));
    canvas.rect((x - 8, y - 8), (16, 16), &style);
}

/// The legend of the endings that were met.
fn keys(figures: &Figures) -> Vec<Key> {
    let key = |ending: Ending| {
        let symbol: fn(&mut Canvas, i32, i32) = match ending {
            Ending::Whole => |c, x, y| square(c, x, y, Ending::Whole),
            Ending::Broken => |c, x, y| square(c, x, y, Ending::Broken),
            Ending::Failed(why) => failed_symbol(why),
        };
        let runs = figures.count(ending);
        let share = percent(runs, figures.runs);
        let runs = counted(runs as usize, "run");
        (symbol, format!("{}: {runs}, {share}", ending.words()))
    };
    figures.met().into_iter().map(key).collect()
}

fn failed_symbol(why: Why) -> fn(&mut Canvas, i32, i32) {
    match why {
        Why::Unreadable => |c, x, y| square(c, x, y, Ending::Failed(Why::Unreadable)),
        Why::NoSpare => |c, x, y| square(c, x, y, Ending::Failed(Why::NoSpare)),
        Why::Latch => |c, x, y| square(c, x, y, Ending::Failed(Why::Latch)),
        Why::NotStored => |c, x, y| square(c, x, y, Ending::Failed(Why::NotStored)),
        Why::NoTable => |c, x, y| square(c, x, y, Ending::Failed(Why::NoTable)),
        Why::PowerCut => |c, x, y| square(c, x, y, Ending::Failed(Why::PowerCut)),
        Why::Expectation => |c, x, y| square(c, x, y, Ending::Failed(Why::Expectation)),
        Why::Other => |c, x, y| square(c, x, y, Ending::Failed(Why::Other)),
    }
}

#[cfg(test)]
mod tests {
    use std::path::PathBuf;

    use super::super::svg::check;
    use super::*;
    use crate::faults::{Share, NONE};
    use crate::odds::{Ask, Outcome};
    use crate::progress::Progress;

    /// The picture of runs that ended so, in each of which so many sectors died.
    fn drawn(runs: &[(Ending, u64)]) -> String {
        let ask = Ask {
            program: String::from("workbench"),
            name: String::from("a <plan>"),
            plan: b"start\n".to_vec(),
            file: None,
            folder: PathBuf::new(),
            rate: Share { some: 1, of: 50 },
            dying: NONE,
        };
        let mut odds = ask.odds(1, 1, Progress::silent()).expect("a plan");
        let one = odds.runs[0];
        let run = |(seed, &(ending, deaths))| Outcome {
            seed,
            ending,
            deaths,
            ..one
        };
        odds.runs = (1..).zip(runs).map(run).collect();
        let svg = super::odds(&odds);
        check::picture(&svg);
        svg
    }

    #[test]
    fn shares_of_the_runs() {
        let failed = Ending::Failed(Why::Latch);
        let runs = [
            vec![(Ending::Whole, 0); 15],
            vec![(failed, 0); 5],
            vec![(failed, 2)],
        ];
        let svg = drawn(&runs.concat());
        for words in [
            "The odds of a &lt;plan&gt;",
            "21 runs: 15 whole (71.4 %), 6 failed, no history broken",
            "latch: 6 runs, 28.6 %",
            "history broken: 0 runs, 0.0 %",
            "75 %",
            "share of these runs",
        ] {
            assert!(svg.contains(&format!(">{words}</text>")), "{words}");
        }
        for words in ["0 died, 15 of 20 runs: whole", "2 died, 1 of 1 run: latch"] {
            assert!(svg.contains(&format!("<title>{words}</title>")), "{words}");
        }
        assert!(!svg.contains("no spare") && svg.contains(r#"fill-opacity="0.4""#));
        // No run has one sector that died: its column is empty.
        assert!(svg.contains(">1</text>") && !svg.contains("<title>1 died"));
    }

    #[test]
    fn every_ending_has_a_colour_of_its_own() {
        let all = Ending::all();
        let svg = drawn(&all.map(|ending| (ending, 1)));
        assert!(svg.contains("10 runs: 1 whole (10.0 %), 8 failed, 1 HISTORY BROKEN"));
        for (at, ending) in all.into_iter().enumerate() {
            // A part of the column, and the legend.
            let fill = format!(r#"fill="{}" fill-opacity="1"/>"#, colour(ending));
            assert_eq!(svg.matches(&fill).count(), 1, "{fill}");
            assert!(all[..at]
                .iter()
                .all(|other| colour(*other) != colour(ending)));
        }
    }

    #[test]
    fn many_numbers_share_columns() {
        let runs: Vec<(Ending, u64)> = (0..1000).map(|deaths| (Ending::Whole, deaths)).collect();
        let svg = drawn(&runs);
        assert!(svg.contains(">0–49</text>") && svg.contains("<title>950–999 died, "));
        assert_eq!(svg.matches("<title>").count(), 1 + 20);
    }

    /// The places of the labels of the columns, from left to right, and their words.
    fn labels(svg: &str) -> Vec<(i32, String)> {
        let height = format!(r#"" y="{}" {MIDDLE}>"#, BOTTOM + 20);
        let labels = svg.lines().filter_map(|line| {
            let (x, words) = line.split_once(&height)?;
            let x = x.strip_prefix("<text x=\"")?.parse().ok()?;
            Some((x, words.strip_suffix("</text>")?.to_string()))
        });
        labels.collect()
    }

    #[test]
    fn labels_do_not_touch() {
        for most in [0, 19, 20, 99, 100, 170, 999, 1000, 9791, 99_999] {
            let svg = drawn(&[(Ending::Whole, 0), (Ending::Whole, most)]);
            let labels = labels(&svg);
            assert!(!labels.is_empty(), "{most}");
            for pair in labels.windows(2) {
                let rooms: i32 = pair.iter().map(|(_, words)| room(words, 12)).sum();
                assert!(pair[1].0 - pair[0].0 >= rooms / 2, "{pair:?}");
            }
        }
    }

    #[test]
    fn every_second_column_has_a_label_if_they_are_long() {
        let words = |most| -> Vec<String> {
            let svg = drawn(&[(Ending::Whole, most)]);
            labels(&svg).into_iter().map(|(_, words)| words).collect()
        };
        assert_eq!(words(99).len(), 20);
        let long = words(170);
        assert_eq!(long[..2], ["0–8", "18–26"]);
        assert_eq!(long[long.len() - 1], "162–170");
    }
}
