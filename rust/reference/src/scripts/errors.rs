//! The script format itself: spellings that are allowed, and lines that stop
//! the run.

use super::bench::{Bench, Tally};
use super::Stored;
use crate::controller::{Answer, Offer};
use crate::drive::Call;
use crate::script::{parse, show, Line};

pub fn all() -> Vec<Stored> {
    let mut scripts = vec![Stored::new("spellings", spellings())];
    // No newline ends the last line of this one.
    let mut unended = Stored::new("unended", Bench::new("No newline after the last line."));
    unended.text += "raise\nlower 55\n\nfeed 00";
    scripts.push(unended);
    scripts.extend(ERRORS.iter().map(|(name, lines)| error(name, lines)));
    scripts
}

/// Lines in unusual spellings.
const SPELLINGS: [&str; 21] = [
    "lend 0536 raise",
    "lend 000000000000000000000000000000536 lower 55",
    "feed 01*1 00*02 1F*001",
    "raise",
    "lower 55",
    "feed Ab*1 aB AB ab*0000000000000000000000000000000000000000002",
    "feed",
    "feed ff*266 FF*0266",
    "raise",
    "lower 55",
    "surface 00000000000000000000000000000000000002",
    "surface 0255",
    "surface 255 00*4096",
    "feed 00*2000 01*2000 02*96",
    "lend 00 reset",
    "lend 0532 image",
    "convert F0*1 78 3C*01 1e 00*0528",
    "lend 00532 convert",
    "lend 0 convert",
    "convert",
    "reset",
];

fn spellings() -> Bench {
    let mut bench = Bench::new("Unusual spellings, comments and empty lines.");
    bench.started(&[], &[]);
    for line in SPELLINGS {
        bench.skipped("");
        bench.skipped("#");
        bench.skipped("#raise");
        let parsed = parse(line.as_bytes()).expect("a line");
        bench.spelled(parsed, line);
    }
    bench.said(Answer::Wait);
    bench.skipped("#\ttabs and returns may stand in a comment\r");
    bench.raise();
    bench.said(Answer::Offer(Offer::Command));
    bench
}

/// Names of scripts, and lines of which each stops a run.
const ERRORS: [(&str, &str); 28] = [
    ("error-call", "stop"),
    ("error-case", "Raise"),
    ("error-leading-blank", " raise"),
    ("error-blank-line", " "),
    ("error-return", "raise\r"),
    ("error-tab", "feed\t00"),
    ("error-lend-lend", "lend 5 lend 5 raise"),
    ("error-extra", "raise 01"),
    ("error-missing", "lower"),
    ("error-trailing-blank", "feed 00 "),
    ("error-double-blank", "surface 0  00*532"),
    ("error-lend-alone", "lend 536"),
    ("error-two-bytes", "lower 55 55"),
    ("error-byte", "feed 00 0g"),
    ("error-short-byte", "feed 0"),
    ("error-counted-lower", "lower 55*1"),
    ("error-count-0", "feed 00*0"),
    ("error-count-4097", "surface 0 00*4097"),
    ("error-count-missing", "feed 00*"),
    ("error-answer-256", "surface 256"),
    ("error-answer-word", "surface x"),
    ("error-length-601", "lend 601 raise"),
    ("error-too-many", "feed 00*4096 00"),
    ("error-convert-call", "converted 00"),
    ("error-convert-blank", "convert "),
    ("error-convert-byte", "convert f0 7"),
    ("error-convert-length", "lend 601 convert 00*532"),
    ("error-convert-too-many", "convert 00*4000 00*97"),
];

/// A few calls, then the line, then a call that is never made.
fn error(name: &'static str, line: &str) -> Stored {
    assert!(parse(line.as_bytes()).is_err(), "{line}");
    let start = show(&Line {
        lend: None,
        call: Call::Start,
    });
    Stored {
        name,
        text: format!("# The line after the start stops the run.\n\n{start}\n{line}\nreset\n"),
        tally: Tally::default(),
    }
}
