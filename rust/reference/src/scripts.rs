//! Call scripts: the stored ones, which together reach every rule, and random
//! ones of any length.

mod bench;
mod causes;
mod commands;
mod converts;
mod cuts;
mod endings;
mod errors;
mod form_b;
mod handshake;
mod health;
mod host;
mod moves;
mod reads;
mod refusals;
mod settle;
mod short_data;
mod starts;
mod stores;
mod table_read;
mod trials;
mod verifies;
mod ways;
mod week;

pub use bench::{Bench, Tally};
pub use host::random;

use crate::coverage;
use crate::script;

/// A stored script.
#[derive(Clone, Debug)]
pub struct Stored {
    pub name: &'static str,
    pub text: String,
    /// What the ledger said while it was made.
    pub tally: Tally,
}

impl Stored {
    /// Off the bench.
    fn new(name: &'static str, bench: Bench) -> Stored {
        let (text, tally) = bench.finish();
        Stored { name, text, tally }
    }
}

/// All stored scripts.
pub fn all() -> Vec<Stored> {
    [
        handshake::all(),
        commands::all(),
        short_data::all(),
        starts::all(),
        stores::all(),
        endings::all(),
        cuts::all(),
        table_read::all(),
        health::all(),
        reads::all(),
        moves::all(),
        trials::all(),
        verifies::all(),
        settle::all(),
        form_b::all(),
        causes::all(),
        converts::all(),
        refusals::all(),
        week::all(),
        errors::all(),
    ]
    .concat()
}

/// The stored script of this name.
pub fn named(name: &str) -> Option<Stored> {
    all().into_iter().find(|stored| stored.name == name)
}

/// What the stored scripts meet together.
pub fn coverage_report() -> String {
    let scripts = all();
    coverage::clear();
    for stored in scripts {
        script::transcript(&stored.text);
    }
    coverage::report()
}

#[cfg(test)]
mod tests {
    use super::*;
    use std::collections::HashSet;

    #[test]
    fn the_stored_scripts_meet_every_name() {
        let scripts = all();
        coverage::clear();
        for stored in &scripts {
            script::transcript(&stored.text);
        }
        assert_eq!(coverage::missing(), [""; 0]);
        assert_eq!(coverage::strangers(), [""; 0]);
    }

    #[test]
    fn names_and_sizes_are_fit() {
        let scripts = all();
        let names: HashSet<&str> = scripts.iter().map(|stored| stored.name).collect();
        assert_eq!(names.len(), scripts.len());
        let mut together = 0;
        for stored in &scripts {
            let fit = |c: char| c.is_ascii_lowercase() || c.is_ascii_digit() || c == '-';
            assert!(stored.name.chars().all(fit), "{}", stored.name);
            assert!(stored.text.is_ascii(), "{}", stored.name);
            let transcript = script::transcript(&stored.text);
            for size in [stored.text.len(), transcript.len()] {
                let most = if stored.name == "longest-read" {
                    160_000
                } else {
                    60_000
                };
                assert!(size < most, "{}: {size} bytes", stored.name);
                together += size;
            }
        }
        assert!(together < 2_400_000, "{together} bytes");
    }

    #[test]
    fn only_the_scripts_of_errors_end_in_one() {
        for stored in all() {
            let transcript = script::transcript(&stored.text);
            let error = transcript.lines().any(|line| line.starts_with("error"));
            assert_eq!(error, stored.name.starts_with("error-"), "{}", stored.name);
        }
    }

    #[test]
    fn the_transcript_has_a_line_for_each_call() {
        for stored in all() {
            if stored.tally.calls > 0 && !stored.name.starts_with("error-") {
                let lines = script::transcript(&stored.text).lines().count();
                assert_eq!(lines, stored.tally.calls, "{}", stored.name);
            }
        }
    }

    #[test]
    fn the_ledger_looks_on_at_stores_and_cuts() {
        let about = |stored: &Stored| {
            let name = stored.name;
            name == "week" || name.starts_with("cuts-") || name.starts_with("stores")
        };
        let scripts: Vec<Stored> = all().into_iter().filter(about).collect();
        assert_eq!(scripts.len(), 16);
        let mut cuts = [0; 3];
        for Stored { name, tally, .. } in scripts {
            // The surface keeps its rules, so that every list has to be allowed.
            assert!(tally.lists > 0 && tally.other_lists == 0, "{name}");
            let none_good = matches!(name, "stores" | "cuts-without-a-table");
            assert_eq!(tally.good_reads == 0, none_good, "{name}");
            for (all, more) in cuts.iter_mut().zip(tally.cuts) {
                *all += more;
            }
        }
        assert!(cuts.iter().all(|&count| count >= 10), "{cuts:?}");
    }

    #[test]
    fn always_the_same() {
        let texts = |scripts: Vec<Stored>| -> Vec<String> {
            scripts.into_iter().map(|stored| stored.text).collect()
        };
        assert_eq!(texts(all()), texts(all()));
        assert!(named("week").is_some());
        assert!(named("weak").is_none());
    }
}
