//! Random scripts against the ledger.

use super::temper::{EVEN, FAILING, HOSTILE, PATIENT, WORN};
use super::*;
use crate::coverage;
use crate::script;
use crate::scripts::bench::MOST_ACCESSES;

const NEVER: Lies = 0;
const ALWAYS: Lies = 4;

/// What random runs over some seeds add up to.
fn together(seeds: std::ops::Range<u64>, calls: usize, lies: Lies) -> Tally {
    let mut sum = Tally::default();
    for seed in seeds {
        let (_, tally) = simulate(seed, calls, lies, &EVEN);
        sum.calls += tally.calls;
        sum.lists += tally.lists;
        sum.listed_calls += tally.listed_calls;
        sum.good_reads += tally.good_reads;
        sum.other_lists += tally.other_lists;
        sum.disallowed += tally.disallowed;
        sum.starts += tally.starts;
        for (all, more) in sum.cuts.iter_mut().zip(tally.cuts) {
            *all += more;
        }
    }
    sum
}

#[test]
fn the_ledger_allows_every_list_of_a_surface_that_keeps_its_rules() {
    // The bench itself fails when a list is not allowed.
    let tally = together(100..106, 9000, NEVER);
    assert!(tally.calls >= 54_000, "{tally:?}");
    assert!(tally.listed_calls > 45_000, "{tally:?}");
    assert!(tally.good_reads > 200, "{tally:?}");
    assert_eq!(tally.other_lists, 0, "{tally:?}");
}

/// The same at length: `cargo test --release -- --ignored`.
#[test]
#[ignore = "takes a minute"]
fn the_ledger_allows_many_more_lists() {
    let tally = together(1000..1200, 20_000, NEVER);
    println!("{tally:?}");
    assert_eq!(tally.other_lists, 0, "{tally:?}");
}

#[test]
fn the_ledger_finds_lies() {
    let tally = together(200..204, 8000, ALWAYS);
    assert!(tally.other_lists > 20, "{tally:?}");
    assert!(tally.disallowed > 10, "{tally:?}");
}

#[test]
fn random_scripts_are_scripts() {
    for seed in 1..=5 {
        let text = random(seed, 500);
        assert_eq!(text, random(seed, 500));
        let transcript = script::transcript(&text);
        let lines = transcript.lines().count();
        assert!((500..520).contains(&lines), "{lines}");
        assert!(!transcript.contains("error"));
    }
    assert_ne!(random(1, 500), random(2, 500));
}

#[test]
fn random_scripts_reach_most_names() {
    coverage::clear();
    for seed in 300..304 {
        simulate(seed, 10_000, SOMETIMES, &EVEN);
    }
    assert_eq!(coverage::strangers(), [""; 0]);
    // Refusals have very many names, so only the others are counted.
    let others = |names: &[&'static str]| -> usize {
        let other = |name: &&&str| !name.starts_with("refused");
        names.iter().filter(other).count()
    };
    let all = others(coverage::NAMES);
    let missing = others(&coverage::missing());
    assert!(missing < all / 5, "{missing} of {all}");
}

#[test]
fn random_scripts_read_and_write_the_health_block() {
    coverage::clear();
    for temper in temper::ALL {
        simulate(500, 12_000, SOMETIMES, temper);
    }
    // Its rarer states are for longer runs.
    for (name, least) in [
        ("act.fffffd.unchanged", 20),
        ("act.invalid.write.fffffd", 10),
        ("act.invalid.verify.fffffd", 10),
    ] {
        let count = coverage::count(name);
        assert!(count >= least, "{name}: {count}");
    }
}

#[test]
fn random_scripts_have_both_forms() {
    coverage::clear();
    for temper in temper::ALL {
        simulate(800, 12_000, SOMETIMES, temper);
        simulate(801, 12_000, SOMETIMES, temper);
    }
    for (name, least) in [
        ("start.good.form-a", 20),
        ("start.good.form-b", 20),
        ("start.good.sum", 3),
        ("start.run-number.at-its-top", 3),
        ("store.run-number.one-more", 20),
        ("store.run-number.at-its-top", 1),
        ("convert.a-to-b", 20),
        ("convert.b-to-a", 20),
        ("refused.6.convert.begins-as-a", 3),
        ("refused.6.convert.other", 3),
        ("refused.7.convert", 3),
        ("refused.8.convert.zeros", 1),
        ("refused.2.convert.first", 3),
        ("refused.2.convert.second", 3),
        ("moved.cause.crc", 3),
        ("moved.cause.timeout", 3),
        ("moved.old-entry-killed.cause.crc", 1),
        ("moved.old-entry-killed.cause.timeout", 1),
        ("moved.old-entry-killed.after-another-failure-on-a-spare", 1),
        ("dead.by-no-settle.in-spare-reread", 1),
    ] {
        let count = coverage::count(name);
        assert!(count >= least, "{name}: {count}");
    }
}

#[test]
fn random_scripts_bring_rereads_that_nearly_match() {
    coverage::clear();
    for temper in temper::ALL {
        simulate(600, 8000, ALWAYS, temper);
    }
    let near = |name: &&&str| name.starts_with("near.reread.");
    for name in coverage::NAMES.iter().filter(near) {
        assert!(coverage::count(name) > 0, "{name}");
    }
    // First verifies are fewer.
    let near = |name: &&&str| name.starts_with("near.first-verify.");
    let first = coverage::NAMES.iter().filter(near);
    let count: u64 = first.map(|name| coverage::count(name)).sum();
    assert!(count >= 5, "{count}");
}

#[test]
fn random_scripts_have_trials_on_both_sides_of_the_bound() {
    coverage::clear();
    for temper in temper::ALL {
        simulate(700, 8000, SOMETIMES, temper);
    }
    for place in ["present", "spare"] {
        for end in [
            "passed.some",
            "passed.30",
            "failed.31",
            "failed.some",
            "failed.100",
            "write.timeout",
        ] {
            let name = format!("trial.{place}.{end}");
            let count = coverage::count(&name);
            assert!(count >= 3, "{name}: {count}");
        }
    }
    for opcode in ["00", "01", "02"] {
        let name = format!("moved.by-{opcode}");
        let count = coverage::count(&name);
        assert!(count >= 3, "{name}: {count}");
    }
}

#[test]
fn random_scripts_cut_the_power() {
    coverage::clear();
    let mut sum = Tally::default();
    for temper in temper::ALL {
        for seed in 900..903 {
            let (_, tally) = simulate(seed, 12_000, NEVER, temper);
            sum.starts += tally.starts;
            for (all, more) in sum.cuts.iter_mut().zip(tally.cuts) {
                *all += more;
            }
        }
    }
    // Cuts that left a sector old, new and spoiled, in lists that go on.
    assert!(sum.cuts.iter().all(|&count| count >= 50), "{sum:?}");
    assert!(sum.starts > 500, "{sum:?}");
    for (name, least) in [
        ("start.from.storing", 20),
        ("start.from.plain-write", 10),
        ("start.from.verified-write", 10),
        ("start.from.first-verify", 5),
        ("start.from.present-write", 5),
        ("start.from.present-reread", 5),
        ("start.from.spare-write", 5),
        ("start.from.spare-reread", 5),
        ("start.from.first-read", 5),
        ("start.from.starting", 5),
        ("start.drops.a-place.with-their-store", 5),
        ("start.drops.a-place.unstored", 1),
        ("start.drops.others.with-their-store", 5),
    ] {
        let count = coverage::count(name);
        assert!(count >= least, "{name}: {count}");
    }
}

#[test]
fn random_scripts_store_and_fail_to() {
    coverage::clear();
    for temper in temper::ALL {
        simulate(950, 12_000, SOMETIMES, temper);
        simulate(951, 12_000, SOMETIMES, temper);
    }
    for (name, least) in [
        ("store.done.after-00-moved", 5),
        ("store.done.after-01-moved", 5),
        ("store.done.after-02-moved", 5),
        ("store.done.after-00-failed", 5),
        ("store.done.after-00-good", 3),
        ("store.done.after-01-good", 3),
        ("store.done.after-02-good", 3),
        ("store.timeout.after-00-moved", 1),
        ("store.timeout.after-01-moved", 1),
        ("store.timeout.after-02-moved", 1),
        ("store.timeout.after-00-failed", 3),
        ("store.timeout.after-00-good", 1),
        ("store.no-settle.after-00-failed", 1),
        ("end.under-latch.others-unstored.good", 1),
        ("end.under-latch.a-place-unstored.good", 1),
        ("end.under-latch.a-place-unstored.failed", 1),
        ("raise.idle.changed", 10),
        ("no-store.fffffe", 3),
        ("no-store.wrong-byte", 3),
    ] {
        let count = coverage::count(name);
        assert!(count >= least, "{name}: {count}");
    }
}

/// Some scripts of a temper.
fn tempered(temper: &'static Temper) -> Vec<Tally> {
    coverage::clear();
    let script = |seed| simulate(seed, 8000, NEVER, temper).1;
    (400..406).map(script).collect()
}

#[test]
fn the_ledger_allows_the_lists_of_every_temper() {
    for temper in temper::ALL {
        for tally in tempered(temper) {
            assert!(tally.lists > 0 && tally.other_lists == 0, "{temper:?}");
        }
    }
}

#[test]
fn tempers_differ() {
    let often = |temper, name| {
        tempered(temper);
        coverage::count(name)
    };
    let more = |one, other, times, name| {
        let counts = (often(one, name), often(other, name));
        assert!(counts.0 > times * counts.1, "{name}: {counts:?}");
    };
    more(&EVEN, &PATIENT, 2, "start.from.idle");
    more(&HOSTILE, &EVEN, 2, "lower.wrong.01");
    more(&FAILING, &EVEN, 2, "start.ten-reads-spent");
    more(&WORN, &EVEN, 3, "finish.errors.255");
}

#[test]
fn a_worn_drive_makes_the_longest_read() {
    let (_, tally) = simulate(402, 40_000, NEVER, &WORN);
    assert_eq!(tally.most_accesses, MOST_ACCESSES);
}

#[test]
fn neighbouring_seeds_have_different_tempers() {
    for seed in 0..20 {
        let [one, next] = [seed, seed + 1].map(Temper::of);
        assert!(!std::ptr::eq(one, next), "{seed}");
    }
}
