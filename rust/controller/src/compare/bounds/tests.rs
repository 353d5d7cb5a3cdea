//! The records for code 1 through the library, and what their names are worth.

use std::collections::HashSet;
use std::string::String;

use reference::rng::Rng;

use super::*;
use crate::baseline;
use crate::compare::clauses::{names, Met};
use crate::compare::mapping::record_of;
use crate::compare::trial;

/// Counts the records that are wanted, each after its calls.
fn met(wanted: fn(&Fields) -> bool) -> Met {
    let mut met = Met::default();
    let mut rng = Rng::new(1);
    for record in records().iter().filter(|record| wanted(record)) {
        let tried = trial::all_calls(record, &mut rng).expect("agreement");
        met.count(record, tried.refused).expect("a name");
    }
    met
}

#[test]
fn every_name_is_met_through_the_library() {
    assert_eq!(met(|_| true).missed(), [""; 0]);
}

#[test]
fn what_is_not_tried_is_missed() {
    assert_eq!(Met::default().missed(), names());
    let none_of = |clause: &str, missed: Vec<String>| {
        let wanted = names().into_iter().filter(|name| name.contains(clause));
        assert_eq!(missed, wanted.collect::<Vec<_>>(), "{clause}");
        assert!(!missed.is_empty(), "{clause}");
    };
    none_of("beyond.spares.count-33.", met(|d| d.nspares != 33).missed());
    none_of("at.data.count-533.", met(|d| d.fed != 533).missed());
    none_of("beyond.causes.first-4.", met(|d| d.causes[0] != 4).missed());
    none_of(
        "at.store.ending-9.",
        met(|d| (d.stage.kind, d.stage.detail) != (kind::STORE, 9)).missed(),
    );
    none_of(
        "at.marks.place-alone.",
        met(|d| (d.flags.changed, d.flags.moved) != (0, 1)).missed(),
    );
    none_of("beyond.spent.90.", met(|d| d.stage.spent != 90).missed());
    none_of(
        "beyond.trial.rereads-101.",
        met(|d| d.stage.detail != 101).missed(),
    );
    none_of(
        ".first-read",
        met(|d| (d.stage.kind, d.stage.first) != (kind::READ, 1)).missed(),
    );
}

#[test]
fn a_wrong_verdict_is_an_error() {
    for record in records() {
        let refused = !record_of(&record).expect("a phase").valid();
        assert!(Met::default().count(&record, refused).is_ok());
        assert!(Met::default().count(&record, !refused).is_err());
    }
}

#[test]
fn beyond_two_bounds_is_no_name() {
    let mut record = full(damage::sound_ones()[0]);
    (record.count, record.fed) = (7, 534);
    assert!(Met::default().count(&record, true).is_err());
    record.fed = 533;
    assert!(Met::default().count(&record, true).is_ok());
    // Nor is what no clause decides.
    record.stage.kind = kind::TRIAL_READ + 1;
    assert!(Met::default().count(&record, true).is_err());
    (record.stage.kind, record.stage.detail) = (kind::STORE, 10);
    assert!(Met::default().count(&record, true).is_err());
}

#[test]
fn names_differ() {
    let names = names();
    let different: HashSet<&String> = names.iter().collect();
    assert_eq!(different.len(), names.len());
}

#[test]
fn the_baseline_packs_what_it_unpacks() {
    for record in records() {
        assert_eq!(baseline::Drive::unpacked(&record).packed(), record);
    }
}
