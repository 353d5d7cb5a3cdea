//! The search of small worlds, and searches that have to fail.

use super::*;
use crate::controller::Phase;
use crate::image;

#[test]
fn every_way_of_the_small_worlds_is_allowed() {
    let mut together = Tally::default();
    for size in SMALL {
        match search(size) {
            Ok(tally) => together.add(tally),
            Err(violation) => panic!("{size}: {violation}"),
        }
    }
    println!("{together}");
    assert!(together.ways > 10_000, "{together}");
    assert!(together.good_reads > 10_000, "{together}");
}

/// A world with one block.
const ONE: Size = Size {
    table: Table::Plain,
    blocks: 1,
    spares: 1,
    commands: 2,
    cuts: 1,
};

/// Gives what the search finds with a wrong controller or a wrong ledger.
#[track_caller]
fn found(make: Make, show: Show) -> Broken {
    match search_with(ONE, make, show) {
        Ok(tally) => panic!("nothing was found: {tally}"),
        Err(violation) => violation.broken,
    }
}

#[test]
fn a_controller_without_stores_is_found() {
    // It takes every store for done, and makes none.
    let found = found(
        |drive, call| match make(drive, call) {
            Answer::Store => make(drive, &Call::Surface(0, vec![])),
            answer => answer,
        },
        show,
    );
    assert!(matches!(found, Broken::GoodRead(_)), "{found}");
}

#[test]
fn a_controller_that_is_good_whatever_its_store_is_found() {
    let found = found(
        |drive, call| {
            let good =
                matches!(drive.record.phase, Phase::Storing { status } if status[0] & 1 == 0);
            let answer = make(drive, call);
            if good && answer == Answer::Finished {
                drive.buffer[0] &= !1;
            }
            answer
        },
        show,
    );
    assert!(matches!(found, Broken::GoodRead(_)), "{found}");
}

#[test]
fn a_controller_without_the_place_mark_is_found() {
    let found = found(
        |drive, call| {
            let answer = make(drive, call);
            drive.record.placed = false;
            answer
        },
        show,
    );
    assert!(matches!(found, Broken::GoodRead(_)), "{found}");
}

#[test]
fn a_controller_that_stores_once_only_is_found() {
    // It takes the table for stored, whatever came of the store.
    let found = found(
        |drive, call| {
            let storing = matches!(drive.record.phase, Phase::Storing { .. });
            let answer = make(drive, call);
            if storing {
                drive.record.changed = false;
                drive.record.placed = false;
            }
            answer
        },
        show,
    );
    assert!(matches!(found, Broken::GoodRead(_)), "{found}");
}

#[test]
fn a_controller_that_is_good_without_a_table_is_found() {
    let found = found(
        |drive, call| {
            let answer = make(drive, call);
            if answer == Answer::Finished && drive.buffer[1] == 0x08 {
                drive.buffer[0] = 0;
            }
            answer
        },
        show,
    );
    assert!(matches!(found, Broken::NoTable(_)), "{found}");
}

#[test]
fn a_ledger_that_forgets_cut_writes_is_found() {
    let found = found(make, |ledger, call, answer, buffer| {
        if *call == Call::Start {
            // A command that is broken off adds nothing.
            show(ledger, &Call::Reset, Answer::Wait, buffer);
        }
        show(ledger, call, answer, buffer);
    });
    assert!(matches!(found, Broken::GoodRead(_)), "{found}");
}

#[test]
fn a_ledger_that_takes_candidates_anew_is_found() {
    let found = found(make, |ledger, call, answer, buffer| {
        if *call == Call::Start {
            ledger.forget_first_image();
        }
        show(ledger, call, answer, buffer);
    });
    assert!(matches!(found, Broken::GoodRead(_)), "{found}");
}

#[test]
fn a_ledger_that_keeps_the_sectors_is_found() {
    // A later image is shown to it as one that gives the same places.
    let found = found(make, |ledger, call, answer, buffer| {
        let places = ledger.places_now();
        show(ledger, call, answer, buffer);
        if matches!(call, Call::Surface(0, bytes) if image::read(bytes).is_ok()) {
            ledger.keep_places(places);
        }
    });
    assert!(matches!(found, Broken::FirstAccess { .. }), "{found}");
}
