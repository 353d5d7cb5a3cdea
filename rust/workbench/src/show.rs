//! What happened, in lines that a person likes to read.

use controller::{Code, Offer};
use reference::geometry::{spare, Sector, SPARES};

use crate::board::{Accessed, Cut, Purpose};
use crate::health::Health;
use crate::host::{Change, End, Report};
use crate::picture::{Move, Outcome};
use crate::power::Fate;
use crate::{status, surface, trace};

/// So many of a thing.
pub fn count(number: u64, one: &str, more: &str) -> String {
    let word = if number == 1 { one } else { more };
    format!("{number} {word}")
}

/// So many of a thing, or that there is none.
pub fn count_or_no(number: u64, one: &str, more: &str) -> String {
    match number {
        0 => format!("no {one}"),
        _ => count(number, one, more),
    }
}

/// So many accesses and faults of each kind, then a store in words.
pub fn folded(accesses: &[Accessed]) -> Vec<String> {
    let own: Vec<&Accessed> = accesses.iter().filter(|a| !is_store(a)).collect();
    let reads = own.iter().filter(|a| a.purpose.reads()).count() as u64;
    let answer = |wanted| own.iter().filter(|a| a.answer == wanted).count() as u64;
    let counts = [
        (reads, "read", "reads"),
        (own.len() as u64 - reads, "write", "writes"),
        (answer(surface::CRC), "CRC error", "CRC errors"),
        (answer(surface::TIMEOUT), "timeout", "timeouts"),
        (answer(surface::NO_SETTLE), "no settle", "no settles"),
    ];
    let stores = accesses.iter().filter(|a| is_store(a));
    met(counts).into_iter().chain(stores.map(store)).collect()
}

/// Counts in words, without those that are 0.
pub fn met<const N: usize>(counts: [(u64, &str, &str); N]) -> Vec<String> {
    let met = counts.into_iter().filter(|(number, _, _)| *number > 0);
    met.map(|(number, one, more)| count(number, one, more))
        .collect()
}

/// Whether an access is a store.
pub fn is_store(accessed: &Accessed) -> bool {
    accessed.purpose == Purpose::Store
}

fn store(accessed: &Accessed) -> String {
    String::from(match accessed.answer {
        surface::GOOD => "table stored",
        surface::TIMEOUT => "table not stored (timeout)",
        _ => "table not stored (no settle)",
    })
}

/// A command's accesses, its verdict, E if it had errors, and the other bits.
pub fn command(report: &Report) -> String {
    let mut words = folded(&report.accesses);
    if report.accesses.is_empty() && !report.cut() {
        words.push(String::from("no access"));
    }
    match report.end {
        End::Finished(bytes) => words.extend(verdict(bytes, &report.accesses)),
        end => words.push(ending(end)),
    }
    let bad = report.changes.iter().filter_map(bad_change);
    words.extend(bad.map(String::from));
    words.extend(at_spare(report));
    words.join(", ")
}

/// A good read of the health block: its figures in the place of "no access, good".
pub fn health(report: &Report, health: Health) -> String {
    let mut words = folded(&report.accesses);
    words.push(health.words());
    if let End::Finished(bytes) = report.end {
        words.extend(status::words(bytes).into_iter().map(String::from));
    }
    words.join(", ")
}

/// Where the block lives, if that is a spare and it did not move.
fn at_spare(report: &Report) -> Option<String> {
    let moved = |change: &Change| matches!(change, Change::Moved { .. });
    if report.changes.iter().any(moved) {
        return None;
    }
    let first = first_access(&report.accesses)?;
    let k = spare_at(first.sector)?;
    Some(format!("in {}", spare_name(k)))
}

/// The first access that is no store.
pub fn first_access(accesses: &[Accessed]) -> Option<&Accessed> {
    accesses.iter().find(|a| !is_store(a))
}

fn verdict(bytes: [u8; 4], accesses: &[Accessed]) -> Vec<String> {
    let verdict = if status::good(bytes) {
        "good"
    } else {
        "failed"
    };
    let mut words = vec![String::from(verdict)];
    if rereads(accesses) {
        words.push(format!("E {}", bytes[3]));
    }
    words.extend(status::words(bytes).into_iter().map(String::from));
    words
}

/// Whether these are the accesses of a read command that had something to reread.
fn rereads(accesses: &[Accessed]) -> bool {
    first_access(accesses).is_some_and(|a| a.purpose == Purpose::Read && a.answer != surface::GOOD)
}

/// How a line of the host ended that is no command.
pub fn ending(end: End) -> String {
    match end {
        End::Finished(bytes) => status::all_words(bytes),
        End::Offered(offer) => format!("offer {:02x}, {}", offer.byte(), offered(offer)),
        End::Waits => String::from("the controller waits"),
        End::Refused(code) => format!("refused, code {}: {}", code.number(), refused(code)),
        End::Cut(cut) => power_cut(cut),
    }
}

/// Says at which access the power failed, and what is left of a write.
fn power_cut(cut: Cut) -> String {
    let access = cut.access;
    let place = match cut.purpose {
        Purpose::Store => String::from("during the store"),
        purpose => format!("at {} {}", trace::verb(purpose), cut.sector.number()),
    };
    match left(cut) {
        Some(left) => format!("power fails {place} (access {access}), {left}"),
        None => format!("power fails {place} (access {access})"),
    }
}

/// Says what a write left at which the power failed. A read changes nothing.
pub fn left(cut: Cut) -> Option<&'static str> {
    match (cut.purpose, cut.fate) {
        (Purpose::Read | Purpose::Reread, _) => None,
        (Purpose::Store, Fate::Old) => Some("the old table stays"),
        (Purpose::Store, Fate::New) => Some("the new table is there"),
        (Purpose::Store, Fate::Unreadable) => Some("the table is unreadable"),
        (_, Fate::Old) => Some("the sector keeps its old bytes"),
        (_, Fate::New) => Some("the sector has the new bytes"),
        (_, Fate::Unreadable) => Some("the sector is unreadable"),
    }
}

fn offered(offer: Offer) -> &'static str {
    match offer {
        Offer::Command => "a command may come",
        Offer::Read => "the block will be read",
        Offer::Write | Offer::Verify => "data may come",
        Offer::Act => "the block will be written",
    }
}

/// Says why a call is refused.
pub fn refused(code: Code) -> &'static str {
    match code {
        Code::Record => "no call returned this record",
        Code::Buffer => "the buffer has another length",
        Code::Place => "the call is out of place",
        Code::Answer => "the surface has no such answer",
        Code::Bytes => "the bytes do not go with the answer",
        Code::Form => {
            "the image is neither a well-formed one of form A, nor does it begin as form B"
        }
        Code::Sum => "the sum of form B is wrong",
        Code::Field => "an offset, count, entry, cause or zero of form B is wrong",
    }
}

fn bad_change(change: &Change) -> Option<&'static str> {
    match change {
        Change::EnteredBad => Some("entered in the bad list"),
        Change::RemovedBad => Some("removed from the bad list"),
        Change::Moved { .. } | Change::Died { .. } => None,
    }
}

/// Moves and dead spares, a line for each; neighbours that died are one line.
pub fn spare_changes(changes: &[Change]) -> Vec<String> {
    let runs = changes.chunk_by(|one, next| match (one, next) {
        (Change::Died { spare: k }, Change::Died { spare: l }) => k + 1 == *l,
        _ => false,
    });
    runs.filter_map(|run| match run {
        [Change::Moved {
            block, from, spare, ..
        }] => Some(format!(
            "block {} moved from sector {} to {}",
            block.number(),
            from.number(),
            spare_name(*spare)
        )),
        [Change::Died { spare }] => Some(format!("{} is dead", spare_name(*spare))),
        [Change::Died { spare: k }, .., Change::Died { spare: l }] => {
            let spares: Vec<usize> = (*k..=*l).collect();
            Some(format!("{} are dead", spare_names(&spares)))
        }
        _ => None,
    })
    .collect()
}

/// A spare and its sector.
pub fn spare_name(k: usize) -> String {
    format!("spare {k} (sector {})", spare_sector(k))
}

/// Several spares and their sectors.
pub fn spare_names(spares: &[usize]) -> String {
    let numbers: Vec<u32> = spares.iter().map(|&k| k as u32).collect();
    let sectors: Vec<u32> = spares.iter().map(|&k| spare_sector(k)).collect();
    format!("spares {} (sectors {})", ranges(&numbers), ranges(&sectors))
}

fn spare_sector(k: usize) -> u32 {
    let sector = spare(k).expect("a table has 32 spares at most");
    sector.number()
}

/// The spare that a sector is.
pub fn spare_at(sector: Sector) -> Option<usize> {
    (0..SPARES).find(|&k| spare(k) == Some(sector))
}

/// A command's end as a picture shows it.
pub fn outcome(report: &Report) -> Outcome {
    match report.end {
        End::Refused(_) => Outcome::Refused,
        End::Cut(_) => Outcome::Cut,
        End::Finished(bytes) if bytes[0] & status::NOT_55 != 0 => Outcome::None,
        End::Finished(bytes) if !status::good(bytes) => Outcome::Failed,
        End::Finished(_) => Outcome::Good,
        End::Offered(_) | End::Waits => Outcome::None,
    }
}

/// Gives the block that a command moved, as a picture shows it. The command may have failed.
pub fn moved(report: &Report) -> Option<Move> {
    report.changes.iter().find_map(|change| match change {
        Change::Moved {
            block,
            spare,
            cause,
            ..
        } => Some(Move {
            block: block.number(),
            sector: spare_sector(*spare),
            cause: *cause,
        }),
        _ => None,
    })
}

/// The words, cut to at most this many characters.
pub fn shorten(words: &str, most: usize) -> String {
    if words.chars().count() <= most {
        return words.to_string();
    }
    let begin: String = words.chars().take(most - 1).collect();
    format!("{begin}…")
}

/// Splits a heading at its colon: "Monday" and "it is written".
pub fn heading(text: &str) -> (&str, &str) {
    text.split_once(": ").unwrap_or((text, ""))
}

/// Gives words in lines of at most this many letters; a longer word has a line of its own.
pub fn wrapped(words: &str, most: usize) -> Vec<String> {
    let mut lines: Vec<String> = vec![];
    for word in words.split_whitespace() {
        match lines.last_mut() {
            Some(line) if line.chars().count() + 1 + word.chars().count() <= most => {
                line.push(' ');
                line.push_str(word);
            }
            _ => lines.push(word.to_string()),
        }
    }
    lines
}

/// Numbers in their order, runs of them as `first..last`.
pub fn ranges(numbers: &[u32]) -> String {
    let runs = numbers.chunk_by(|one, next| one + 1 == *next);
    let words: Vec<String> = runs
        .map(|run| match run {
            [one] => one.to_string(),
            [first, .., last] => format!("{first}..{last}"),
            [] => String::new(),
        })
        .collect();
    words.join(", ")
}

#[cfg(test)]
mod tests {
    use super::*;
    use crate::clock::Time;

    fn done(purpose: Purpose, answer: u8) -> Accessed {
        Accessed {
            purpose,
            sector: Sector::new(17).expect("a sector"),
            answer,
            unreadable: false,
        }
    }

    fn report(accesses: Vec<Accessed>, status: [u8; 4]) -> Report {
        Report {
            accesses,
            end: End::Finished(status),
            changes: vec![],
            took: Time::ZERO,
            other_bytes: false,
        }
    }

    #[test]
    fn a_read_with_rereads() {
        let read = |answer| done(Purpose::Read, answer);
        let report = report(vec![read(1), read(1), read(0)], [0x08, 0, 0, 1]);
        assert_eq!(command(&report), "3 reads, 2 CRC errors, good, E 1");
        assert!(matches!(outcome(&report), Outcome::Good));
    }

    #[test]
    fn a_clean_write_and_a_command_without_access() {
        let written = report(vec![done(Purpose::Write, 0)], [0, 0, 0x80, 0]);
        assert_eq!(
            command(&written),
            "1 write, good, first since start or reset"
        );
        let none = report(vec![], [0x41, 0x08, 0, 0]);
        assert_eq!(command(&none), "no access, failed, write aborted, no table");
    }

    #[test]
    fn only_reads_have_errors_counted() {
        let written = report(vec![done(Purpose::Write, 2)], [0x05, 0, 0, 0]);
        assert_eq!(command(&written), "1 write, 1 timeout, failed");
    }

    #[test]
    fn the_accesses_of_a_trial_count() {
        let trial = [
            done(Purpose::TrialWrite, 0),
            done(Purpose::Reread, 1),
            done(Purpose::Reread, 0),
        ];
        let first = [done(Purpose::Write, 0), done(Purpose::Read, 2)];
        let report = report([&first[..], &trial].concat(), [0x0C, 0, 0, 0]);
        assert_eq!(
            command(&report),
            "3 reads, 2 writes, 1 CRC error, 1 timeout, good"
        );
    }

    #[test]
    fn a_store_is_told_behind_the_other_accesses() {
        let accesses = vec![done(Purpose::Read, 0), done(Purpose::Store, 0)];
        assert_eq!(
            command(&report(accesses, [0; 4])),
            "1 read, table stored, good"
        );
        let alone = report(vec![done(Purpose::Store, 2)], [0x45, 0, 0, 0]);
        assert_eq!(
            command(&alone),
            "table not stored (timeout), failed, more than 532 bytes, write aborted"
        );
    }

    /// A command after so many reads at whose next access the power failed.
    fn cut(purpose: Purpose, reads: usize, fate: Fate) -> Report {
        let sector = Sector::new(4928).expect("a sector");
        let access = reads + 1;
        Report {
            end: End::Cut(Cut {
                purpose,
                sector,
                access,
                fate,
            }),
            ..report(vec![done(Purpose::Read, 0); reads], [0; 4])
        }
    }

    /// Accesses at which the power fails, and how that is told.
    const CUTS: [(Purpose, Fate, &str); 8] = [
        (
            Purpose::Write,
            Fate::Old,
            "at write 4928 (access 3), the sector keeps its old bytes",
        ),
        (
            Purpose::TrialWrite,
            Fate::New,
            "at write 4928 (access 3), the sector has the new bytes",
        ),
        (
            Purpose::Write,
            Fate::Unreadable,
            "at write 4928 (access 3), the sector is unreadable",
        ),
        (
            Purpose::Store,
            Fate::Old,
            "during the store (access 3), the old table stays",
        ),
        (
            Purpose::Store,
            Fate::New,
            "during the store (access 3), the new table is there",
        ),
        (
            Purpose::Store,
            Fate::Unreadable,
            "during the store (access 3), the table is unreadable",
        ),
        (Purpose::Read, Fate::New, "at read 4928 (access 3)"),
        (
            Purpose::Reread,
            Fate::Unreadable,
            "at reread 4928 (access 3)",
        ),
    ];

    #[test]
    fn power_that_fails() {
        for (purpose, fate, words) in CUTS {
            let report = cut(purpose, 2, fate);
            assert_eq!(command(&report), format!("2 reads, power fails {words}"));
            assert_eq!(outcome(&report), Outcome::Cut);
            assert!(!report.good());
        }
        let first = cut(Purpose::Read, 0, Fate::Old);
        assert_eq!(command(&first), "power fails at read 4928 (access 1)");
    }

    #[test]
    fn figures_keep_the_bits() {
        let figures = Health {
            unused: 31,
            bads: 1,
            latch: false,
            unstored: true,
        };
        assert_eq!(
            health(&report(vec![], [0, 0, 0x80, 0]), figures),
            "31 spares unused, 1 bad block, no latch, unstored changes, \
             first since start or reset"
        );
    }

    #[test]
    fn neighbours_that_died_are_one_line() {
        let died = |spare| Change::Died { spare };
        assert_eq!(
            spare_changes(&[died(0), died(2), died(3), died(4)]),
            [
                "spare 0 (sector 4928) is dead",
                "spares 2..4 (sectors 4930..4932) are dead",
            ]
        );
    }

    #[test]
    fn refusals_and_offers() {
        assert_eq!(
            ending(End::Refused(Code::Place)),
            "refused, code 3: the call is out of place"
        );
        assert_eq!(
            ending(End::Offered(Offer::Command)),
            "offer 01, a command may come"
        );
    }

    #[test]
    fn runs_of_numbers() {
        assert_eq!(ranges(&[]), "");
        assert_eq!(ranges(&[3]), "3");
        assert_eq!(ranges(&[3, 4, 5, 7, 9, 10]), "3..5, 7, 9..10");
        assert_eq!(ranges(&[5, 4, 3]), "5, 4, 3");
    }

    #[test]
    fn shortened_words() {
        assert_eq!(shorten("sparing", 7), "sparing");
        assert_eq!(shorten("sparing", 6), "spari…");
        assert_eq!(shorten("éééé", 3), "éé…");
    }

    #[test]
    fn headings() {
        assert_eq!(
            heading("Monday: it is: written"),
            ("Monday", "it is: written")
        );
        assert_eq!(heading("It is read."), ("It is read.", ""));
    }
}
