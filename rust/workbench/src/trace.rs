//! Accesses one by one, for a trace and for a picture. The rereads of a trial are one.

use crate::board::{Accessed, Cut, Purpose};
use crate::picture::Mark;
use crate::show::{self, met};
use crate::{status, surface};

/// Accesses for a trace, a line for each; the rereads of a trial are one line.
pub fn lines(accesses: &[Accessed]) -> impl Iterator<Item = String> + '_ {
    parts(accesses).map(|part| match part {
        [one] => access(one),
        rereads => all_rereads(rereads),
    })
}

/// The rereads of a trial together, and all other accesses alone, also a reread that ended
/// its trial by no settle.
pub fn parts(accesses: &[Accessed]) -> impl Iterator<Item = &[Accessed]> {
    let counts = |a: &Accessed| a.purpose == Purpose::Reread && a.answer != surface::NO_SETTLE;
    accesses.chunk_by(move |one, next| counts(one) && counts(next))
}

/// The rereads of a trial, two at least.
fn all_rereads(rereads: &[Accessed]) -> String {
    let sector = rereads[0].sector.number();
    let words = answers(rereads);
    format!("reread sector {sector}, {} times: {words}", rereads.len())
}

/// Counts the answers to the rereads of a trial, in words.
pub fn answers(rereads: &[Accessed]) -> String {
    let answers = |wanted: u8| rereads.iter().filter(|a| a.answer == wanted).count() as u64;
    let counts = [
        (answers(surface::GOOD), "good", "good"),
        (answers(surface::CRC), "CRC error", "CRC errors"),
        (answers(surface::TIMEOUT), "timeout", "timeouts"),
    ];
    met(counts).join(", ")
}

/// The word for an access.
pub fn verb(purpose: Purpose) -> &'static str {
    match purpose {
        Purpose::Read => "read",
        Purpose::Write | Purpose::TrialWrite => "write",
        Purpose::Reread => "reread",
        Purpose::Store => "store",
    }
}

/// An access at which the power failed, for a trace.
pub fn cut_line(cut: Cut) -> String {
    let (verb, sector) = (verb(cut.purpose), cut.sector.number());
    match show::left(cut) {
        Some(left) => format!("{verb} sector {sector}: power fails, {left}"),
        None => format!("{verb} sector {sector}: power fails"),
    }
}

/// One access, for a trace.
fn access(accessed: &Accessed) -> String {
    let (purpose, how) = (verb(accessed.purpose), how(accessed));
    format!("{purpose} sector {}: {how}", accessed.sector.number())
}

/// Says how an access went.
pub fn how(accessed: &Accessed) -> &'static str {
    match accessed.answer {
        surface::GOOD if accessed.purpose.reads() => "good",
        surface::GOOD if accessed.unreadable => "done, and the sector is unreadable",
        surface::GOOD => "done",
        surface::CRC => "CRC error",
        surface::TIMEOUT => "timeout",
        _ => "no settle",
    }
}

/// The status bytes, for a trace.
pub fn status_line(bytes: [u8; 4]) -> String {
    let [one, two, three, four] = bytes;
    let words = status::all_words(bytes);
    format!("status {one:02x} {two:02x} {three:02x} {four:02x}: {words}")
}

/// Accesses as a picture marks them; the rereads of a trial are one mark.
pub fn marks(accesses: &[Accessed]) -> Vec<Mark> {
    parts(accesses)
        .map(|part| match part {
            [one] => mark(one),
            rereads => Mark::Rereads {
                all: rereads.len() as u32,
                failed: rereads.iter().filter(|a| a.answer != surface::GOOD).count() as u32,
            },
        })
        .collect()
}

fn mark(accessed: &Accessed) -> Mark {
    match (accessed.answer, accessed.purpose) {
        (surface::CRC, _) => Mark::CrcError,
        (surface::TIMEOUT, _) => Mark::Timeout,
        (surface::NO_SETTLE, _) => Mark::NoSettle,
        (_, Purpose::Read | Purpose::Reread) => Mark::Read,
        (_, Purpose::Write | Purpose::TrialWrite) => Mark::Write,
        (_, Purpose::Store) => Mark::Store,
    }
}

#[cfg(test)]
mod tests {
    use super::*;
    use crate::power::Fate;
    use reference::geometry::Sector;

    fn done(purpose: Purpose, answer: u8) -> Accessed {
        Accessed {
            purpose,
            sector: Sector::new(17).expect("a sector"),
            answer,
            unreadable: false,
        }
    }

    fn traced(accesses: &[Accessed]) -> Vec<String> {
        lines(accesses).collect()
    }

    /// A trial: its write, and 100 rereads, of which the first so many have CRC errors.
    fn trial(failed: usize) -> Vec<Accessed> {
        let answer = |k| u8::from(k < failed);
        let rereads = (0..100).map(|k| done(Purpose::Reread, answer(k)));
        std::iter::once(done(Purpose::TrialWrite, 0))
            .chain(rereads)
            .collect()
    }

    #[test]
    fn a_trial_in_a_command() {
        let first = vec![done(Purpose::Write, 0), done(Purpose::Read, 1)];
        let accesses = [first, trial(12)].concat();
        assert_eq!(
            traced(&accesses),
            [
                "write sector 17: done",
                "read sector 17: CRC error",
                "write sector 17: done",
                "reread sector 17, 100 times: 88 good, 12 CRC errors",
            ]
        );
        let rereads = Mark::Rereads {
            all: 100,
            failed: 12,
        };
        assert_eq!(
            marks(&accesses),
            [Mark::Write, Mark::CrcError, Mark::Write, rereads]
        );
    }

    #[test]
    fn power_that_fails() {
        let line = |purpose, number| {
            cut_line(Cut {
                purpose,
                sector: Sector::new(number).expect("a sector"),
                access: 3,
                fate: Fate::Unreadable,
            })
        };
        assert_eq!(
            line(Purpose::TrialWrite, 17),
            "write sector 17: power fails, the sector is unreadable"
        );
        assert_eq!(
            line(Purpose::Store, 4960),
            "store sector 4960: power fails, the table is unreadable"
        );
        assert_eq!(line(Purpose::Reread, 17), "reread sector 17: power fails");
    }

    #[test]
    fn two_trials_and_one_that_ends() {
        let reread = |answer| done(Purpose::Reread, answer);
        let ended = vec![done(Purpose::TrialWrite, 0), reread(3)];
        let accesses = [trial(100), trial(0), ended].concat();
        assert_eq!(
            traced(&accesses),
            [
                "write sector 17: done",
                "reread sector 17, 100 times: 100 CRC errors",
                "write sector 17: done",
                "reread sector 17, 100 times: 100 good",
                "write sector 17: done",
                "reread sector 17: no settle",
            ]
        );
        assert_eq!(marks(&accesses)[5], Mark::NoSettle);
        assert_eq!(
            traced(&[reread(0), reread(2), reread(3)]),
            [
                "reread sector 17, 2 times: 1 good, 1 timeout",
                "reread sector 17: no settle",
            ]
        );
    }
}
