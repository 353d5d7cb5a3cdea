//! The trials of sectors among the accesses of a command, a line for each.

use reference::geometry::Sector;

use crate::board::{Accessed, Purpose};
use crate::host::{self, Report};
use crate::show::{count, ranges, spare_at, spare_name, spare_names};
use crate::{status, surface};

/// A trial: one write, then the rereads that were made.
#[derive(Clone, Copy, Debug, PartialEq, Eq)]
pub struct Trial {
    pub sector: Sector,
    pub course: Course,
}

/// How a trial went.
#[derive(Clone, Copy, Debug, PartialEq, Eq)]
pub struct Course {
    /// The rereads that were answered good, with a CRC error or with a timeout.
    pub rereads: u32,
    /// Those of them that were not answered good.
    pub failed: u32,
    pub end: End,
}

/// How a trial ended.
#[derive(Clone, Copy, Debug, PartialEq, Eq)]
pub enum End {
    Passed,
    NotPassed,
    WriteTimedOut,
    NoSettle,
    /// The power failed before the controller said more.
    Cut,
}

/// The trials of a command in their order.
pub fn of(report: &Report) -> Vec<Trial> {
    let is_part = |a: &&Accessed| matches!(a.purpose, Purpose::TrialWrite | Purpose::Reread);
    let parts: Vec<&Accessed> = report.accesses.iter().filter(is_part).collect();
    let mut trials: Vec<Trial> = parts
        .chunk_by(|_, next| next.purpose == Purpose::Reread)
        .map(trial)
        .collect();
    if let Some(last) = trials.last_mut() {
        last.course.end = last_end(report, last.course.end);
    }
    trials
}

/// How the last trial of a command ended, which looks like this by itself. One that is
/// not passed leaves no spare, or the next one is written.
fn last_end(report: &Report, end: End) -> End {
    match (end, report.end) {
        (End::NotPassed, host::End::Finished([_, two, ..])) if two & status::NO_SPARE == 0 => {
            End::Passed
        }
        (End::NotPassed, host::End::Cut(cut)) if cut.purpose != Purpose::TrialWrite => End::Cut,
        _ => end,
    }
}

/// The trial with these accesses, its write first, if it is not passed.
fn trial(parts: &[&Accessed]) -> Trial {
    let (write, rereads) = (parts[0], &parts[1..]);
    let answered = |wanted: u8| parts.iter().any(|part| part.answer == wanted);
    let settled = rereads.iter().filter(|a| a.answer != surface::NO_SETTLE);
    let failed = settled.clone().filter(|a| a.answer != surface::GOOD);
    let end = match write.answer {
        _ if answered(surface::NO_SETTLE) => End::NoSettle,
        surface::TIMEOUT => End::WriteTimedOut,
        _ => End::NotPassed,
    };
    Trial {
        sector: write.sector,
        course: Course {
            rereads: settled.count() as u32,
            failed: failed.count() as u32,
            end,
        },
    }
}

/// Whether two commands have trials that went alike, whatever their sectors.
pub fn alike(one: &Report, next: &Report) -> bool {
    let courses = |report| of(report).into_iter().map(|trial| trial.course);
    courses(one).eq(courses(next))
}

/// The lines of the trials of commands whose trials went alike, one command at least. Of
/// one command, neighbours that went alike are one line.
pub fn lines(reports: &[Report]) -> Vec<String> {
    let trials: Vec<Vec<Trial>> = reports.iter().map(of).collect();
    if let [one] = &trials[..] {
        return one.chunk_by(same_line).map(line).collect();
    }
    let column = |place| trials.iter().map(move |trials| trials[place]);
    let columns = (0..trials[0].len()).map(|place| column(place).collect::<Vec<_>>());
    columns.map(|trials| line(&trials)).collect()
}

/// Whether two trials of a command went alike, both on spares or both not.
fn same_line(one: &Trial, next: &Trial) -> bool {
    one.course == next.course && spare_at(one.sector).is_some() == spare_at(next.sector).is_some()
}

/// The line of trials that went alike, one at least.
fn line(trials: &[Trial]) -> String {
    let words = trials[0].course.words();
    match trials {
        [one] => format!("trial of {}: {words}", name(one.sector)),
        _ => format!("trials of {}, each: {words}", names(trials)),
    }
}

/// A sector, or a spare and its sector.
fn name(sector: Sector) -> String {
    match spare_at(sector) {
        Some(k) => spare_name(k),
        None => format!("sector {}", sector.number()),
    }
}

/// The sectors of several trials, or the spares and their sectors.
fn names(trials: &[Trial]) -> String {
    let numbers: Vec<u32> = trials.iter().map(|trial| trial.sector.number()).collect();
    let spares: Option<Vec<usize>> = trials.iter().map(|trial| spare_at(trial.sector)).collect();
    match spares {
        Some(spares) => spare_names(&spares),
        None => format!("sectors {}", ranges(&numbers)),
    }
}

impl Course {
    /// Says how the trial went.
    pub fn words(self) -> String {
        let rereads = count(self.rereads.into(), "reread", "rereads");
        let failed = self.failed;
        match self.end {
            End::Passed => format!("{rereads}, {failed} failed, passed"),
            End::NotPassed => format!("{rereads}, {failed} failed, not passed"),
            End::WriteTimedOut => String::from("write timed out"),
            End::NoSettle => format!("{rereads}, {failed} failed, ended by no settle"),
            End::Cut => format!("{rereads}, {failed} failed, then the power failed"),
        }
    }
}

#[cfg(test)]
mod tests {
    use super::*;
    use crate::board::Cut;
    use crate::clock::Time;
    use crate::power::Fate;

    fn access(purpose: Purpose, number: u32, answer: u8) -> Accessed {
        Accessed {
            purpose,
            sector: Sector::new(number).expect("a sector"),
            answer,
            unreadable: false,
        }
    }

    /// A trial's accesses: its write, and rereads with these answers.
    fn tried(number: u32, write: u8, rereads: &[u8]) -> Vec<Accessed> {
        let reread = |&answer| access(Purpose::Reread, number, answer);
        let write = access(Purpose::TrialWrite, number, write);
        std::iter::once(write)
            .chain(rereads.iter().map(reread))
            .collect()
    }

    /// The answers of 100 rereads, of which so many fail, a third of them by timeouts.
    fn hundred(failed: usize) -> Vec<u8> {
        let fault = |k| if k % 3 == 0 { 2 } else { 1 };
        (0..100)
            .map(|k| if k < failed { fault(k) } else { 0 })
            .collect()
    }

    fn report(parts: &[Vec<Accessed>], status: [u8; 4]) -> Report {
        Report {
            accesses: parts.concat(),
            end: host::End::Finished(status),
            changes: vec![],
            took: Time::ZERO,
            other_bytes: false,
        }
    }

    #[test]
    fn a_read_that_moves_its_block() {
        let read = access(Purpose::Read, 17, 1);
        let parts = [
            vec![read, read],
            tried(17, 0, &hundred(31)),
            tried(4928, 2, &[]),
            tried(4929, 0, &hundred(30)),
            vec![access(Purpose::Store, 4960, 0)],
        ];
        let lines = lines(&[report(&parts, [0x0C, 0x04, 0, 4])]);
        assert_eq!(
            lines,
            [
                "trial of sector 17: 100 rereads, 31 failed, not passed",
                "trial of spare 0 (sector 4928): write timed out",
                "trial of spare 1 (sector 4929): 100 rereads, 30 failed, passed",
            ]
        );
    }

    #[test]
    fn neighbours_that_went_alike_are_one_line() {
        let parts = [
            tried(17, 0, &hundred(31)),
            tried(4928, 0, &hundred(31)),
            tried(4930, 0, &hundred(31)),
            tried(4931, 0, &hundred(32)),
            tried(4932, 2, &[]),
            tried(4933, 2, &[]),
            tried(4934, 2, &[]),
        ];
        assert_eq!(
            lines(&[report(&parts, [0x0D, 0x40, 0, 0])]),
            [
                "trial of sector 17: 100 rereads, 31 failed, not passed",
                "trials of spares 0, 2 (sectors 4928, 4930), each: 100 rereads, 31 failed, not passed",
                "trial of spare 3 (sector 4931): 100 rereads, 32 failed, not passed",
                "trials of spares 4..6 (sectors 4932..4934), each: write timed out",
            ]
        );
    }

    #[test]
    fn a_failed_command_has_no_trial_that_passed() {
        let no_spare = report(&[tried(17, 0, &hundred(100))], [0x09, 0x40, 0, 0]);
        assert_eq!(
            lines(&[no_spare]),
            ["trial of sector 17: 100 rereads, 100 failed, not passed"]
        );
    }

    #[test]
    fn a_store_that_fails_takes_no_trial_back() {
        let stored = |answer, status| {
            let store = vec![access(Purpose::Store, 4960, answer)];
            lines(&[report(&[tried(4928, 0, &hundred(0)), store], status)])
        };
        let words = "trial of spare 0 (sector 4928): 100 rereads, 0 failed, passed";
        assert_eq!(stored(2, [0x0D, 0x04, 0, 0]), [words]);
        assert_eq!(stored(3, [0x19, 0x04, 0, 0]), [words]);
        // A read's own sector passed, and left the bad list.
        assert_eq!(stored(2, [0x0D, 0, 0, 1]), [words]);
    }

    #[test]
    fn the_power_fails_in_a_trial_or_behind_it() {
        let cut = |parts: &[Vec<Accessed>], purpose| {
            let cut = Cut {
                purpose,
                sector: Sector::new(4929).expect("a sector"),
                access: 1,
                fate: Fate::Old,
            };
            lines(&[Report {
                end: host::End::Cut(cut),
                ..report(parts, [0; 4])
            }])
        };
        let parts = [tried(17, 0, &hundred(31)), tried(4928, 0, &[0, 1])];
        let first = "trial of sector 17: 100 rereads, 31 failed, not passed";
        let words = "trial of spare 0 (sector 4928): 2 rereads, 1 failed, then the power failed";
        assert_eq!(cut(&parts, Purpose::Reread), [first, words]);
        // The next spare is written, since this one is not passed.
        assert_eq!(cut(&parts[..1], Purpose::TrialWrite), [first]);
        let parts = [tried(17, 0, &hundred(0))];
        let words = "trial of sector 17: 100 rereads, 0 failed, then the power failed";
        assert_eq!(cut(&parts, Purpose::Store), [words]);
    }

    #[test]
    fn no_settle_ends_a_trial() {
        let ended =
            |write, rereads: &[u8]| lines(&[report(&[tried(17, write, rereads)], [0x11, 0, 0, 0])]);
        let words = "trial of sector 17: 1 reread, 1 failed, ended by no settle";
        assert_eq!(ended(0, &[1, 3]), [words]);
        let words = "trial of sector 17: 0 rereads, 0 failed, ended by no settle";
        assert_eq!(ended(0, &[3]), [words]);
        assert_eq!(ended(3, &[]), [words]);
    }

    #[test]
    fn a_write_and_its_verify_are_no_trial() {
        let both = vec![access(Purpose::Write, 17, 0), access(Purpose::Read, 17, 0)];
        let parts = [both, tried(17, 0, &hundred(0))];
        let verified = report(&parts[..1], [0; 4]);
        assert_eq!(of(&verified), []);
        let tried = report(&parts, [0x08, 0, 0, 0]);
        assert_eq!(of(&tried).len(), 1);
        assert!(!alike(&verified, &tried));
    }

    #[test]
    fn trials_that_went_alike_are_one_line() {
        let one = |number, failed| report(&[tried(number, 0, &hundred(failed))], [8, 0, 0, 0]);
        let same = [one(5, 7), one(6, 7), one(8, 7)];
        assert!(alike(&same[0], &same[1]) && alike(&same[1], &same[2]));
        assert_eq!(
            lines(&same),
            ["trials of sectors 5..6, 8, each: 100 rereads, 7 failed, passed"]
        );
        assert!(!alike(&one(5, 7), &one(6, 8)));
    }
}
