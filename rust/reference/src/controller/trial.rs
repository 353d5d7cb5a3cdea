//! The writes of a command and the trials of sectors (document 02, request 4): the
//! plain write, the first write and verify of a write/verify, the trial, and the
//! way to the next unused spare.

use super::acting::{in_range, one, two};
use super::{
    data, near, Answer, Awaits, Failures, Job, Phase, Place, ReadOutcome, Record, Rereads, Step,
    Trial, WriteOutcome, TRIAL_FAILURES, TRIAL_REREADS,
};
use crate::coverage::met;
use crate::geometry::{spare, Sector, SECTOR_BYTES, SPARES};
use crate::image::{Cause, DEAD};

impl Record {
    /// The one write of a write command was answered.
    pub(super) fn plain_write(
        &mut self,
        buffer: &mut [u8],
        mut job: Job,
        outcome: WriteOutcome,
    ) -> Answer {
        met(&format!("write.{}", write_word(outcome)));
        match outcome {
            WriteOutcome::Done => self.finish_job(buffer, job, 0, 0),
            WriteOutcome::Timeout => {
                job.meet_timeout();
                self.try_next_spare(buffer, job)
            }
            WriteOutcome::NoSettle => self.no_settle(buffer, job),
        }
    }

    /// The first write of a write/verify was answered.
    pub(super) fn verified_write(
        &mut self,
        buffer: &mut [u8],
        mut job: Job,
        sector: u32,
        outcome: WriteOutcome,
    ) -> Answer {
        met(&format!("verify.write.{}", write_word(outcome)));
        match outcome {
            WriteOutcome::Done => {
                let step = Step::Verify;
                self.phase = Phase::Verifying { job, sector, step };
                Answer::Read(in_range(sector))
            }
            WriteOutcome::Timeout => {
                job.meet_timeout();
                self.try_next_spare(buffer, job)
            }
            WriteOutcome::NoSettle => self.no_settle(buffer, job),
        }
    }

    /// The first verify of a write/verify was answered. If it fails, the same
    /// sector gets the trial.
    pub(super) fn first_verify(
        &mut self,
        buffer: &mut [u8],
        job: Job,
        sector: u32,
        outcome: ReadOutcome,
    ) -> Answer {
        met(&format!(
            "verify.first.{}",
            read_word(outcome, data(buffer))
        ));
        match self.compared(job, outcome, data(buffer)) {
            Compared::Same => self.leave_bads(buffer, job, 0),
            Compared::Failed(job) => {
                met("trial.begins.verify");
                self.try_sector(job, Place::Present(sector))
            }
            Compared::NoSettle => self.no_settle(buffer, job),
        }
    }

    /// Begins the trial of a sector with its write.
    pub(super) fn try_sector(&mut self, job: Job, place: Place) -> Answer {
        let awaits = Awaits::Write;
        self.phase = Phase::Trying(job, Trial { place, awaits });
        Answer::Write(sector_of(place))
    }

    /// Asks for the next reread of a trial.
    fn reread(&mut self, job: Job, place: Place, rereads: Rereads) -> Answer {
        let awaits = Awaits::Reread(rereads);
        self.phase = Phase::Trying(job, Trial { place, awaits });
        Answer::Read(sector_of(place))
    }

    /// The write of a trial was answered.
    pub(super) fn trial_write(
        &mut self,
        buffer: &mut [u8],
        mut job: Job,
        place: Place,
        outcome: WriteOutcome,
    ) -> Answer {
        let word = write_word(outcome);
        met(&format!("trial.{}.write.{word}", place_word(place)));
        match outcome {
            WriteOutcome::Done => self.reread(job, place, Rereads::default()),
            WriteOutcome::Timeout => {
                job.meet_timeout();
                self.try_next_spare(buffer, job)
            }
            WriteOutcome::NoSettle => self.no_settle(buffer, job),
        }
    }

    /// A reread of a trial was answered, after these. All 100 are made, whatever
    /// came.
    pub(super) fn trial_reread(
        &mut self,
        buffer: &mut [u8],
        job: Job,
        place: Place,
        before: Rereads,
        outcome: ReadOutcome,
    ) -> Answer {
        met(&reread_name(place, before, outcome, data(buffer)));
        let (job, failed) = match self.compared(job, outcome, data(buffer)) {
            Compared::Same => (job, 0),
            Compared::Failed(job) => (job, 1),
            Compared::NoSettle => return self.no_settle(buffer, job),
        };
        let rereads = Rereads {
            made: before.made + 1,
            failures: before.failures + failed,
        };
        if rereads.made < TRIAL_REREADS {
            if rereads.failures > TRIAL_FAILURES {
                met("trial.goes-on-after-31");
            }
            return self.reread(job, place, rereads);
        }
        met(&end_name(place, rereads.failures));
        if rereads.failures > TRIAL_FAILURES && failed == 0 {
            met(&format!(
                "trial.{}.fails-with-a-good-reread",
                place_word(place)
            ));
        }
        match rereads.failures {
            0..=TRIAL_FAILURES => self.passed(buffer, job, place),
            _ => self.try_next_spare(buffer, job),
        }
    }

    /// How a verify or a reread compares with the data part. What failed joins
    /// what the command met; other bytes are a CRC error.
    fn compared(&self, mut job: Job, outcome: ReadOutcome, part: &[u8]) -> Compared {
        match outcome {
            ReadOutcome::Good(bytes) if bytes == part => return Compared::Same,
            ReadOutcome::Good(bytes) => {
                self.met_near(part, bytes);
                job.meet_crc();
            }
            ReadOutcome::Crc(_) => job.meet_crc(),
            ReadOutcome::Timeout => job.meet_timeout(),
            ReadOutcome::NoSettle => return Compared::NoSettle,
        }
        Compared::Failed(job)
    }

    /// Counts bytes that nearly are the data part.
    fn met_near(&self, part: &[u8], brought: &[u8]) {
        let (what, fed) = match (self.phase, self.command.first()) {
            (Phase::Verifying { .. }, _) => ("first-verify", self.data_count),
            (_, Some(0x00)) => ("reread.read", SECTOR_BYTES),
            _ => ("reread.write", self.data_count),
        };
        if let Some(word) = near::word(part, brought, fed) {
            met(&format!("near.{what}.{word}"));
        }
    }

    /// The spare under trial.
    pub(super) fn spare_under_trial(&self) -> Option<usize> {
        match self.phase {
            Phase::Trying(_, trial) => match trial.place {
                Place::Present(_) => None,
                Place::Spare(k) => Some(k),
            },
            _ => None,
        }
    }

    /// Kills the spare under trial, which is the next unused one, by this cause.
    pub(super) fn kill_next_spare(&mut self, cause: Cause) {
        self.enter_spare(DEAD, cause);
        self.changed = true;
    }

    /// The sector of the answered access is no good: a spare becomes dead, and the
    /// next unused one gets its trial.
    fn try_next_spare(&mut self, buffer: &mut [u8], mut job: Job) -> Answer {
        let from = self.phase.name();
        let failures = &mut job.failures;
        match self.spare_under_trial() {
            Some(_) => {
                met_dead(from, *failures);
                self.kill_next_spare(failures.last);
            }
            None => failures.present = failures.last,
        }
        failures.before = failures.last;
        match self.next_spare() {
            Some(k) => {
                met(&format!("spare.next.after-{from}"));
                if k + 1 == SPARES {
                    met("spare.next.last");
                }
                self.try_sector(job, Place::Spare(k))
            }
            None => {
                met(&format!("spare.none.after-{from}"));
                met(match self.spare_of(job.block) {
                    Some(_) => "spare.none.keeps-its-spare",
                    None => "spare.none.keeps-its-home",
                });
                self.finish_job(buffer, job, one::FAILED, two::NO_SPARE)
            }
        }
    }

    /// A trial passed.
    fn passed(&mut self, buffer: &mut [u8], job: Job, place: Place) -> Answer {
        if let Place::Present(_) = place {
            return self.leave_bads(buffer, job, 0);
        }
        let opcode = self.command.first().copied().unwrap_or(0);
        met(&format!("moved.by-{opcode:02x}"));
        let old = self.spare_of(job.block);
        self.met_moved(old, job.failures);
        if let Some(old) = old {
            self.spares[old] = DEAD;
            self.causes[old] = job.failures.present.number();
        }
        self.enter_spare(job.block, job.failures.before);
        self.changed = true;
        self.placed = true;
        self.leave_bads(buffer, job, two::MOVED)
    }

    /// Counts a move and the causes that it gives.
    fn met_moved(&self, old: Option<usize>, failures: Failures) {
        let from = match old {
            Some(_) => "moved.old-entry-killed",
            None => "moved.from-home",
        };
        met(from);
        met(&format!("moved.cause.{}", cause_word(failures.before)));
        if failures.last != failures.before {
            met("moved.cause.not-that-of-its-trial");
        }
        if failures.present != failures.before {
            met(&format!("{from}.after-another-failure-on-a-spare"));
        }
        if let Some(old) = old {
            let word = cause_word(failures.present);
            met(&format!("moved.old-entry-killed.cause.{word}"));
            if self.causes[old] != failures.present.number() {
                met("moved.old-entry-killed.former-cause-differs");
            }
        }
    }

    /// The block is good where it stands: it leaves the bad list, and the command
    /// is done.
    fn leave_bads(&mut self, buffer: &mut [u8], job: Job, two: u8) -> Answer {
        match self.bads.iter().position(|&bad| bad == job.block) {
            Some(listed) => {
                met(match listed + 1 == self.bads.len() {
                    true => "bads.left.last",
                    false => "bads.left.before-others",
                });
                self.bads.remove(listed);
                self.changed = true;
            }
            None => met("bads.not-listed"),
        }
        self.finish_job(buffer, job, 0, two)
    }
}

/// How the bytes of a verify or a reread compare with the data part.
enum Compared {
    Same,
    /// The job has met what failed.
    Failed(Job),
    NoSettle,
}

fn sector_of(place: Place) -> Sector {
    match place {
        Place::Present(sector) => in_range(sector),
        Place::Spare(k) => spare(k).expect("code 1 tested the spare"),
    }
}

// Words for the coverage names.

fn place_word(place: Place) -> &'static str {
    match place {
        Place::Present(_) => "present",
        Place::Spare(_) => "spare",
    }
}

fn cause_word(cause: Cause) -> &'static str {
    match cause {
        Cause::Unknown => "unknown",
        Cause::Crc => "crc",
        Cause::Timeout => "timeout",
        Cause::NoSettle => "no-settle",
    }
}

/// Counts a spare that dies in a phase.
fn met_dead(from: &str, failures: Failures) {
    met(&format!("dead.by-{from}.{}", cause_word(failures.last)));
    if failures.last != failures.before {
        met(&format!("dead.by-{from}.not-the-failure-before"));
    }
}

fn write_word(outcome: WriteOutcome) -> &'static str {
    match outcome {
        WriteOutcome::Done => "done",
        WriteOutcome::Timeout => "timeout",
        WriteOutcome::NoSettle => "no-settle",
    }
}

fn read_word(outcome: ReadOutcome, part: &[u8]) -> &'static str {
    match outcome {
        ReadOutcome::Good(bytes) if bytes == part => "same",
        ReadOutcome::Good(_) => "other",
        ReadOutcome::Crc(bytes) if bytes == part => "crc-same",
        ReadOutcome::Crc(_) => "crc-other",
        ReadOutcome::Timeout => "timeout",
        ReadOutcome::NoSettle => "no-settle",
    }
}

/// The first and the hundredth reread have names of their own.
fn reread_name(place: Place, before: Rereads, outcome: ReadOutcome, part: &[u8]) -> String {
    let which = match before.made + 1 {
        1 => "first-reread",
        TRIAL_REREADS => "last-reread",
        _ => "reread",
    };
    let word = read_word(outcome, part);
    format!("trial.{}.{which}.{word}", place_word(place))
}

fn end_name(place: Place, failures: u32) -> String {
    let how = match failures {
        0 => "passed.0",
        TRIAL_FAILURES => "passed.30",
        31 => "failed.31",
        TRIAL_REREADS => "failed.100",
        1..TRIAL_FAILURES => "passed.some",
        _ => "failed.some",
    };
    format!("trial.{}.{how}", place_word(place))
}
