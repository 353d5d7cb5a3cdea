//! The end of a command: the store of unstored changes (document 02, request 7) and
//! the finish.

use super::acting::{one, three, two};
use super::{Answer, Job, Phase, Record, WriteOutcome, STATUS};
use crate::coverage::met;
use crate::image::TOP_RUN;

impl Record {
    /// Ends a command that made accesses: what it met joins the bits.
    pub(super) fn finish_job(&mut self, buffer: &mut [u8], job: Job, one: u8, two: u8) -> Answer {
        let crc = if job.crc { one::CRC } else { 0 };
        let timeout = if job.timeout { one::TIMEOUT } else { 0 };
        // Code 1 and the rereads keep E at most 255.
        let errors = job.errors.min(255) as u8;
        met(match errors {
            0 => "finish.errors.0",
            255 => "finish.errors.255",
            _ => "finish.errors.some",
        });
        self.end(buffer, [one | crc | timeout, two, 0, errors])
    }

    /// Ends a command with a block's number: unstored changes are stored first. Under
    /// the latch there is no store, and the command fails while some block's place is
    /// unstored.
    pub(super) fn end(&mut self, buffer: &mut [u8], mut status: [u8; STATUS]) -> Answer {
        if self.known && self.changed && !self.latch {
            self.count_store();
            self.phase = Phase::Storing { status };
            return Answer::Store;
        }
        met(&self.unstored_name(status));
        if self.known && self.latch && self.placed {
            status[0] |= one::FAILED;
        }
        self.finish(buffer, status)
    }

    /// Gives the coverage name of an end without a store.
    fn unstored_name(&self, status: [u8; STATUS]) -> String {
        if !self.known {
            return String::from("end.no-table");
        }
        let what = match (self.placed, self.changed) {
            (true, _) => "a-place-unstored",
            (false, true) => "others-unstored",
            (false, false) => "all-stored",
        };
        let latch = match self.latch {
            true => "under-latch",
            false => "no-latch",
        };
        format!("end.{latch}.{what}.{}", good_word(status))
    }

    /// Counts a store that is asked for; at its top the run number stays.
    fn count_store(&mut self) {
        met(match self.run {
            TOP_RUN => "store.run-number.at-its-top",
            run if run + 1 == TOP_RUN => "store.run-number.to-its-top",
            _ => "store.run-number.one-more",
        });
        self.run = self.run.saturating_add(1);
    }

    /// Finishes a command whose store was answered. Unless it was done, the command
    /// fails; answer 3 latches. The mapping stays as it is.
    pub(super) fn stored(
        &mut self,
        buffer: &mut [u8],
        mut status: [u8; STATUS],
        outcome: WriteOutcome,
    ) -> Answer {
        met(&self.stored_name(status, outcome));
        match outcome {
            WriteOutcome::Done => {
                self.changed = false;
                self.placed = false;
            }
            WriteOutcome::Timeout => status[0] |= one::TIMEOUT | one::FAILED,
            WriteOutcome::NoSettle => {
                status[0] |= one::NO_SETTLE | one::FAILED;
                self.latch = true;
            }
        }
        self.finish(buffer, status)
    }

    /// Gives the coverage name of a store that was answered.
    fn stored_name(&self, status: [u8; STATUS], outcome: WriteOutcome) -> String {
        let outcome = match outcome {
            WriteOutcome::Done => "done",
            WriteOutcome::Timeout => "timeout",
            WriteOutcome::NoSettle => "no-settle",
        };
        let opcode = self.command.first().copied().unwrap_or(0);
        let ending = ending_word(status);
        format!("store.{outcome}.after-{opcode:02x}-{ending}")
    }

    /// Finishes a command with a number of no block, which stores nothing.
    pub(super) fn finish_other(
        &mut self,
        buffer: &mut [u8],
        word: &str,
        status: [u8; STATUS],
    ) -> Answer {
        self.met_no_store(word);
        self.finish(buffer, status)
    }

    /// Counts a finish that leaves changes unstored which a block's command would
    /// store.
    pub(super) fn met_no_store(&self, word: &str) {
        if self.known && self.changed && !self.latch {
            met(&format!("no-store.{word}"));
        }
    }

    /// Counts a start that drops unstored changes.
    pub(super) fn met_dropped(&self) {
        let what = match (self.placed, self.changed) {
            (true, _) => "a-place",
            (false, true) => "others",
            (false, false) => return,
        };
        let when = match self.phase {
            Phase::Storing { .. } => "with-their-store",
            phase if phase.awaited().is_some() => "with-an-access",
            _ => "unstored",
        };
        met(&format!("start.drops.{what}.{when}"));
    }

    /// Finishes any command: the status bytes are written here and nowhere before.
    pub(super) fn finish(&mut self, buffer: &mut [u8], mut status: [u8; STATUS]) -> Answer {
        let bit = if self.fresh { "bit-7" } else { "no-bit-7" };
        met(&format!("finish.{}.{bit}", good_word(status)));
        if self.fresh {
            status[2] |= three::FRESH;
            self.fresh = false;
        }
        buffer[..STATUS].copy_from_slice(&status);
        self.rest();
        Answer::Finished
    }
}

// Words for the coverage names.

fn good_word(status: [u8; STATUS]) -> &'static str {
    match status[0] & one::FAILED {
        0 => "good",
        _ => "failed",
    }
}

/// Gives a word for the ending of a command before its store.
fn ending_word(status: [u8; STATUS]) -> &'static str {
    match status[1] {
        two::MOVED => "moved",
        two::NO_SPARE => "no-spare",
        two::BADS_FULL => "bads-full",
        _ if status[0] & one::ABORTED != 0 => "too-much",
        _ => good_word(status),
    }
}
