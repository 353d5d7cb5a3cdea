//! Run numbers: starts from images of both forms, and stores after them, done and
//! failed, with an image call at each.

use std::format;
use std::string::String;
use std::vec;

use reference::drive::Call;
use reference::images::draft_b::DraftB;

use super::beside::Beside;
use crate::form_b::RUN;
use crate::{convert, Answer, Offer, SECTOR_BYTES};

/// Run numbers to start from: those about each half's end, and the last three.
const RUNS: [u32; 9] = [
    0,
    1,
    65_534,
    65_535,
    65_536,
    0x1234_FFFF,
    u32::MAX - 2,
    u32::MAX - 1,
    u32::MAX,
];

/// Answers to the stores. After a 3 there are no more.
const STORES: [u8; 4] = [2, 0, 0, 3];

/// Starts from each run number and stores four times; says what is not as it must
/// be. Gives the number of calls.
pub fn all() -> Result<u64, String> {
    let mut calls = 0;
    for run in RUNS {
        let draft = DraftB::small().with(|it| it.run = run);
        let told = |said| format!("from run number {run}: {said}");
        calls += stores(&draft.bytes(), run).map_err(told)?;
    }
    let of_a = DraftB::small().form_a().bytes();
    calls += stores(&of_a, 0).map_err(|said| format!("from form A: {said}"))?;
    Ok(calls)
}

/// A run of calls on all implementations.
struct Run {
    beside: Beside,
    calls: u64,
}

impl Run {
    /// Makes a call, which must be answered so.
    fn call(&mut self, call: Call, wanted: Answer) -> Result<(), String> {
        self.calls += 1;
        match self.beside.call(None, &call)? {
            answer if answer == wanted => Ok(()),
            answer => Err(format!("{call:?}: {answer:?} in place of {wanted:?}")),
        }
    }

    /// Looks at the run number, in the record and in the image.
    fn is_at(&mut self, run: u32) -> Result<(), String> {
        self.call(Call::Image, Answer::Wait)?;
        let mut image = [0; SECTOR_BYTES];
        let drive = crate::Drive::from(self.beside.record().record());
        drive.image(&mut image);
        let found = self.beside.record().run;
        if found != run || image[RUN..RUN + 4] != run.to_be_bytes() {
            return Err(format!("run number {found} in place of {run}"));
        }
        let mut of_a = [0; SECTOR_BYTES];
        match convert(&image, &mut of_a) {
            Answer::Wait => Ok(()),
            answer => Err(format!("the image is no image: {answer:?}")),
        }
    }

    /// Reads a block that never comes, which enters the bad list: the table is to be
    /// stored.
    fn change(&mut self, block: u8) -> Result<(), String> {
        let (read, at) = (Offer::Read, crate::Sector(block.into()));
        self.call(Call::Raise, Answer::Offer(Offer::Command))?;
        self.call(Call::Lower(0x55), Answer::Wait)?;
        self.call(Call::Feed(vec![0, 0, 0, block, 0, 1]), Answer::Wait)?;
        self.call(Call::Raise, Answer::Offer(read))?;
        self.call(Call::Lower(0x55), Answer::Read(at))?;
        for _ in 0..10 {
            self.call(Call::Surface(2, vec![]), Answer::Read(at))?;
        }
        self.call(Call::Surface(2, vec![]), Answer::Store)
    }
}

/// Starts from an image, changes the table, and stores it with each answer.
fn stores(image: &[u8], mut run: u32) -> Result<u64, String> {
    let mut made = Run {
        beside: Beside::new(),
        calls: 0,
    };
    made.call(Call::Start, Answer::Read(crate::TABLE))?;
    made.call(Call::Surface(0, image.to_vec()), Answer::Wait)?;
    made.is_at(run)?;
    for (block, answer) in (100..).zip(STORES) {
        made.change(block)?;
        run = run.saturating_add(1);
        made.is_at(run)?;
        made.call(Call::Surface(answer, vec![]), Answer::Finished)?;
        made.is_at(run)?;
    }
    made.call(Call::Raise, Answer::Offer(Offer::Command))?;
    Ok(made.calls)
}

#[cfg(test)]
mod tests {
    use super::*;

    #[test]
    fn run_numbers_through_the_library() {
        assert!(all().expect("agreement") > 500);
    }
}
