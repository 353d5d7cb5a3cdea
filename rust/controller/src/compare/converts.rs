//! Converts of images of both forms: whole ones, such with each clause broken, such
//! with random damage, and every length.

use std::format;
use std::string::String;
use std::vec::Vec;

use reference::images::draft_b::{summed, DraftB};
use reference::images::{groups, Case, Expect};
use reference::rng::Rng;
use reference::text::show_bytes;

use super::beside::{converted, MOST_LENT};
use crate::form_b::{MAGIC, RUN, SPARES, SPARE_BYTES, SPARE_COUNT};
use crate::{Answer, Code, SECTOR_BYTES};

/// How many images are damaged at random.
const DAMAGED: usize = 4000;

/// What a convert may answer.
const ANSWERS: [Answer; 5] = [
    Answer::Wait,
    Answer::Refused(Code::Buffer),
    Answer::Refused(Code::Form),
    Answer::Refused(Code::Sum),
    Answer::Refused(Code::Field),
];

/// How often each of the answers was met.
#[derive(Clone, Copy, Debug, Default, PartialEq, Eq)]
pub struct Met {
    counts: [u64; ANSWERS.len()],
}

impl Met {
    /// How many calls there were.
    pub fn calls(&self) -> u64 {
        self.counts.iter().sum()
    }

    /// Counts an answer, which must be one of those.
    fn count(&mut self, answer: Answer) -> Result<(), String> {
        match ANSWERS.iter().position(|&one| one == answer) {
            Some(place) => self.counts[place] += 1,
            None => return Err(format!("a convert answers {answer:?}")),
        }
        Ok(())
    }

    /// Converts bytes into a second buffer of this length; gives the answer and the
    /// buffer.
    fn convert(&mut self, from: &[u8], length: usize) -> Result<(Answer, Vec<u8>), String> {
        let told = |said| format!("convert{} into {length} bytes: {said}", show_bytes(from));
        let (answer, left) = converted(from, length).map_err(told)?;
        self.count(answer).map_err(told)?;
        Ok((answer, left))
    }
}

/// Makes all converts and says what is not as it must be.
pub fn all(rng: &mut Rng) -> Result<Met, String> {
    let mut met = Met::default();
    for group in groups() {
        for case in &group.cases {
            stored_case(case, &mut met).map_err(|said| format!("{} {said}", group.about))?;
        }
    }
    for _ in 0..DAMAGED {
        let image = damaged(rng);
        there_and_back(&image, &mut met)?;
    }
    lengths(rng, &mut met)?;
    match met.counts.contains(&0) {
        true => Err(format!("an answer of convert was not met: {met:?}")),
        false => Ok(met),
    }
}

/// Converts a case, whose making says what is answered.
fn stored_case(case: &Case, met: &mut Met) -> Result<(), String> {
    let answer = there_and_back(&case.bytes, met)?;
    let wanted = match case.expect {
        Expect::Either => return Ok(()),
        _ if case.bytes.len() != SECTOR_BYTES => Answer::Refused(Code::Buffer),
        Expect::Table => Answer::Wait,
        Expect::Form => Answer::Refused(Code::Form),
        Expect::Sum => Answer::Refused(Code::Sum),
        Expect::Field => Answer::Refused(Code::Field),
    };
    match answer == wanted {
        true => Ok(()),
        false => Err(format!("{answer:?} in place of {wanted:?}")),
    }
}

/// Converts an image; if it is taken, also what came of it, and so on. Form A must
/// come back as it was, and form B without its past.
fn there_and_back(image: &[u8], met: &mut Met) -> Result<Answer, String> {
    let (answer, there) = met.convert(image, SECTOR_BYTES)?;
    if answer != Answer::Wait {
        return Ok(answer);
    }
    let (_, back) = met.convert(&there, SECTOR_BYTES)?;
    let of_b = image.starts_with(&MAGIC);
    let wanted = match of_b {
        true => without_past(image),
        false => image.to_vec(),
    };
    match back == wanted && there.starts_with(&MAGIC) != of_b {
        true => Ok(answer),
        false => Err(format!("convert{}: it comes back wrong", show_bytes(image))),
    }
}

/// Returns an image of form B with run number 0 and causes 0.
fn without_past(image: &[u8]) -> Vec<u8> {
    let mut bytes = image.to_vec();
    bytes[RUN..RUN + 4].fill(0);
    // The count is at most 32, so that its high byte is 0.
    for k in 0..usize::from(image[SPARE_COUNT + 1]) {
        bytes[SPARES + SPARE_BYTES * k + 3] = 0;
    }
    summed(bytes)
}

/// An image of either form with up to three bytes changed, that of form B often with
/// the right sum.
fn damaged(rng: &mut Rng) -> Vec<u8> {
    let draft = DraftB::of_any_size(rng);
    let of_b = !rng.one_in(4);
    let (mut bytes, used) = match of_b {
        true => (draft.bytes(), draft.used().len()),
        false => (draft.form_a().bytes(), draft.form_a().used().len()),
    };
    for _ in 0..rng.below(4) {
        let place = match rng.below(4) {
            0 => rng.place(SECTOR_BYTES),
            1 => rng.place(26),
            _ => rng.place(used),
        };
        bytes[place] = match rng.below(3) {
            0 => rng.byte(),
            1 => bytes[place].wrapping_add(1),
            _ => bytes[place] ^ (1 << rng.below(8)),
        };
    }
    match of_b && !rng.one_in(4) {
        true => summed(bytes),
        false => bytes,
    }
}

/// Converts with every length of the first buffer, of the second, and of both.
fn lengths(rng: &mut Rng, met: &mut Met) -> Result<(), String> {
    for length in 0..=MOST_LENT {
        let draft = DraftB::of_any_size(rng);
        for image in [draft.bytes(), draft.form_a().bytes()] {
            let mut cut = image.clone();
            cut.resize(length, 0);
            met.convert(&image, length)?;
            met.convert(&cut, SECTOR_BYTES)?;
            met.convert(&cut, length)?;
        }
    }
    Ok(())
}

#[cfg(test)]
mod tests {
    use super::*;

    #[test]
    fn every_answer_is_met_through_the_library() {
        let met = all(&mut Rng::new(3)).expect("agreement");
        assert!(met.counts.iter().all(|&count| count > 100), "{met:?}");
    }

    #[test]
    fn an_answer_of_other_calls_is_an_error() {
        let mut met = Met::default();
        assert!(met.count(Answer::Refused(Code::Field)).is_ok());
        for answer in [Answer::Store, Answer::Refused(Code::Record)] {
            assert!(met.count(answer).is_err());
        }
        assert_eq!(met.calls(), 1);
    }

    #[test]
    fn what_is_dropped() {
        let image = DraftB::small();
        let plain = image.with(|it| {
            it.run = 0;
            it.spares.iter_mut().for_each(|(_, cause)| *cause = 0);
        });
        assert_ne!(image.bytes(), plain.bytes());
        assert_eq!(without_past(&image.bytes()), plain.bytes());
        assert_eq!(without_past(&plain.bytes()), plain.bytes());
    }
}
