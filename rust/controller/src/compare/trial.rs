//! The seven calls on a record that no call returned, and verifies and rereads with
//! one byte wrong.

use std::format;
use std::string::String;
use std::vec;
use std::vec::Vec;

use reference::drive::Call;
use reference::images::draft_b::DraftB;
use reference::rng::Rng;
use reference::script::{self, Line};
use reference::surface::{near_miss, plain_bytes};

use super::beside::{self, Fate, MOST_LENT};
use super::damage;
use crate::fields::Fields;
use crate::raw::kind;
use crate::{BUFFER, SECTOR_BYTES, STATUS};

/// How the calls went.
pub struct Tried {
    pub fates: Vec<Fate>,
    /// Code 1 was answered, by every call but start.
    pub refused: bool,
}

/// Makes each call on the record, with any arguments, and says what is not as it
/// must be. Code 1 looks at the record alone, so that all calls but start answer
/// it or none does.
pub fn all_calls(record: &Fields, rng: &mut Rng) -> Result<Tried, String> {
    let filled = rng.byte();
    let mut fates = Vec::new();
    let mut refused = None;
    for call in calls(filled, rng) {
        let length = match rng.one_in(8) {
            true => length(&call, rng),
            false => beside::length_of(&call),
        };
        let line = Line {
            lend: Some(length),
            call,
        };
        let told = |said: String| format!("{}\non {record:?}\n{said}", script::show(&line));
        let lent = vec![filled; length];
        let fate = beside::damaged(record, &lent, &line.call).map_err(told)?;
        let code_1 = fate.is_code_1();
        let wanted = match line.call {
            Call::Start => false,
            _ => *refused.get_or_insert(code_1),
        };
        if code_1 != wanted {
            return Err(told(format!("{fate:?}, unlike the calls before")));
        }
        fates.push(fate);
    }
    let refused = refused.expect("start is not the only call");
    Ok(Tried { fates, refused })
}

/// The seven calls. What they are lent is full of one byte.
fn calls(filled: u8, rng: &mut Rng) -> [Call; 7] {
    let fed = rng.pick(&[0, 3, 6, 533]);
    [
        Call::Start,
        Call::Raise,
        Call::Lower(rng.pick(&[0x55, 0x55, 0x55, 0xAA])),
        Call::Feed(vec![rng.byte(); fed]),
        surface(filled, rng),
        Call::Reset,
        Call::Image,
    ]
}

fn surface(filled: u8, rng: &mut Rng) -> Call {
    let part = [filled; SECTOR_BYTES];
    match rng.below(11) {
        0 => Call::Surface(rng.byte(), vec![]),
        1 => Call::Surface(rng.below(4) as u8, vec![0; rng.pick(&[0, 531, 532, 533])]),
        2 => Call::Surface(2, vec![]),
        3 => Call::Surface(3, vec![]),
        4 => Call::Surface(0, vec![]),
        // The data part verifies, and what it nearly is does not.
        5 => Call::Surface(0, part.to_vec()),
        6 => Call::Surface(0, near_miss(rng, &part)),
        7 => Call::Surface(0, DraftB::of_any_size(rng).bytes()),
        8 => Call::Surface(0, DraftB::of_any_size(rng).form_a().bytes()),
        n => Call::Surface(n as u8 - 9, plain_bytes(rng)),
    }
}

/// Answers verifies and rereads with bytes that differ from the data part in one
/// place alone, in every place, and says what is not as it must be. Gives the number
/// of calls.
pub fn every_place(rng: &mut Rng) -> Result<u64, String> {
    let mut calls = 0;
    let mut verifies = damage::sound_ones();
    verifies.retain(|record| matches!(record.stage.kind, kind::VERIFY | kind::TRIAL_READ));
    for place in 0..SECTOR_BYTES {
        for record in &verifies {
            let lent: Vec<u8> = (0..BUFFER).map(|_| rng.byte()).collect();
            let mut bytes = lent[STATUS..].to_vec();
            bytes[place] = rng.other_byte(bytes[place]);
            match beside::damaged(record, &lent, &Call::Surface(0, bytes)) {
                Ok(Fate::Taken) => calls += 1,
                fate => return Err(format!("a verify with byte {place} wrong: {fate:?}")),
            }
        }
    }
    Ok(calls)
}

/// A length to lend, near what is asked for more often than not.
pub fn length(call: &Call, rng: &mut Rng) -> usize {
    let wanted = beside::length_of(call);
    match rng.below(4) {
        0 => rng.place(MOST_LENT + 1),
        1 => wanted,
        _ => wanted - 6 + rng.place(13),
    }
}

#[cfg(test)]
mod tests {
    use super::*;

    #[test]
    fn a_verify_looks_at_every_byte() {
        let calls = every_place(&mut Rng::new(2)).expect("agreement");
        // Two verifies, and rereads of the present sector and of a spare.
        assert_eq!(calls, 4 * SECTOR_BYTES as u64);
    }
}
