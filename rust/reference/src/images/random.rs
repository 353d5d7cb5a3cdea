//! Random images of which only the reader can tell.

use super::draft::Draft;
use super::{Expect, Group};
use crate::image::{DEAD, LENGTH};
use crate::rng::Rng;

pub fn groups() -> Vec<Group> {
    vec![one_byte(), close_together()]
}

fn one_byte() -> Group {
    let mut rng = Rng::new(401);
    Group::all(
        Expect::Either,
        "One byte of a well-formed image changed at random; some are still well formed.",
        (0..150).map(|_| {
            let draft = Draft::of_any_size(&mut rng);
            let used = draft.used().len();
            let mut bytes = draft.bytes();
            let place = match rng.below(8) {
                0 => rng.place(LENGTH),
                1 => rng.place(26),
                _ => 24 + rng.place(used - 24),
            };
            bytes[place] = match rng.below(4) {
                0 => bytes[place].wrapping_add(1),
                1 => bytes[place].wrapping_sub(1),
                2 => bytes[place] ^ (1 << rng.below(8)),
                _ => rng.other_byte(bytes[place]),
            };
            bytes
        }),
    )
}

fn close_together() -> Group {
    let mut rng = Rng::new(402);
    Group::all(
        Expect::Either,
        "Random images whose blocks lie close together, so that some stand twice.",
        (0..40).map(|_| {
            let from = rng.pick(&[0, 250, 4920, 9708]);
            let (spares, bads) = (rng.place(7), rng.place(7));
            let spares: Vec<u32> = (0..spares)
                .map(|_| match rng.below(4) {
                    0 => DEAD,
                    _ => from + rng.below(20),
                })
                .collect();
            let bads: Vec<u32> = (0..bads).map(|_| from + rng.below(20)).collect();
            Draft::new(&spares, &bads).bytes()
        }),
    )
}
