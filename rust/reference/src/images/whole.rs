//! Well-formed images of every interesting size and kind.

use super::draft::{distinct, Draft};
use super::{Expect, Group};
use crate::geometry::BLOCKS;
use crate::image::DEAD;
use crate::rng::Rng;

pub fn groups() -> Vec<Group> {
    vec![
        sizes(),
        random_sizes(),
        dead_marks(),
        both_lists(),
        edges(),
        orders(),
    ]
}

fn whole(about: &'static str, drafts: impl IntoIterator<Item = Draft>) -> Group {
    let images = drafts.into_iter().map(|draft| draft.bytes());
    Group::all(Expect::Table, about, images)
}

fn sizes() -> Group {
    let mut rng = Rng::new(101);
    let sizes = [
        (0, 0),
        (1, 0),
        (0, 1),
        (1, 1),
        (31, 0),
        (32, 0),
        (0, 99),
        (0, 100),
        (32, 1),
        (1, 100),
        (31, 99),
        (32, 100),
        (32, 100),
    ];
    whole(
        "Well-formed images, lists empty, of one entry, almost full and full.",
        sizes.map(|(spares, bads)| Draft::of_size(&mut rng, spares, bads)),
    )
}

fn random_sizes() -> Group {
    let mut rng = Rng::new(102);
    whole(
        "Well-formed images of random sizes.",
        (0..20).map(|_| Draft::of_any_size(&mut rng)),
    )
}

fn dead_marks() -> Group {
    let mut rng = Rng::new(103);
    let bads = distinct(&mut rng, 100, 0, BLOCKS);
    let mut last_alive = vec![DEAD; 31];
    last_alive.push(9727);
    let mut first_alive = vec![0];
    first_alive.extend([DEAD; 31]);
    whole(
        "Well-formed images with dead marks, one, several and all.",
        [
            Draft::new(&[DEAD], &[]),
            Draft::new(&[DEAD, DEAD], &[]),
            Draft::new(&[DEAD, 5], &[5]),
            Draft::new(&[5, DEAD], &[6]),
            Draft::new(&[DEAD, 5, DEAD], &[]),
            Draft::new(&[5, DEAD, DEAD, 6, DEAD, 7], &[7, 6]),
            Draft::new(&[DEAD; 31], &[254]),
            Draft::new(&[DEAD; 32], &[]),
            Draft::new(&[DEAD; 32], &bads),
            Draft::new(&last_alive, &[9727]),
            Draft::new(&first_alive, &[0]),
        ],
    )
}

fn both_lists() -> Group {
    let mut rng = Rng::new(104);
    let many = distinct(&mut rng, 32, 0, BLOCKS);
    let turned: Vec<u32> = many.iter().rev().copied().collect();
    whole(
        "Well-formed images with blocks that stand in both lists.",
        [
            Draft::new(&[77], &[77]),
            Draft::new(&[1, 2, 3], &[3, 2, 1]),
            Draft::new(&[1, 2, 3], &[4, 5, 1]),
            Draft::new(&[9727, DEAD, 0], &[0, 9727]),
            Draft::new(&many, &many),
            Draft::new(&many, &turned),
        ],
    )
}

fn edges() -> Group {
    let numbers = [
        0, 1, 255, 256, 257, 511, 512, 4927, 4928, 4960, 8192, 9726, 9727,
    ];
    let single = numbers.map(|number| Draft::new(&[DEAD, number], &[number]));
    let together = [
        Draft::new(&[0], &[]),
        Draft::new(&[], &[0]),
        Draft::new(&[9727], &[]),
        Draft::new(&[], &[9727]),
        Draft::new(&[0, 9727], &[9727, 0]),
        Draft::new(&numbers, &numbers),
    ];
    whole(
        "Well-formed images with block 0, block 9727 and other numbers at an edge.",
        single.into_iter().chain(together),
    )
}

fn orders() -> Group {
    let up = |count: u32, step: u32| (0..count).map(|k| k * step).collect::<Vec<_>>();
    let down = |count: u32| (0..count).map(|k| 9727 - k).collect::<Vec<_>>();
    whole(
        "Well-formed images with blocks in rising and in falling order.",
        [
            Draft::new(&up(5, 1), &up(6, 1)),
            Draft::new(&down(5), &down(6)),
            Draft::new(&down(32), &[]),
            Draft::new(&up(32, 304), &down(2)),
            Draft::new(&[], &up(100, 97)),
        ],
    )
}
