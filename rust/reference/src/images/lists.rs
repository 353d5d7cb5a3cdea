//! Images whose entries are the matter: numbers that are no entry, blocks that
//! stand twice, and pairs that only look alike.

use super::draft::{distinct, Draft};
use super::{Expect, Group};
use crate::geometry::BLOCKS;
use crate::image::DEAD;
use crate::rng::Rng;

/// Numbers that are neither a block nor the dead mark.
const NO_ENTRIES: [u32; 13] = [
    9728, 0x00_8000, 0x00_FFFE, 0x00_FFFF, 0x01_0000, 0x01_0011, 0x01_25FF, 0x01_FFFE, 0x80_0000,
    0xFF_0000, 0xFF_FEFF, 0xFF_FFFD, 0xFF_FFFF,
];

pub fn groups() -> Vec<Group> {
    vec![
        no_entries(),
        no_entries_alone(),
        dead_bads(),
        spare_doubles(),
        bad_doubles(),
        pairs_alike(),
    ]
}

fn of(expect: Expect, about: &'static str, drafts: &[Draft]) -> Group {
    Group::all(expect, about, drafts.iter().map(Draft::bytes))
}

fn no_entries() -> Group {
    let mut drafts = vec![];
    for number in NO_ENTRIES {
        for place in [0, 2, 4] {
            drafts.push(Draft::small().with(|it| it.spares[place] = number));
            drafts.push(Draft::small().with(|it| it.bads[place] = number));
        }
    }
    of(
        Expect::Form,
        "Numbers that are no entry, in the first, a middle and the last place of each list.",
        &drafts,
    )
}

fn no_entries_alone() -> Group {
    let mut drafts = vec![];
    for number in [9728, 0x00_FFFE, 0x01_0000, 0xFF_FFFD, 0xFF_FFFF] {
        drafts.push(Draft::new(&[number], &[]));
        drafts.push(Draft::new(&[], &[number]));
    }
    let mut rng = Rng::new(301);
    drafts.push(Draft::of_size(&mut rng, 32, 0).with(|it| it.spares[31] = 9728));
    drafts.push(Draft::of_size(&mut rng, 0, 100).with(|it| it.bads[99] = 9728));
    of(
        Expect::Form,
        "Numbers that are no entry, alone in a list or last in a full one.",
        &drafts,
    )
}

fn dead_bads() -> Group {
    let mut rng = Rng::new(302);
    of(
        Expect::Form,
        "FFFFFE as a bad entry.",
        &[
            Draft::new(&[], &[DEAD]),
            Draft::new(&[DEAD], &[DEAD]),
            Draft::new(&[], &[DEAD, DEAD]),
            Draft::small().with(|it| it.bads[0] = DEAD),
            Draft::small().with(|it| it.bads[2] = DEAD),
            Draft::small().with(|it| it.bads[4] = DEAD),
            Draft::of_size(&mut rng, 1, 100).with(|it| it.bads[99] = DEAD),
        ],
    )
}

/// Lists in which some block stands twice.
fn doubles(rng: &mut Rng, most: usize) -> Vec<Vec<u32>> {
    let mut lists = vec![
        vec![0, 0],
        vec![9727, 9727],
        vec![5, 5, 5],
        vec![5, 6, 5],
        vec![256, 1, 2, 3, 256],
        vec![4928, 4928, 1, 2],
        vec![1, 2, 4927, 4927],
        vec![1, 700, 2, 700, 3],
    ];
    let last = most - 1;
    for (one, other) in [(0, 1), (0, last), (last - 1, last), (most / 3, most / 2)] {
        let mut list = distinct(rng, most, 0, BLOCKS);
        list[other] = list[one];
        lists.push(list);
    }
    lists
}

fn spare_doubles() -> Group {
    let mut rng = Rng::new(303);
    let mut drafts: Vec<Draft> = doubles(&mut rng, 32)
        .iter()
        .map(|list| Draft::new(list, &[6, 42]))
        .collect();
    drafts.push(Draft::new(&[8, DEAD, 8], &[]));
    drafts.push(Draft::new(&[DEAD, DEAD, 8, 8], &[8]));
    drafts.push(Draft::new(&[8, DEAD, 9, DEAD, 8], &[9]));
    of(
        Expect::Form,
        "A block twice in the spare list: neighbours, first and last, others.",
        &drafts,
    )
}

fn bad_doubles() -> Group {
    let mut rng = Rng::new(304);
    let mut drafts: Vec<Draft> = doubles(&mut rng, 100)
        .iter()
        .map(|list| Draft::new(&[6, DEAD, 5], list))
        .collect();
    drafts.push(Draft::new(&[], &[8, 8]));
    drafts.push(Draft::new(&[8], &[8, 9, 8]));
    drafts.push(Draft::new(&[8, 8], &[8, 8]));
    of(
        Expect::Form,
        "A block twice in the bad list, or in each list.",
        &drafts,
    )
}

fn pairs_alike() -> Group {
    let mut drafts = vec![];
    for (one, other) in [
        (5, 517),
        (0, 512),
        (9727, 9215),
        (4928, 4416),
        (5, 261),
        (5, 1029),
        (5, 2053),
        (5, 4101),
        (5, 8197),
        (5, 69),
        (5, 133),
        (5, 6),
        (0, 9727),
        (0x0102, 0x0201),
        (0x0025, 0x2500),
    ] {
        drafts.push(Draft::new(&[one, other], &[other, 78, one]));
    }
    drafts.push(Draft::new(&[517, DEAD, 5], &[]));
    drafts.push(Draft::new(&[], &[517, 5]));
    let step_512: Vec<u32> = (0..19).map(|k| 512 * k + 3).collect();
    let step_256: Vec<u32> = (0..38).map(|k| 256 * k + 254).collect();
    drafts.push(Draft::new(&step_512, &step_512));
    drafts.push(Draft::new(&[254], &step_256));
    of(
        Expect::Table,
        "Different blocks that look alike, such as two that differ by 512: well formed.",
        &drafts,
    )
}
