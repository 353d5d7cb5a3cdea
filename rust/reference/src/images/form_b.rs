//! Images of form B: well-formed ones, each clause broken alone, and random damage.

use super::draft::{distinct, Draft};
use super::draft_b::{right_sum, summed, with_sum, DraftB};
use super::{Case, Expect, Group};
use crate::geometry::BLOCKS;
use crate::image::{DEAD, LENGTH};
use crate::rng::Rng;

/// Where the sum stands.
const SUM_AT: usize = LENGTH - 2;

/// Makes the groups of well-formed images.
pub fn whole() -> Vec<Group> {
    vec![sizes(), run_numbers(), causes(), edges(), random_sizes()]
}

/// Makes the groups of images that are none, or of which only the reader can tell.
pub fn damaged() -> Vec<Group> {
    vec![
        first_bytes(),
        first_bytes_of_the_other(),
        sums(),
        counts(),
        counts_too_large(),
        offsets(),
        spare_entries(),
        spare_causes(),
        spare_doubles(),
        bad_entries(),
        bad_doubles(),
        lists_elsewhere(),
        zeros(),
        large_sums(),
        lengths(),
        one_byte(),
        one_byte_summed(),
        close_together(),
    ]
}

fn of(about: &'static str, drafts: impl IntoIterator<Item = DraftB>) -> Group {
    let images = drafts.into_iter().map(|draft| draft.bytes());
    Group::all(Expect::Table, about, images)
}

fn sizes() -> Group {
    let mut rng = Rng::new(501);
    let sizes = [
        (0, 0),
        (1, 0),
        (0, 1),
        (1, 1),
        (31, 0),
        (32, 0),
        (0, 99),
        (0, 100),
        (31, 99),
        (32, 100),
    ];
    of(
        "Form B: lists empty, of one entry, almost full and full.",
        sizes.map(|(spares, bads)| DraftB::of_size(&mut rng, spares, bads)),
    )
}

fn run_numbers() -> Group {
    let runs = [
        0,
        1,
        255,
        256,
        0x0001_0000,
        0x0102_0304,
        0x7FFF_FFFF,
        0x8000_0000,
        u32::MAX - 1,
        u32::MAX,
    ];
    of(
        "Form B: run numbers from 0 to FFFFFFFF hex.",
        runs.map(|run| DraftB::new(run, &[(5, 1)], &[6])),
    )
}

fn causes() -> Group {
    let mut drafts = vec![DraftB::small()];
    for cause in 0..4 {
        drafts.push(DraftB::new(9, &[(700, cause)], &[]));
        drafts.push(DraftB::new(9, &[(DEAD, cause), (700, 3 - cause)], &[700]));
    }
    let every: Vec<(u32, u8)> = (0..32).map(|k| (300 * k, (k % 4) as u8)).collect();
    drafts.push(DraftB::new(9, &every, &[]));
    for cause in 0..4 {
        drafts.push(DraftB::new(9, &[(DEAD, cause); 32], &[0]));
    }
    of("Form B: each cause of live and of dead entries.", drafts)
}

fn edges() -> Group {
    let numbers = [0, 1, 255, 256, 4927, 4928, 4960, 9726, 9727];
    let mut drafts = numbers.map(|number| DraftB::new(1, &[(DEAD, 1), (number, 0)], &[number]));
    drafts[0].run = 0;
    let alike = [
        // Block 0 with cause 0 is four zeros, and as a bad entry three.
        DraftB::new(0, &[(0, 0)], &[]),
        DraftB::new(0, &[], &[0]),
        DraftB::new(0, &[(0, 0)], &[0]),
        DraftB::new(0, &[(5, 0), (0, 0)], &[5, 0]),
        DraftB::new(3, &[(5, 1), (517, 1), (261, 1)], &[517, 5, 261]),
        DraftB::new(3, &[(0x0102, 3), (0x0201, 3)], &[0x0025, 0x2500]),
        DraftB::new(3, &[(DEAD, 1), (DEAD, 1), (DEAD, 2)], &[1, 2, 3]),
    ];
    of(
        "Form B: block 0, block 9727, other numbers at an edge, and pairs that look alike.",
        drafts.into_iter().chain(alike),
    )
}

fn random_sizes() -> Group {
    let mut rng = Rng::new(502);
    of(
        "Form B: random sizes.",
        (0..16).map(|_| DraftB::of_any_size(&mut rng)),
    )
}

/// Makes two cases of each image: with the right sum, and with that of the whole one
/// that it was made from.
fn spoiled(
    about: &'static str,
    images: impl IntoIterator<Item = (DraftB, Vec<u8>)>,
    summed_right: Expect,
) -> Group {
    let mut cases = vec![];
    for (whole, bytes) in images {
        let kept = right_sum(&whole.bytes());
        let wrong = right_sum(&bytes) != kept;
        cases.push(Case {
            bytes: summed(bytes.clone()),
            expect: summed_right,
        });
        if wrong {
            let expect = match summed_right {
                Expect::Form => Expect::Form,
                _ => Expect::Sum,
            };
            cases.push(Case {
                bytes: with_sum(bytes, kept),
                expect,
            });
        }
    }
    Group { about, cases }
}

/// Makes the cases of drafts that break a clause behind the sum, each with the whole
/// one that it was made from.
fn content(about: &'static str, drafts: Vec<(DraftB, DraftB)>) -> Group {
    let images = drafts
        .into_iter()
        .map(|(whole, draft)| (whole, draft.bytes()));
    spoiled(about, images, Expect::Field)
}

/// Gives a whole draft, and the same after a change.
fn changed(whole: &DraftB, change: impl FnOnce(&mut DraftB)) -> (DraftB, DraftB) {
    (whole.clone(), whole.with(change))
}

fn first_bytes() -> Group {
    let mut rng = Rng::new(503);
    let whole = DraftB::small();
    let images = (0..4).map(|place| {
        let change = |it: &mut DraftB| it.begin[place] = rng.other_byte(it.begin[place]);
        (whole.clone(), whole.with(change).bytes())
    });
    let begins = [
        [0x0F, 0x87, 0xC3, 0xE1],
        [0x1E, 0x3C, 0x78, 0xF0],
        [0x78, 0xF0, 0x3C, 0x1E],
        [0; 4],
    ]
    .map(|begin| (whole.clone(), whole.with(|it| it.begin = begin).bytes()));
    spoiled(
        "Form B with one of its four first bytes changed, or others in their place.",
        images.chain(begins),
        Expect::Form,
    )
}

fn first_bytes_of_the_other() -> Group {
    let whole = DraftB::small();
    let (of_a, of_b) = (whole.form_a().bytes(), whole.bytes());
    let case = |bytes: Vec<u8>, expect| Case { bytes, expect };
    let mut b_then_a = of_a.clone();
    b_then_a[..4].copy_from_slice(&of_b[..4]);
    let mut a_then_b = of_b.clone();
    a_then_b[..24].copy_from_slice(&of_a[..24]);
    let mut later = of_b.clone();
    later.rotate_right(4);
    let mut name_later = of_b.clone();
    name_later[4..8].copy_from_slice(b"PROF");
    Group {
        about: "The first bytes of one form before the rest of the other, and shifted.",
        cases: vec![
            case(b_then_a.clone(), Expect::Sum),
            case(summed(b_then_a), Expect::Field),
            case(a_then_b.clone(), Expect::Form),
            case(summed(a_then_b), Expect::Form),
            case(later.clone(), Expect::Form),
            case(summed(later), Expect::Form),
            // The run number may be anything.
            case(name_later.clone(), Expect::Sum),
            case(summed(name_later), Expect::Table),
            case([&of_b[..4], &[0; 528]].concat(), Expect::Sum),
        ],
    }
}

fn sums() -> Group {
    let mut rng = Rng::new(504);
    let mut images = vec![];
    for whole in [
        DraftB::new(0, &[], &[]),
        DraftB::small(),
        DraftB::of_size(&mut rng, 32, 100),
    ] {
        let bytes = whole.bytes();
        let right = right_sum(&bytes);
        let all: u32 = bytes.iter().map(|&byte| u32::from(byte)).sum();
        let first: u16 = bytes[..4].iter().map(|&byte| u16::from(byte)).sum();
        let xor = bytes[..SUM_AT].iter().fold(0, |xor, byte| xor ^ byte);
        let sums = [
            right.wrapping_add(1),
            right.wrapping_sub(1),
            right.wrapping_add(256),
            right.wrapping_sub(256),
            right ^ 0x8000,
            right ^ 0x0080,
            right.swap_bytes(),
            !right,
            right.wrapping_neg(),
            right - first,
            right & 0x00FF,
            right & 0xFF00,
            u16::from(xor),
            all as u16,
            0,
            0xFFFF,
        ];
        let wrong = sums.into_iter().filter(|&sum| sum != right);
        images.extend(wrong.map(|sum| with_sum(bytes.clone(), sum)));
    }
    Group::all(
        Expect::Sum,
        "Form B with a wrong sum: high byte, low byte, both, or another sum.",
        images,
    )
}

fn counts() -> Group {
    let mut drafts = vec![];
    for whole in [DraftB::new(0, &[], &[]), DraftB::small()] {
        let (spares, bads) = (whole.spare_count, whole.bad_count);
        for count in [spares.wrapping_sub(1), spares + 1, spares + 256] {
            drafts.push(changed(&whole, |it| it.spare_count = count));
        }
        for count in [bads.wrapping_sub(1), bads + 256, 101, 0x8000] {
            drafts.push(changed(&whole, |it| it.bad_count = count));
        }
        for count in [32, 33, 0xFF, 0x8000, 0xFFFF] {
            drafts.push(changed(&whole, |it| it.spare_count = count));
        }
    }
    // One bad entry more is block 0, which is there already.
    let zero = DraftB::new(4, &[(17, 1)], &[5, 0]);
    drafts.push(changed(&zero, |it| it.bad_count += 1));
    content("Form B with a count that is not its list's.", drafts)
}

fn counts_too_large() -> Group {
    let mut rng = Rng::new(505);
    let mut sized = |spares, bads| {
        let spares = distinct(&mut rng, spares, 0, BLOCKS);
        let spares: Vec<(u32, u8)> = spares.iter().map(|&number| (number, 1)).collect();
        let bads = distinct(&mut rng, bads, 0, BLOCKS);
        DraftB::new(5, &spares, &bads)
    };
    let mut drafts = vec![
        sized(33, 0),
        sized(33, 100),
        sized(34, 2),
        sized(128, 0),
        sized(0, 101),
        sized(32, 101),
        sized(0, 171),
        sized(33, 101),
    ];
    drafts.push(DraftB::new(5, &[(DEAD, 2); 33], &[]));
    let whole = DraftB::new(5, &[], &[]);
    content(
        "Form B with counts above 32 and 100 and as many entries, all else well formed.",
        drafts
            .into_iter()
            .map(|draft| (whole.clone(), draft))
            .collect(),
    )
}

fn offsets() -> Group {
    let mut drafts = vec![];
    for whole in [DraftB::new(0, &[], &[]), DraftB::small()] {
        for offset in [0, 15, 17, 20, 0x1000, 0x0110, 0xFFFF] {
            drafts.push(changed(&whole, |it| it.spare_offset = offset));
        }
        let bads_at = whole.bad_offset;
        for offset in [
            bads_at - 1,
            bads_at + 1,
            bads_at + 4,
            bads_at + 256,
            0,
            bads_at.swap_bytes(),
            0xFFFF,
        ] {
            drafts.push(changed(&whole, |it| it.bad_offset = offset));
        }
    }
    // With no bad entry the offset follows the same rule.
    let whole = DraftB::new(7, &[(17, 1), (18, 2)], &[]);
    for offset in [0, 16, 20, 530] {
        drafts.push(changed(&whole, |it| it.bad_offset = offset));
    }
    content("Form B with an offset changed.", drafts)
}

/// Numbers that are neither a block nor the dead mark.
const NO_ENTRIES: [u32; 8] = [
    9728, 0x00_FFFE, 0x00_FFFF, 0x01_0011, 0x80_0000, 0xFF_FEFF, 0xFF_FFFD, 0xFF_FFFF,
];

fn spare_entries() -> Group {
    let whole = DraftB::small();
    let mut drafts = vec![];
    for number in NO_ENTRIES {
        for place in [0, 1, 4] {
            drafts.push(changed(&whole, |it| it.spares[place].0 = number));
        }
    }
    let mut rng = Rng::new(506);
    let full = DraftB::of_size(&mut rng, 32, 0);
    drafts.push(changed(&full, |it| it.spares[31].0 = 9728));
    content("Form B with a spare entry that is none.", drafts)
}

fn spare_causes() -> Group {
    let whole = DraftB::small();
    let mut drafts = vec![];
    for cause in [4, 5, 7, 128, 255] {
        // A live entry, a dead one, and the last.
        for place in [0, 1, 4] {
            drafts.push(changed(&whole, |it| it.spares[place].1 = cause));
        }
    }
    let mut rng = Rng::new(507);
    let full = DraftB::of_size(&mut rng, 32, 100);
    drafts.push(changed(&full, |it| it.spares[31].1 = 4));
    content("Form B with a cause above 3.", drafts)
}

fn spare_doubles() -> Group {
    let whole = DraftB::small();
    let mut rng = Rng::new(508);
    let full = DraftB::of_size(&mut rng, 32, 3);
    let drafts = vec![
        changed(&whole, |it| it.spares[2] = it.spares[0]),
        changed(&whole, |it| it.spares[2].0 = it.spares[0].0),
        changed(&whole, |it| it.spares[3].0 = it.spares[2].0),
        changed(&whole, |it| it.spares[4].0 = it.spares[0].0),
        changed(&full, |it| {
            it.spares[0].0 = 77;
            it.spares[31].0 = 77;
        }),
        changed(&DraftB::new(1, &[(0, 0)], &[]), |it| {
            (it.spare_count, it.bad_offset) = (2, 24);
        }),
    ];
    content("Form B with a block twice in the spare list.", drafts)
}

fn bad_entries() -> Group {
    let whole = DraftB::small();
    let mut drafts = vec![];
    for number in NO_ENTRIES {
        drafts.push(changed(&whole, |it| it.bads[2] = number));
    }
    for number in [9728, DEAD] {
        for place in [0, 4] {
            drafts.push(changed(&whole, |it| it.bads[place] = number));
        }
    }
    drafts.push(changed(&DraftB::new(2, &[], &[8]), |it| it.bads[0] = DEAD));
    let mut rng = Rng::new(509);
    let full = DraftB::of_size(&mut rng, 1, 100);
    drafts.push(changed(&full, |it| it.bads[99] = DEAD));
    content(
        "Form B with a bad entry that is no block, FFFFFE too.",
        drafts,
    )
}

fn bad_doubles() -> Group {
    let whole = DraftB::small();
    let mut rng = Rng::new(510);
    let full = DraftB::of_size(&mut rng, 2, 100);
    let drafts = vec![
        changed(&whole, |it| it.bads[1] = it.bads[0]),
        changed(&whole, |it| it.bads[4] = it.bads[0]),
        changed(&whole, |it| it.bads[4] = it.bads[3]),
        changed(&full, |it| it.bads[99] = it.bads[0]),
        changed(&DraftB::new(3, &[(8, 1)], &[8]), |it| {
            it.bads.push(8);
            it.bad_count = 2;
        }),
    ];
    content("Form B with a block twice in the bad list.", drafts)
}

/// Lays the lists elsewhere than right after another, as the offsets say.
fn lists_elsewhere() -> Group {
    let whole = DraftB::small();
    let laid = |spares_at: usize, bads_at: usize| {
        let used = whole.used();
        let draft = whole.with(|it| {
            it.spare_offset = spares_at as u16;
            it.bad_offset = bads_at as u16;
        });
        let mut bytes = draft.used()[..16].to_vec();
        bytes.resize(LENGTH, 0);
        bytes[spares_at..spares_at + 20].copy_from_slice(&used[16..36]);
        bytes[bads_at..bads_at + 15].copy_from_slice(&used[36..51]);
        (whole.clone(), bytes)
    };
    spoiled(
        "Form B with the lists elsewhere, where the offsets say.",
        [
            laid(17, 37),
            laid(16, 39),
            laid(16, 100),
            laid(31, 16),
            laid(36, 56),
        ],
        Expect::Field,
    )
}

fn zeros() -> Group {
    let mut rng = Rng::new(511);
    let mut images = vec![];
    for whole in [
        DraftB::new(0, &[], &[]),
        DraftB::small(),
        DraftB::of_size(&mut rng, 32, 100),
    ] {
        let first = whole.used().len();
        let mut places = vec![first, SUM_AT - 1];
        for _ in 0..3 {
            places.push(first + rng.place(SUM_AT - first));
        }
        for place in places {
            let mut bytes = whole.bytes();
            bytes[place] = rng.pick(&[0x01, 0x80, 0xFF, 0x20]);
            images.push((whole.clone(), bytes));
        }
    }
    // The marks of form A behind the lists, and 256 times 256 in all.
    let whole = DraftB::small();
    let mut marked = whole.bytes();
    marked[51..54].fill(0xFF);
    images.push((whole.clone(), marked));
    let mut same_sum = whole.bytes();
    same_sum[100..356].fill(0xFF);
    same_sum[400..528].fill(2);
    images.push((whole, same_sum));
    spoiled(
        "Form B with a byte that is not zero at the first, the last and other places of the zeros.",
        images,
        Expect::Field,
    )
}

/// Makes images whose bytes add up to 65,536 and more.
fn large_sums() -> Group {
    let mut cases = vec![];
    for byte in [0xFF, 0x80, 0x7C] {
        let mut bytes = vec![byte; LENGTH];
        bytes[..4].copy_from_slice(&[0xF0, 0x78, 0x3C, 0x1E]);
        cases.push(Case {
            bytes: summed(bytes.clone()),
            expect: Expect::Field,
        });
        cases.push(Case {
            bytes: with_sum(bytes, 0xFFFF),
            expect: Expect::Sum,
        });
    }
    Group {
        about: "The four first bytes of form B, then one byte up to a sum beyond 65,535.",
        cases,
    }
}

fn lengths() -> Group {
    let mut images = vec![];
    for whole in [DraftB::new(0, &[], &[]), DraftB::small()] {
        for length in [0, 4, 16, 51, 530, 531, 533, 536, 1064] {
            let mut bytes = whole.bytes();
            bytes.resize(length, 0);
            images.push(bytes);
        }
        let bytes = whole.bytes();
        images.push([&[0][..], &bytes[..LENGTH - 1]].concat());
        images.push([&bytes[1..], &[0]].concat());
    }
    Group::all(
        Expect::Form,
        "Form B cut, extended by zeros or shifted.",
        images,
    )
}

/// Changes one byte in front of the sum, any at all or one before the zeros.
fn change_one(rng: &mut Rng, draft: &DraftB) -> (usize, Vec<u8>) {
    let used = draft.used().len();
    let mut bytes = draft.bytes();
    let place = match rng.below(8) {
        0 => rng.place(SUM_AT),
        1 => rng.place(16),
        _ => 4 + rng.place(used - 4),
    };
    bytes[place] = match rng.below(4) {
        0 => bytes[place].wrapping_add(1),
        1 => bytes[place].wrapping_sub(1),
        2 => bytes[place] ^ (1 << rng.below(8)),
        _ => rng.other_byte(bytes[place]),
    };
    (place, bytes)
}

fn one_byte() -> Group {
    let mut rng = Rng::new(512);
    let cases = (0..40).map(|_| {
        let draft = DraftB::of_any_size(&mut rng);
        let (place, bytes) = change_one(&mut rng, &draft);
        let expect = match place {
            0..4 => Expect::Form,
            _ => Expect::Sum,
        };
        Case { bytes, expect }
    });
    Group {
        about: "One byte of form B changed at random, with the sum as it was.",
        cases: cases.collect(),
    }
}

fn one_byte_summed() -> Group {
    let mut rng = Rng::new(513);
    Group::all(
        Expect::Either,
        "One byte of form B changed at random, with the right sum; some are still well formed.",
        (0..120).map(|_| {
            let draft = DraftB::of_any_size(&mut rng);
            let (_, bytes) = change_one(&mut rng, &draft);
            summed(bytes)
        }),
    )
}

fn close_together() -> Group {
    let mut rng = Rng::new(514);
    Group::all(
        Expect::Either,
        "Form B with blocks that lie close together, so that some stand twice.",
        (0..40).map(|_| {
            let from = rng.pick(&[0, 250, 4920, 9708]);
            let (spares, bads) = (rng.place(7), rng.place(7));
            let spares: Vec<u32> = (0..spares)
                .map(|_| match rng.below(4) {
                    0 => DEAD,
                    _ => from + rng.below(20),
                })
                .collect();
            let bads: Vec<u32> = (0..bads).map(|_| from + rng.below(20)).collect();
            DraftB::of(&Draft::new(&spares, &bads), &mut rng).bytes()
        }),
    )
}
