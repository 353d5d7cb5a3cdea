//! Images that break one clause outside the entries: fixed bytes, counts, end
//! marks, zeros, length.

use super::draft::{distinct, Draft};
use super::{Expect, Group};
use crate::geometry::BLOCKS;
use crate::image::{DEAD, LENGTH};
use crate::rng::Rng;

pub fn groups() -> Vec<Group> {
    vec![
        fixed_bytes(),
        fixed_parts(),
        counts_too_large(),
        counts_beyond(),
        counts_off_by_one(),
        end_marks_changed(),
        end_marks_missing(),
        zeros(),
        lengths(),
        no_image_at_all(),
    ]
}

fn none(about: &'static str, images: impl IntoIterator<Item = Vec<u8>>) -> Group {
    Group::all(Expect::Form, about, images)
}

fn full(rng: &mut Rng) -> Draft {
    Draft::of_size(rng, 32, 100)
}

fn fixed_bytes() -> Group {
    let mut rng = Rng::new(201);
    let mut images = vec![];
    for place in 0..24 {
        let draft = match place % 2 {
            0 => Draft::new(&[], &[]),
            _ => Draft::small(),
        };
        images.push(draft.with(|it| it.fixed[place] = rng.other_byte(it.fixed[place])));
    }
    none(
        "Each of the 24 fixed bytes changed.",
        images.iter().map(Draft::bytes),
    )
}

fn fixed_parts() -> Group {
    let changes: [(usize, &[u8]); 10] = [
        (0, b"profile"),
        (0, b" PROFILE     "),
        (7, &[0; 6]),
        (13, b"   "),
        (16, &[0x90, 0x03]),
        (16, &[0x03, 0x98]),
        (18, &[0x00, 0x00, 0x26]),
        (18, &[0x00, 0x4C, 0x00]),
        (21, &[0x14, 0x02]),
        (21, &[0x02, 0x00]),
    ];
    let images = changes.map(|(place, part)| {
        let changed = |it: &mut Draft| it.fixed[place..place + part.len()].copy_from_slice(part);
        Draft::small().with(changed).bytes()
    });
    none(
        "A part of the fixed bytes replaced: lower-case name, other revision, other numbers.",
        images,
    )
}

fn counts_too_large() -> Group {
    let mut rng = Rng::new(202);
    let mut sized = |spares, bads| {
        let spares = distinct(&mut rng, spares, 0, BLOCKS);
        let bads = distinct(&mut rng, bads, 0, BLOCKS);
        Draft::new(&spares, &bads).bytes()
    };
    let images = vec![
        sized(33, 0),
        sized(33, 3),
        sized(33, 100),
        sized(34, 0),
        sized(64, 1),
        sized(100, 32),
        sized(128, 0),
        Draft::new(&[DEAD; 33], &[]).bytes(),
        Draft::new(&[DEAD; 128], &[5]).bytes(),
        Draft::new(&[DEAD; 166], &[]).bytes(),
        sized(0, 101),
        sized(5, 101),
        sized(32, 101),
        sized(0, 102),
        sized(0, 128),
        sized(0, 166),
        sized(33, 101),
    ];
    none(
        "Counts above 32 and 100 with as many entries, all else well formed.",
        images,
    )
}

fn counts_beyond() -> Group {
    let mut images = vec![];
    for draft in [Draft::new(&[], &[]), Draft::small()] {
        for count in [128, 169, 255] {
            images.push(draft.with(|it| it.spare_count = count));
            images.push(draft.with(|it| it.bad_count = count));
        }
        images.push(draft.with(|it| (it.spare_count, it.bad_count) = (255, 255)));
    }
    let mut images: Vec<Vec<u8>> = images.iter().map(Draft::bytes).collect();
    // Entries up to the very end, with no room for end marks.
    for count in [168, 169, 255] {
        let dead = [0xFF, 0xFF, 0xFE].repeat(169);
        let mut spares = Draft::new(&[], &[]).bytes();
        spares[24] = count;
        spares[26..].copy_from_slice(&dead[..LENGTH - 26]);
        images.push(spares);
        let mut bads = Draft::new(&[], &[]).bytes();
        bads[25] = count;
        bads[29..].fill(0);
        images.push(bads);
    }
    none(
        "Counts up to 255 with few entries, or with entries up to the last byte.",
        images,
    )
}

fn counts_off_by_one() -> Group {
    let mut rng = Rng::new(203);
    let mut images = vec![];
    for draft in [
        Draft::new(&[], &[]),
        Draft::new(&[300], &[]),
        Draft::new(&[], &[300]),
        Draft::new(&[DEAD], &[0]),
        Draft::small(),
        full(&mut rng),
    ] {
        let (spares, bads) = (draft.spare_count, draft.bad_count);
        let counts = [
            (spares.wrapping_sub(1), bads),
            (spares.wrapping_add(1), bads),
            (spares, bads.wrapping_sub(1)),
            (spares, bads.wrapping_add(1)),
        ];
        images.extend(counts.map(|counts| {
            let changed = |it: &mut Draft| (it.spare_count, it.bad_count) = counts;
            draft.with(changed).bytes()
        }));
    }
    for counts in [(2, 4), (4, 2), (1, 5)] {
        let changed = |it: &mut Draft| (it.spare_count, it.bad_count) = counts;
        let draft = Draft::new(&[1, 2, 3], &[4, 5, 6]);
        images.push(draft.with(changed).bytes());
    }
    none(
        "Counts one less or one more than the entries (0 less one is 255), or both off.",
        images,
    )
}

fn end_marks_changed() -> Group {
    let mut rng = Rng::new(204);
    let mut images = vec![];
    for (draft, value) in [
        (Draft::new(&[], &[]), 0x00),
        (Draft::small(), 0xFE),
        (Draft::small(), rng.other_byte(0xFF)),
        (full(&mut rng), 0x7F),
    ] {
        for place in 0..3 {
            images.push(draft.with(|it| it.spare_end[place] = value));
            images.push(draft.with(|it| it.bad_end[place] = value));
        }
    }
    none(
        "Each byte of each FF FF FF changed.",
        images.iter().map(Draft::bytes),
    )
}

fn end_marks_missing() -> Group {
    let mut images = vec![];
    for draft in [Draft::new(&[], &[]), Draft::small()] {
        images.push(draft.with(|it| it.spare_end.clear()));
        images.push(draft.with(|it| it.bad_end.clear()));
        images.push(draft.with(|it| {
            it.spare_end.clear();
            it.bad_end.clear();
        }));
        images.push(draft.with(|it| it.spare_end = vec![0; 3]));
        images.push(draft.with(|it| it.bad_end = vec![0; 3]));
        images.push(draft.with(|it| it.spare_end = vec![0xFF; 6]));
        images.push(draft.with(|it| it.bad_end = vec![0xFF; 6]));
    }
    for (first, second) in [(2, 3), (4, 3), (3, 2), (3, 4), (2, 4), (4, 2)] {
        images.push(Draft::small().with(|it| {
            it.spare_end = vec![0xFF; first];
            it.bad_end = vec![0xFF; second];
        }));
    }
    none(
        "The first FF FF FF or the second or both missing, zero, doubled, short or long.",
        images.iter().map(Draft::bytes),
    )
}

fn zeros() -> Group {
    let mut rng = Rng::new(205);
    let mut images = vec![];
    for draft in [Draft::new(&[], &[]), Draft::small(), full(&mut rng)] {
        let first = draft.used().len();
        let mut places = vec![first, LENGTH - 1];
        for _ in 0..3 {
            places.push(first + rng.place(LENGTH - first));
        }
        for place in places {
            let mut bytes = draft.bytes();
            bytes[place] = rng.pick(&[0x01, 0x80, 0xFF, 0x20, 0x55]);
            images.push(bytes);
        }
        let mut bytes = draft.bytes();
        bytes[first..].fill(0xFF);
        images.push(bytes);
    }
    none(
        "A byte that is not zero at the first, the last and other places of the zeros.",
        images,
    )
}

fn lengths() -> Group {
    let mut rng = Rng::new(206);
    let mut images = vec![];
    let mut cut = |draft: &Draft, length| {
        let mut bytes = draft.bytes();
        bytes.resize(length, 0);
        images.push(bytes);
    };
    let empty = Draft::new(&[], &[]);
    for length in [0, 1, 24, 25, 26, 29, 32, 531, 533, 1064, 4096] {
        cut(&empty, length);
    }
    let small = Draft::small();
    for length in [25, 26, 62, 531, 533, 4096] {
        cut(&small, length);
    }
    let full = full(&mut rng);
    for length in [428, 531, 533] {
        cut(&full, length);
    }
    let small = small.bytes();
    images.extend([
        [&small[..], &[0xFF]].concat(),
        [&small[..], &small].concat(),
        [&[0; 4][..], &small].concat(),
        [&[0][..], &small[..LENGTH - 1]].concat(),
        [&small[1..], &[0]].concat(),
    ]);
    none(
        "Well-formed images cut, extended by zeros, doubled or shifted.",
        images,
    )
}

fn no_image_at_all() -> Group {
    let mut rng = Rng::new(207);
    let mut images = vec![];
    for byte in [0x00, 0xFF, 0x20] {
        images.push(vec![byte; LENGTH]);
    }
    images.push((0..LENGTH).map(|_| rng.byte()).collect());
    let mut bytes = Draft::new(&[], &[]).bytes();
    bytes[26..].fill_with(|| rng.byte());
    images.push(bytes);
    none(
        "All zeros, all FF and other bytes that are no image at all.",
        images,
    )
}
