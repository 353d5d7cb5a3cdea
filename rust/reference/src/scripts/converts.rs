//! Converts: either form into the other, every refusal, and lengths (document 02,
//! request 6).

use super::bench::Bench;
use super::form_b::cases;
use super::ways;
use super::Stored;
use crate::controller::{Answer, Code, Phase};
use crate::drive::Call;
use crate::image::{Fault, DEAD};
use crate::images::draft::Draft;
use crate::images::draft_b::{summed, with_sum, DraftB};
use crate::images::{of_form_a, Expect};
use crate::rng::Rng;
use crate::text::show_bytes;

pub fn all() -> Vec<Stored> {
    vec![
        Stored::new("convert", converts()),
        Stored::new("convert-refused-6", refused_form()),
        Stored::new("convert-refused-7", refused_sum()),
        Stored::new("convert-refused-8", refused_content()),
        Stored::new("convert-random", random()),
        Stored::new("convert-lengths", lengths()),
        Stored::new("convert-any-time", any_time()),
    ]
}

/// The longest spelling of an image that is taken from the cases.
const SHORT: usize = 230;

fn converts() -> Bench {
    let mut bench = Bench::new("Either form into the other, before any start.");
    bench.note("A to B to A: the first image.");
    let mut rng = Rng::new(611);
    let mut of_a = vec![Draft::new(&[], &[]), Draft::small()];
    for (spares, bads) in [(1, 0), (0, 1), (32, 0), (0, 100), (32, 100)] {
        of_a.push(Draft::of_size(&mut rng, spares, bads));
    }
    of_a.push(Draft::new(&[DEAD; 32], &[]));
    of_a.push(Draft::new(&[0], &[0]));
    for draft in of_a {
        let there = bench.converted(&draft.bytes());
        assert_eq!(there[4..8], [0; 4]);
        let back = bench.converted(&there);
        assert_eq!(back, draft.bytes());
    }
    bench.note("B to A drops the past, and it does not come back.");
    for image in cases(|expect| expect == Expect::Table, 6, SHORT) {
        let there = bench.converted(&image);
        let back = bench.converted(&there);
        assert_eq!(bench.converted(&back), there);
    }
    let full = DraftB::of_size(&mut rng, 32, 100);
    assert_eq!(bench.converted(&full.bytes()), full.form_a().bytes());
    bench
}

/// Converts bytes and meets this refusal.
#[track_caller]
fn refuse(bench: &mut Bench, image: &[u8], code: Code) {
    bench.convert(image);
    bench.refused(code);
}

/// Converts the cases of form B that are to be refused so, as far as they are short.
fn refuse_cases(bench: &mut Bench, expect: Expect, code: Code) {
    for image in cases(|found| found == expect, usize::MAX, SHORT) {
        refuse(bench, &image, code);
    }
}

fn refused_form() -> Bench {
    let mut bench = Bench::new("Neither form: 6. Form A with each clause broken is never 8.");
    for group in of_form_a() {
        let fitting = group.cases.iter().filter(|case| {
            let short = show_bytes(&case.bytes).len() <= SHORT;
            case.expect == Expect::Form && case.bytes.len() == 532 && short
        });
        for case in fitting.take(5) {
            refuse(&mut bench, &case.bytes, Code::Form);
        }
    }
    bench.note("Form B but for its four first bytes, the sum right and wrong.");
    refuse_cases(&mut bench, Expect::Form, Code::Form);
    bench
}

fn refused_sum() -> Bench {
    let mut bench = Bench::new("Form B with a wrong sum: 7, and each clause broken with it.");
    refuse_cases(&mut bench, Expect::Sum, Code::Sum);
    refuse(&mut bench, &with_sum(sized(33, 0), 7), Code::Sum);
    refuse(&mut bench, &with_sum(sized(32, 100), 7), Code::Sum);
    bench
}

fn refused_content() -> Bench {
    let mut bench = Bench::new("Form B with each clause broken alone, and the right sum: 8.");
    refuse_cases(&mut bench, Expect::Field, Code::Field);
    bench.note("A count of 33 or 101 with as many entries; 32 and 100 are right.");
    for (spares, bads) in [(33, 0), (0, 101), (33, 100), (32, 101)] {
        refuse(&mut bench, &sized(spares, bads), Code::Field);
    }
    bench.converted(&sized(32, 0));
    bench.converted(&sized(0, 100));
    bench.converted(&sized(32, 100));
    bench
}

/// Makes an image of form B with so many entries, all else well formed.
fn sized(spares: u32, bads: u32) -> Vec<u8> {
    let blocks = |count: u32| (256..256 + count).collect::<Vec<u32>>();
    let spares: Vec<(u32, u8)> = blocks(spares).iter().map(|&block| (block, 1)).collect();
    DraftB::new(3, &spares, &blocks(bads)).bytes()
}

/// Says what a convert of these bytes answers, by the reader.
fn answer_to(image: &[u8]) -> Answer {
    match crate::image::read(image) {
        Ok(_) => Answer::Wait,
        Err(Fault::Form) => Answer::Refused(Code::Form),
        Err(Fault::Sum) => Answer::Refused(Code::Sum),
        Err(Fault::Field(_)) => Answer::Refused(Code::Field),
    }
}

fn random() -> Bench {
    let mut bench = Bench::new("Images of either form with random damage.");
    let mut rng = Rng::new(612);
    for _ in 0..120 {
        let spares = rng.place(5);
        let bads = rng.place(5);
        let draft = DraftB::of_size(&mut rng, spares, bads);
        let of_b = !rng.one_in(4);
        let mut bytes = match of_b {
            true => draft.bytes(),
            false => draft.form_a().bytes(),
        };
        for _ in 0..rng.below(3) {
            let place = match rng.below(4) {
                0 => rng.place(532),
                _ => 4 + rng.place(40),
            };
            bytes[place] = match rng.below(3) {
                0 => rng.byte(),
                1 => bytes[place].wrapping_add(1),
                _ => bytes[place] ^ (1 << rng.below(8)),
            };
        }
        if of_b && !rng.one_in(3) {
            bytes = summed(bytes);
        }
        bench.convert(&bytes);
        bench.said(answer_to(&bytes));
    }
    bench
}

fn lengths() -> Bench {
    let mut bench = Bench::new("Lengths other than 532, of either buffer or of both: 2.");
    let whole = DraftB::small();
    let mut wrong_sum = whole.bytes();
    wrong_sum[531] ^= 1;
    let images = [
        whole.bytes(),
        whole.form_a().bytes(),
        wrong_sum,
        whole.with(|it| it.spare_offset = 17).bytes(),
        vec![0; 532],
    ];
    for image in &images {
        bench.skipped("");
        for length in [0, 1, 531, 533, 536, 600] {
            bench.lend(Some(length), Call::Convert(image.clone()));
            bench.refused(Code::Buffer);
        }
        for length in [0, 4, 26, 530, 531, 533, 536, 1064] {
            let mut other = image.clone();
            other.resize(length, 0);
            refuse(&mut bench, &other, Code::Buffer);
            bench.lend(Some(length.min(600)), Call::Convert(other));
            bench.refused(Code::Buffer);
        }
        bench.lend(Some(532), Call::Convert(image.clone()));
        bench.said(answer_to(image));
    }
    bench
}

fn any_time() -> Bench {
    let mut bench = Bench::new("A convert has no record: it is in place in every phase.");
    let small = DraftB::new(9, &[(17, 1)], &[5]);
    for way in ways::quiet()
        .iter()
        .chain(&ways::reading())
        .chain(&ways::writing())
    {
        bench.note(way.name);
        way.enter(&mut bench);
        let of_a = bench.converted(&small.bytes());
        refuse(&mut bench, &[0xF0; 532], Code::Form);
        bench.lend(Some(536), Call::Convert(of_a));
        bench.refused(Code::Buffer);
        match bench.drive.record.phase {
            Phase::Idle | Phase::Command | Phase::Data => bench.raise(),
            Phase::Offered(_) => bench.lower(0x55),
            _ => bench.good(),
        };
    }
    bench
}
