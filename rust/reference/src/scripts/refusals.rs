//! Refused calls: lengths, places, surface answers and their bytes, and the
//! order in which the codes are tested.

use super::bench::{Bench, WRONG_LENGTHS};
use super::ways::{quiet, reading, writing, Way, BLOCK, DATA};
use super::Stored;
use crate::controller::{Answer, Code, Offer, Phase, GO_ON};
use crate::drive::Call;

pub fn all() -> Vec<Stored> {
    vec![
        Stored::new("out-of-place", out_of_place()),
        Stored::new("answers-to-reads", answers_to_reads()),
        Stored::new("answers-to-writes", answers_to_writes()),
        Stored::new("lengths", lengths()),
    ]
}

/// Whether a call is in place, as the table of codes has it.
fn in_place(phase: Phase, call: &Call) -> bool {
    let busy = phase.awaited().is_some();
    match call {
        Call::Start => true,
        Call::Image => !matches!(phase, Phase::Starting { .. }),
        Call::Surface(..) => busy,
        Call::Reset => !busy,
        Call::Raise => matches!(phase, Phase::Idle | Phase::Command | Phase::Data),
        Call::Lower(_) => matches!(phase, Phase::Offered(_)),
        Call::Feed(_) => matches!(phase, Phase::Command | Phase::Data),
        // It has no record.
        Call::Convert(_) => true,
    }
}

fn some_calls() -> Vec<Call> {
    vec![
        Call::Raise,
        Call::Lower(GO_ON),
        Call::Lower(0),
        Call::Feed(vec![]),
        Call::Feed(vec![1, 2, 3]),
        Call::Surface(2, vec![]),
        Call::Surface(9, vec![7]),
        Call::Reset,
        Call::Image,
    ]
}

fn out_of_place() -> Bench {
    let mut bench =
        Bench::new("Calls out of place in every phase, and image; then the phase goes on.");
    for way in quiet().iter().chain(&reading()).chain(&writing()) {
        bench.note(way.name);
        way.enter(&mut bench);
        let phase = bench.drive.record.phase;
        for call in some_calls() {
            if !in_place(phase, &call) {
                bench.call(call);
                bench.refused(Code::Place);
            } else if call == Call::Image {
                bench.image();
                bench.said(Answer::Wait);
            }
        }
        go_on(&mut bench, phase);
    }
    bench
}

/// The next call of a host or a surface without trouble is taken.
fn go_on(bench: &mut Bench, phase: Phase) {
    match phase {
        Phase::Idle | Phase::Command | Phase::Data => bench.raise(),
        Phase::Offered(_) => bench.lower(GO_ON),
        _ => bench.good(),
    };
    assert!(bench.drive.record.phase != phase, "it went on");
}

/// Sets out from a phase with every wrong answer and every wrong number of
/// bytes, then goes on.
fn wrong_answers(bench: &mut Bench, way: &Way, read: bool) {
    bench.note(way.name);
    way.enter(bench);
    let phase = bench.drive.record.phase;
    for answer in [4, 255] {
        bench.surface(answer, &[]);
        bench.refused(Code::Answer);
        bench.surface(answer, &[1; 532]);
        bench.refused(Code::Answer);
    }
    if !read {
        for count in [0, 1, 532] {
            bench.surface(1, &[1; 532][..count]);
            bench.refused(Code::Answer);
        }
    }
    for answer in 0..4 {
        if answer == 1 && !read {
            continue;
        }
        let full = read && answer < 2;
        for count in [0, 531, 532, 533] {
            let right = if full { 532 } else { 0 };
            if count != right {
                bench.surface(answer, &vec![DATA; count]);
                bench.refused(Code::Bytes);
            }
        }
    }
    go_on(bench, phase);
}

fn answers_to_reads() -> Bench {
    let mut bench =
        Bench::new("Answers above 3 and wrong numbers of bytes while a read is awaited.");
    for way in reading() {
        wrong_answers(&mut bench, &way, true);
    }
    bench
}

fn answers_to_writes() -> Bench {
    let mut bench = Bench::new("Answers above 3, answer 1, and bytes while a write is awaited.");
    for way in writing() {
        wrong_answers(&mut bench, &way, false);
    }
    bench
}

fn lengths() -> Bench {
    let mut bench =
        Bench::new("Lent buffers of wrong lengths: code 2 comes before codes 3, 4 and 5.");
    for length in WRONG_LENGTHS {
        bench.lend(Some(length), Call::Start);
        bench.refused(Code::Buffer);
    }
    bench.lend(Some(536), Call::Start);
    bench.said_read(4960);
    bench.note("The start's read is still awaited.");
    for length in WRONG_LENGTHS {
        bench.lend(Some(length), Call::Start);
        bench.refused(Code::Buffer);
        bench.lend(Some(length), Call::Surface(3, vec![]));
        bench.refused(Code::Buffer);
    }
    bench.good();
    bench.note("In place but for the length, each call in turn; then with 536.");
    let way = [
        Call::Raise,
        Call::Lower(GO_ON),
        Call::Feed(vec![2, 0, 0, BLOCK as u8]),
        Call::Raise,
        Call::Lower(GO_ON),
        Call::Feed(vec![DATA; 532]),
        Call::Raise,
        Call::Lower(GO_ON),
        Call::Surface(0, vec![]),
        Call::Surface(0, vec![DATA; 532]),
        Call::Reset,
    ];
    for (call, length) in way.into_iter().zip(WRONG_LENGTHS.iter().cycle()) {
        bench.lend(Some(*length), call.clone());
        bench.refused(Code::Buffer);
        bench.lend(Some(535), call.clone());
        bench.refused(Code::Buffer);
        bench.lend(Some(537), call.clone());
        bench.refused(Code::Buffer);
        bench.lend(Some(536), call);
        assert!(bench.verdict().is_ok());
    }
    bench.said(Answer::Wait);
    assert_eq!(bench.drive.status(), [0, 0, 0x80, 0]);

    bench.note("Out of place and of a wrong length: 2.");
    for call in some_calls() {
        bench.lend(Some(600), call);
        bench.refused(Code::Buffer);
    }
    bench.raise();
    for call in some_calls() {
        bench.lend(Some(0), call);
        bench.refused(Code::Buffer);
    }
    bench.said(Answer::Refused(Code::Buffer));
    bench.lower(0);
    bench.note("A wrong answer with a wrong length: 2. Then 4, then 5, then it is taken.");
    bench.read(BLOCK, 0, 1);
    bench.lend(Some(532), Call::Surface(9, vec![1]));
    bench.refused(Code::Buffer);
    bench.surface(9, &[1]);
    bench.refused(Code::Answer);
    bench.surface(0, &[1]);
    bench.refused(Code::Bytes);
    bench.good();
    bench.finished([0, 0, 0x80, 0]);

    bench.note("Image is lent 532 bytes; 536 are wrong for it.");
    for length in [0, 1, 531, 533, 536, 600] {
        bench.lend(Some(length), Call::Image);
        bench.refused(Code::Buffer);
    }
    bench.lend(Some(532), Call::Image);
    bench.said(Answer::Wait);
    bench.started_without_table();
    bench.lend(Some(536), Call::Image);
    bench.refused(Code::Buffer);
    bench.lend(Some(532), Call::Image);
    bench.refused(Code::Place);
    bench.raise();
    bench.said(Answer::Offer(Offer::Command));
    bench
}
