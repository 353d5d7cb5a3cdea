//! The causes of spare entries (document 02, request 6): of live ones, of dead ones,
//! and of old ones whose block moved on.

use super::bench::{Bench, TABLE_IMAGE};
use super::Stored;
use crate::controller::{Answer, Offer, TRIAL_REREADS};
use crate::geometry::TABLE;
use crate::image::DEAD;
use crate::images::draft_b::DraftB;

pub fn all() -> Vec<Stored> {
    vec![
        Stored::new("causes-of-live", of_live()),
        Stored::new("causes-of-live-by-trial", of_live_by_trial()),
        Stored::new("causes-of-dead", of_dead()),
        Stored::new("causes-of-dead-by-settle", of_dead_by_settle()),
        Stored::new("causes-of-moved-on", of_moved_on()),
        Stored::new("causes-that-stay", that_stay()),
        Stored::new("causes-together", together()),
    ]
}

/// What is written.
const DATA: [u8; 532] = [0x6A; 532];

/// Other bytes.
const OTHER: [u8; 532] = [0x6B; 532];

/// Makes the trial whose write is awaited: the write is done, and the rereads are
/// answered in this way, c by a CRC error, t by a timeout, o with other bytes; the
/// rest of the hundred is good.
fn trial(bench: &mut Bench, answers: &str) -> Answer {
    bench.good();
    for answer in answers.chars() {
        match answer {
            'c' => bench.crc(0x6C),
            't' => bench.timeout(),
            'o' => bench.surface(0, &OTHER),
            _ => bench.good(),
        };
    }
    bench.good_rereads(TRIAL_REREADS - answers.len() as u32)
}

/// Joins 30 failures of one kind and one of another, by which a trial fails.
fn thirty_and(most: &str, last: &str) -> String {
    most.repeat(30) + last
}

fn of_live() -> Bench {
    let mut bench = Bench::new("A live entry has the last failure before its spare was tried.");
    bench.started(&[], &[]);
    bench.note("A plain write times out. CRC errors on the spare itself do not count.");
    bench.write(20, &DATA);
    bench.timeout();
    bench.said_write(4928);
    trial(&mut bench, "ccc");
    bench.stored();
    bench.said(Answer::Finished);
    bench.history_is(1, &[(20, 2)]);
    bench.note("The first write of a write/verify times out.");
    bench.verify(21, &DATA);
    bench.timeout();
    trial(&mut bench, "oc");
    bench.stored();
    bench.said(Answer::Finished);
    bench.history_is(2, &[(20, 2), (21, 2)]);
    bench.note("A first verify fails with a CRC error; then the trial's write times out.");
    bench.verify(22, &DATA);
    bench.good();
    bench.crc(0x6C);
    bench.said_write(22);
    bench.timeout();
    trial(&mut bench, "");
    bench.stored();
    bench.said(Answer::Finished);
    bench.history_is(3, &[(20, 2), (21, 2), (22, 2)]);
    bench.note("A read meets CRC errors, and the write of its trial times out.");
    bench.read(23, 0, 0);
    bench.crc(0x6D);
    bench.good();
    bench.said_write(23);
    bench.timeout();
    trial(&mut bench, "c");
    bench.stored();
    bench.said(Answer::Finished);
    let spares = [(20, 2), (21, 2), (22, 2), (23, 2)];
    bench.history_is(4, &spares);
    bench.note("Until the spare has passed there is no entry.");
    bench.write(24, &DATA);
    bench.timeout();
    bench.good();
    bench.good_rereads(99);
    bench.history_is(4, &spares);
    bench.good();
    bench.history_is(5, &[&spares[..], &[(24, 2)]].concat());
    bench
}

fn of_live_by_trial() -> Bench {
    let mut bench = Bench::new("Live entries after a trial that failed: its last failure counts.");
    bench.started(&[], &[30, 31, 32, 33]);
    let mut spares = vec![];
    for (block, answers, cause) in [
        (30, thirty_and("t", "c"), 1),
        (31, thirty_and("c", "t"), 2),
        (32, thirty_and("t", "o"), 1),
        (33, thirty_and("o", "t"), 2),
    ] {
        bench.note(&format!("The last failure has cause {cause}."));
        bench.verify(block, &DATA);
        bench.said_write(block);
        trial(&mut bench, &answers);
        trial(&mut bench, if cause == 1 { "t" } else { "c" });
        bench.stored();
        bench.said(Answer::Finished);
        spares.push((block, cause));
        let run = spares.len() as u32;
        bench.history_is(run, &spares);
    }
    bench
}

fn of_dead() -> Bench {
    let mut bench = Bench::new("A dead entry has the last failure on its own spare.");
    bench.started(&[], &[]);
    bench.write(40, &DATA);
    bench.timeout();
    let mut spares = vec![];
    for (answers, cause) in [
        (Some(thirty_and("t", "c")), 1),
        (Some(thirty_and("c", "t")), 2),
        (Some(thirty_and("t", "o")), 1),
        (None, 2),
        // All hundred fail, so that the last reread is not good.
        (Some("c".repeat(99) + "t"), 2),
        (Some("t".repeat(99) + "c"), 1),
    ] {
        bench.said_write(4928 + spares.len() as u32);
        match answers {
            Some(answers) => {
                bench.note(&format!("By its trial: cause {cause}."));
                trial(&mut bench, &answers);
            }
            None => {
                bench.note("By the timeout of its write: cause 2.");
                bench.timeout();
            }
        }
        spares.push((DEAD, cause));
        bench.history_is(0, &spares);
    }
    bench.note("The live entry after them has the last failure on the last of them.");
    trial(&mut bench, "t");
    bench.said(Answer::Store);
    spares.push((40, 1));
    bench.history_is(1, &spares);
    bench.good();
    bench.said(Answer::Finished);
    bench.restarted();
    bench.history_is(1, &spares);
    bench
}

fn of_dead_by_settle() -> Bench {
    let mut bench =
        Bench::new("A spare that is dead by answer 3 has cause 3, whatever came before.");
    for answers in [None, Some(""), Some("cc"), Some("tot")] {
        let words = match answers {
            None => String::from("In its write."),
            Some(answers) => format!("In its rereads, after {}.", answers.len()),
        };
        bench.note(&words);
        bench.started_b(&DraftB::new(6, &[(8, 1)], &[]));
        bench.write(50, &DATA);
        bench.timeout();
        bench.said_write(4929);
        if let Some(answers) = answers {
            bench.good();
            for answer in answers.chars() {
                match answer {
                    'c' => bench.crc(0x6C),
                    'o' => bench.surface(0, &OTHER),
                    _ => bench.timeout(),
                };
            }
        }
        bench.no_settle();
        bench.said(Answer::Finished);
        bench.history_is(6, &[(8, 1), (DEAD, 3)]);
    }
    bench.note("After a spare that died by a CRC error.");
    bench.started_b(&DraftB::new(6, &[(8, 1)], &[]));
    bench.write(51, &DATA);
    bench.timeout();
    trial(&mut bench, &thirty_and("c", "c"));
    bench.no_settle();
    bench.said(Answer::Finished);
    bench.history_is(6, &[(8, 1), (DEAD, 1), (DEAD, 3)]);
    bench.note("FFFFFF shows form A under the latch, too.");
    bench.read(TABLE_IMAGE, 0, 0);
    bench.said(Answer::Finished);
    bench.image();
    bench
}

fn of_moved_on() -> Bench {
    let mut bench =
        Bench::new("An old entry that is killed has the last failure on its own spare.");
    bench.note("The block's spare fails by CRC errors, the next by a timeout; the block's new");
    bench.skipped("# entry has the latter, and the old one the former.");
    bench.started_b(&DraftB::new(1, &[(8, 3), (60, 3)], &[60]));
    bench.verify(60, &DATA);
    bench.said_write(4929);
    trial(&mut bench, &thirty_and("t", "c"));
    bench.said_write(4930);
    bench.timeout();
    bench.history_is(1, &[(8, 3), (60, 3), (DEAD, 2)]);
    trial(&mut bench, "c");
    bench.stored();
    bench.said(Answer::Finished);
    bench.history_is(2, &[(8, 3), (DEAD, 1), (DEAD, 2), (60, 2)]);

    bench.note("The other way round: a timeout there, other bytes in between.");
    bench.started_b(&DraftB::new(1, &[(60, 1)], &[]));
    bench.write(60, &DATA);
    bench.said_write(4928);
    bench.timeout();
    trial(&mut bench, &thirty_and("t", "o"));
    bench.history_is(1, &[(60, 1), (DEAD, 1)]);
    bench.said_write(4930);
    trial(&mut bench, "t");
    bench.stored();
    bench.said(Answer::Finished);
    bench.history_is(2, &[(DEAD, 2), (DEAD, 1), (60, 1)]);

    bench.note("With no spare in between both have the same failure, and not the former cause.");
    for former in [0, 1, 2, 3] {
        bench.started_b(&DraftB::new(1, &[(60, former)], &[]));
        bench.write(60, &DATA);
        bench.timeout();
        trial(&mut bench, if former == 2 { "c" } else { "" });
        bench.stored();
        bench.said(Answer::Finished);
        bench.history_is(2, &[(DEAD, 2), (60, 2)]);
    }
    bench
}

fn that_stay() -> Bench {
    let mut bench = Bench::new("Causes that stay: the block keeps its spare.");
    let spares = [(8, 1), (70, 3)];
    bench.started_b(&DraftB::new(1, &spares, &[70]));
    bench.note("It is read and written there, with failures that move nothing.");
    bench.read(70, 1, 2);
    bench.timeout();
    bench.crc(0x6C);
    bench.good();
    bench.said(Answer::Finished);
    bench.write(70, &DATA);
    bench.said_write(4929);
    trial(&mut bench, "ctc");
    bench.stored();
    bench.said(Answer::Finished);
    bench.history_is(2, &spares);
    bench.note("Answer 3 on its present spare.");
    bench.verify(70, &DATA);
    bench.good();
    bench.no_settle();
    bench.said(Answer::Finished);
    bench.history_is(2, &spares);
    bench.note("No spare is left: the last one dies, the old entry keeps its cause.");
    let mut spares = vec![(DEAD, 0); 31];
    spares[5] = (71, 3);
    bench.started_b(&DraftB::new(1, &spares, &[71]));
    bench.verify(71, &DATA);
    bench.said_write(4933);
    trial(&mut bench, &thirty_and("c", "c"));
    bench.said_write(4959);
    trial(&mut bench, &thirty_and("c", "t"));
    bench.ended([0x0D, 0x40, 0x80, 0]);
    spares.push((DEAD, 2));
    bench.history_is(2, &spares);
    bench.note("A command that was broken off by a start leaves nothing to the next.");
    bench.started_b(&DraftB::new(1, &[(72, 1)], &[]));
    bench.read(73, 3, 1);
    bench.crc(0x6C);
    bench.crc(0x6C);
    bench.restarted();
    bench.write(72, &DATA);
    bench.timeout();
    trial(&mut bench, "");
    bench.stored();
    bench.said(Answer::Finished);
    bench.history_is(2, &[(DEAD, 2), (72, 2)]);
    bench
}

fn together() -> Bench {
    let mut bench = Bench::new("Entries with all causes, stored, read again and shown in form A.");
    bench.started(&[], &[]);
    bench.note("A live entry after a CRC error, a dead one by a timeout, a live one after it.");
    bench.read(80, 0, 0);
    bench.timeout();
    bench.good();
    trial(&mut bench, &thirty_and("t", "c"));
    trial(&mut bench, "");
    bench.stored();
    bench.said(Answer::Finished);
    bench.write(81, &DATA);
    bench.timeout();
    bench.timeout();
    trial(&mut bench, "");
    bench.stored();
    bench.said(Answer::Finished);
    let mut spares = vec![(80, 1), (DEAD, 2), (81, 2)];
    bench.history_is(2, &spares);
    bench.note("A spare dead by answer 3; the latch lets no store through.");
    bench.write(82, &DATA);
    bench.timeout();
    bench.no_settle();
    bench.said(Answer::Finished);
    spares.push((DEAD, 3));
    bench.history_is(2, &spares);
    bench.raise();
    bench.said(Answer::Offer(Offer::Command));
    bench.lower(0);
    bench.note("A start finds what the last store had.");
    bench.restarted();
    spares.pop();
    bench.history_is(2, &spares);
    bench.note("Block 80 moves on.");
    bench.write(80, &DATA);
    bench.said_write(4928);
    bench.timeout();
    trial(&mut bench, "c");
    bench.said(Answer::Store);
    spares[0] = (DEAD, 2);
    spares.push((80, 2));
    bench.history_is(3, &spares);
    bench.good();
    let stored = DraftB::new(3, &spares, &[]);
    let held = bench.sectors().get(TABLE).expect("an image");
    assert_eq!(held[..], stored.bytes());
    bench.note("FFFFFF in form A, and the stored image converted: the same bytes.");
    bench.read(TABLE_IMAGE, 0, 0);
    bench.said(Answer::Finished);
    let of_a = bench.converted(&stored.bytes());
    assert_eq!(bench.drive.data(), of_a);
    bench.restarted();
    bench.history_is(3, &spares);
    bench
}
