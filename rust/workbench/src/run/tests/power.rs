//! Power cuts in a plan.

use super::*;
use crate::plan;

/// Runs a plan on a platter in memory that is as it expects. Hands back its output.
fn as_expected(plan: &str) -> String {
    let (ended, _, out) = played(plan, Settings::default());
    assert_eq!(ended, Ok(true), "{out}");
    out
}

/// Runs a plan that stops. Hands back the number of the line, and why.
fn stopped(plan: &str) -> (usize, String) {
    let (ended, number, _) = played(plan, Settings::default());
    (number, ended.expect_err(plan))
}

/// The line of an output that begins so.
fn line<'a>(out: &'a str, start: &str) -> &'a str {
    let found = out.lines().find(|line| line.starts_with(start));
    found.unwrap_or_else(|| panic!("{start}: {out}"))
}

/// Moves block 3, whose sector loses what is written to it, after 204 accesses; the 205th
/// is the store.
const MOVE: &str = "fault sector 3 writes all unreadable\nwrite-verify 3 \"one\"\n";

#[test]
fn the_drive_is_off_until_a_start() {
    let cut = "start\nfault sector 3 reads next 2 crc\npower fails at access 3\nread 3 5 1\n";
    let plan = format!("{cut}expect cut accesses 2\nstart\nread 3\nexpect good\n");
    let out = as_expected(&plan);
    assert_eq!(
        line(&out, "read 3"),
        "read 3: 2 reads, 2 CRC errors, power fails at read 3 (access 3)"
    );
    assert!(out.contains("  2 starts, 1 power cut, 1 command: 1 good, 0 failed\n"));
    for host in ["read 3", "table", "raise", "reset", "traffic 5", "health"] {
        let message = "the drive is off since the power failed in line 4: \
                       a line \"start\" comes first";
        let plan = format!("{cut}say off\n{host}\nstart\n");
        assert_eq!(stopped(&plan), (6, String::from(message)), "{host}");
    }
    let out = as_expected(cut);
    assert_eq!(line(&out, "  the drive"), "  the drive is off");
    assert!(out.ends_with("0 commands, 3 accesses, 0 moves, history: allowed\n"));
}

#[test]
fn what_a_write_leaves() {
    for (word, left, after) in [
        (
            "",
            "the sector keeps its old bytes",
            "compare 3 with \"one\"\n",
        ),
        (
            " old",
            "the sector keeps its old bytes",
            "compare 3 with \"one\"\n",
        ),
        (
            " new",
            "the sector has the new bytes",
            "compare 3 with \"two\"\n",
        ),
        (
            " unreadable",
            "the sector is unreadable",
            "read 3\nexpect failed\n",
        ),
    ] {
        let plan = format!(
            "start\nwrite 3 \"one\"\npower fails at access 1{word}\nwrite 3 \"two\"\n\
             expect cut accesses 0\nstart\n{after}"
        );
        let out = as_expected(&plan);
        let words = format!("write 3: power fails at write 3 (access 1), {left}\n");
        assert!(out.contains(&words), "{out}");
    }
}

#[test]
fn what_a_store_leaves() {
    for (word, left, found) in [
        (
            "",
            "the old table stays",
            "form B, run number 0, no spare used",
        ),
        (
            " new",
            "the new table is there",
            "form B, run number 1, 1 of 32 spares used",
        ),
    ] {
        let plan = format!(
            "start\nwrite 3 \"old\"\npower fails during the store{word}\n{MOVE}\
             expect cut not-stored accesses 204\nstart\nread 0\nexpect good\n"
        );
        let out = as_expected(&plan);
        let words = format!("power fails during the store (access 205), {left}");
        assert!(line(&out, "write-verify 3").ends_with(&words), "{out}");
        let found = format!("start: 1 read, table found: {found}, no bad block\n");
        assert!(out.contains(&found), "{out}");
        let trial =
            "  trial of spare 0 (sector 4928): 100 rereads, 0 failed, then the power failed";
        assert_eq!(trial_lines(&out)[1], trial);
    }
    let plan = format!(
        "start\npower fails during the store unreadable\n{MOVE}expect cut\nstart\n\
         expect accesses 10\nread 0..5\nexpect failed accesses 0\n"
    );
    let out = as_expected(&plan);
    let words = "power fails during the store (access 205), the table is unreadable";
    assert!(line(&out, "write-verify 3").ends_with(words), "{out}");
    assert!(out.contains("\nstart: 10 reads, 10 CRC errors, no table found\n"));
}

#[test]
fn every_access_is_counted_that_of_a_start_too() {
    let plan = "power fails at access 2\nfault sector 4960 reads next 1 crc\nstart\nexpect cut\n\
                start\nread 3\nexpect good\n";
    let out = as_expected(plan);
    assert_eq!(
        line(&out, "start: 1 read, 1"),
        "start: 1 read, 1 CRC error, power fails at read 4960 (access 2)"
    );
    // The store of the first move is the last access of its command.
    let plan = format!(
        "start\npower fails at access 206 unreadable\n{MOVE}expect good stored accesses 205\n\
         read 3\nexpect cut accesses 0\nstart\nread 3\nexpect good\n"
    );
    let out = as_expected(&plan);
    let words = "read 3: power fails at read 4928 (access 1)";
    assert_eq!(line(&out, "read 3"), words);
    assert!(!out.contains("unreadable sectors: 3, 4928"));
}

#[test]
fn a_cut_ends_a_line_of_blocks() {
    let plan = "start\npower fails at access 7\nwrite-verify 3..9 \"one\"\nexpect cut\n\
                expect good\nstart\npower fails at access 7\nread 3..9\nexpect cut\n";
    let (ended, _, out) = played(plan, Settings::default());
    assert_eq!(ended, Ok(false), "{out}");
    let part = "write-verify 4..5: 2 blocks, each 1 read, 1 write, good\n\
                write-verify 6: power fails at write 6 (access 1), the sector keeps its old bytes\n  \
                not reached: blocks 7..9\n  NOT as line 5 expects: good\n";
    assert!(out.contains(part), "{out}");
    let part = "read 9: power fails at read 9 (access 1)\n\nSummary\n";
    assert!(out.contains(part), "{out}");
    let one = as_expected("start\npower fails at access 2\nread 3..5\nexpect cut\n");
    assert!(one.contains("\n  not reached: block 5\n"), "{one}");
}

#[test]
fn a_cut_compare_says_nothing_of_blocks_that_were_not_read() {
    let plan = "start\nwrite 3..4 \"one\"\npower fails at access 2\ncompare 3..4 with \"one\"\n\
                expect cut\nstart\npower fails at access 2\ncompare 3..4 with \"two\"\nexpect cut\n";
    let (ended, _, out) = played(plan, Settings::default());
    assert_eq!(ended, Ok(false), "{out}");
    assert_eq!(out.matches(" are \"one\"").count(), 0);
    assert!(out.contains("\n  NOT \"two\": other bytes in 3\n"), "{out}");
    assert!(out.contains("  2 of 3 expectations met\n"), "{out}");
}

#[test]
fn a_cut_read_is_neither_kept_nor_dumped() {
    let folder = test_folder("cut-read");
    let plan = "start\npower fails at access 2\nread 3..4 to back.dat\nexpect cut\nstart\n\
                power fails at access 1\ndump 3\nexpect cut\n";
    let (ended, _, out) = played(plan, on(&folder.join("p")));
    assert_eq!(ended, Ok(true), "{out}");
    let words = "  not written to back.dat, since the power failed\n";
    assert!(out.contains(words), "{out}");
    assert!(!folder.join("back.dat").exists());
    assert!(out.contains("dump 3: power fails at read 3 (access 1)\n\nSummary"));
    fs::remove_dir_all(folder).expect("removed");
}

#[test]
fn a_platter_keeps_what_a_cut_left() {
    let folder = test_folder("cut-platter");
    let path = folder.join("p");
    let cut = "start\npower fails at access 1 unreadable\nwrite 3 \"one\"\n";
    let (ended, _, out) = played(cut, on(&path));
    assert_eq!(ended, Ok(true), "{out}");
    let list = fs::read_to_string(platter::unreadable_file(&path).expect("a name"));
    assert_eq!(list.expect("a list"), "3\n");
    let (ended, _, out) = played("start\nread 3\nexpect failed\n", on(&path));
    assert_eq!(ended, Ok(true), "{out}");
    fs::remove_dir_all(folder).expect("removed");
}

#[test]
fn a_cut_that_does_not_come_is_said() {
    let out = as_expected("start\npower fails at access 3\nread 3..4\n");
    let words = "  a power cut was ordered and did not come\n";
    assert!(out.contains(words), "{out}");
    let two = as_expected("power fails at access 9\npower fails during the store\nstart\n");
    assert!(two.contains("  2 power cuts were ordered and did not come\n"));
    let out = as_expected("start\npower fails at access 3\nfault clear\nread 3..5\nexpect good\n");
    assert!(!out.contains("power cut"), "{out}");
    let (ended, _, _) = played("start\nread 3\nexpect cut\n", Settings::default());
    assert_eq!(ended, Ok(false));
}

#[test]
fn a_cut_in_a_trace_and_in_a_picture() {
    let settings = Settings {
        trace: true,
        moments: true,
        ..Settings::default()
    };
    let plan = "start\npower fails at access 2 new\nwrite 3 \"one\"\nwrite 4 \"one\"\n";
    let mut out = vec![];
    let mut run = Run::new(settings, &mut out).expect("a platter");
    run.plan(plan.as_bytes()).expect("a plan");
    let (_, moments) = run.finish().expect("output");
    assert_eq!(moments[2].outcome, Outcome::Cut);
    assert!(moments[2].accesses.is_empty());
    let out = String::from_utf8(out).expect("text");
    let part = "    write sector 4: power fails, the sector has the new bytes\n";
    assert!(out.contains(part), "{out}");
}

#[test]
fn random_traffic_goes_on_after_cuts() {
    let plan = "fault random seed 5 rate 1/10\npower fails at access 500 unreadable\n\
                power fails at access 501\npower fails at access 4000 new\n\
                power fails during the store\nstart\n\
                traffic 3000 seed 2 blocks 4900..4999\nread 4900\n";
    let out = as_expected(plan);
    let words = line(&out, "traffic 3000: ");
    assert!(words.contains(", 4 power cuts, "), "{words}");
    assert!(out.ends_with("history: allowed\n"), "{out}");
}

#[test]
fn random_traffic_lives_through_a_hundred_cuts() {
    let words = ["old", "new"];
    let order = |k: usize| {
        let (access, word) = (11 + 131 * k, words[k % 2]);
        format!("power fails at access {access} {word}\n")
    };
    let orders: String = (0..100).map(order).collect();
    let plan =
        format!("fault random seed 7 rate 1/10\n{orders}start\ntraffic 4000 seed 4 blocks 0..49\n");
    let out = as_expected(&plan);
    let words = line(&out, "traffic 4000: ");
    assert!(words.contains(", 100 power cuts, "), "{words}");
    assert!(!out.contains("  no table\n"), "{out}");
    assert!(out.ends_with("history: allowed\n"), "{out}");
}

/// The figures of a row of the table of cuts.
fn figures(out: &str, row: &str) -> Vec<u32> {
    let words = line(out, &format!("  {row}  ")).split_whitespace();
    words.filter_map(|word| word.parse().ok()).collect()
}

/// Writes a file anew, in which a block moves, and reads it after a start.
const FRIDAY: &str = "start\nwrite 0..4 \"Monday\"\ncuts from here\n\
    fault sector 3 writes next 1 timeout\nwrite-verify 0..4 \"Friday\"\nexpect good\ntable\n\
    start\ncompare 0..4 with \"Friday\"\nexpect good\nread 0..4 to back.dat\ncuts to here\n\
    read 3\nexpect good accesses 1\n";

/// Its table: times; old places, new places, no table; old bytes, new bytes, failed reads;
/// right, lost, mixed and broken.
const FRIDAY_CUTS: [(&str, [u32; 11]); 8] = [
    ("at a read", [115, 103, 12, 0, 209, 366, 0, 115, 0, 0, 0]),
    ("at a write, old", [6, 5, 1, 0, 17, 13, 0, 6, 0, 0, 0]),
    ("at a write, new", [6, 5, 1, 0, 12, 18, 0, 6, 0, 0, 0]),
    (
        "at a write, unreadable",
        [6, 5, 1, 0, 12, 13, 5, 6, 0, 0, 0],
    ),
    ("during the store, old", [1, 1, 0, 0, 2, 3, 0, 1, 0, 0, 0]),
    ("during the store, new", [1, 0, 1, 0, 1, 4, 0, 1, 0, 0, 0]),
    (
        "during the store, unreadable",
        [1, 0, 0, 1, 0, 0, 5, 0, 1, 0, 0],
    ),
    ("all", [136, 119, 16, 1, 253, 417, 10, 135, 1, 0, 0]),
];

#[test]
fn lines_are_done_again_with_a_cut_at_each_access() {
    let folder = test_folder("cuts");
    let (ended, _, out) = played(FRIDAY, on(&folder.join("p")));
    assert_eq!(ended, Ok(true), "{out}");
    let first = "cuts to here: 122 accesses from line 3 to line 12, 136 power cuts";
    assert_eq!(line(&out, "cuts to"), first);
    for (row, wanted) in FRIDAY_CUTS {
        assert_eq!(figures(&out, row), wanted, "{row}");
    }
    let words = "  none is mixed, and every history is allowed\n";
    assert!(out.contains(words), "{out}");
    // The plan goes on as if there had been no cut, and nothing is counted of them.
    let words = "\n  2 starts, 21 commands: 21 good, 0 failed\n";
    assert!(out.contains(words), "{out}");
    fs::remove_dir_all(folder).expect("removed");
}

#[test]
fn cuts_of_starts_and_of_traffic() {
    let plan = "cuts from here\nstart\nwrite 3 \"one\"\nraise\nlower 00\n\
                traffic 5 blocks 0..9\ncuts to here\n";
    let out = as_expected(plan);
    let all = figures(&out, "all");
    assert!(all[0] > 7, "{out}");
    assert_eq!(all[3..4], [0]);
    assert_eq!(all[9..], [0, 0]);
}

#[test]
fn a_line_that_clears_all_faults_clears_no_cut_that_is_tried() {
    let plan = "start\ncuts from here\nfault sector 3 reads all crc\nfault clear\nread 3\n\
                expect good\ncuts to here\n";
    assert_eq!(figures(&as_expected(plan), "at a read")[0], 1);
}

#[test]
fn a_line_that_cannot_be_done_again_is_named() {
    let folder = test_folder("cuts-file");
    fs::write(folder.join("a"), [7; 532]).expect("written");
    let mut run = Run::new(on(&folder.join("p")), vec![]).expect("a platter");
    let lines = "start\ncuts from here\nwrite 3 file a\n";
    for line in lines.lines() {
        run.number += 1;
        run.line(plan::parse(line).expect("a line"), line)
            .expect("done");
    }
    fs::remove_file(folder.join("a")).expect("removed");
    let stopped = run.line(Line::CutsTo, "");
    let named = |message: &str| message.starts_with("line 3, done again: ");
    assert!(matches!(stopped, Err(Stop::Line(message)) if named(&message)));
    fs::remove_dir_all(folder).expect("removed");
}

#[test]
fn cuts_that_are_not_as_they_should_be_are_named() {
    let plan = "start\nwrite 3 \"one\"\ncuts from here\ncompare 3 with \"two\"\ncuts to here\n";
    let (ended, _, out) = played(plan, Settings::default());
    assert_eq!(ended, Ok(false));
    assert_eq!(figures(&out, "all"), [1, 1, 0, 0, 1, 0, 0, 0, 0, 1, 0]);
    let words = "  NOT as it should be with \"power fails at access 1 old\" in line 3\n";
    assert!(out.contains(words), "{out}");
    assert!(out.contains("  0 of 2 expectations met\n"), "{out}");
}

#[test]
fn where_cuts_cannot_stand() {
    let between = "between \"cuts from here\", in line 2, and \"cuts to here\" stands no line \
                   power, convert or cuts from here";
    for line in ["power fails during the store", "convert", "cuts from here"] {
        let plan = format!("start\ncuts from here\nread 3\n{line}\ncuts to here\n");
        assert_eq!(stopped(&plan), (4, String::from(between)), "{line}");
    }
    let message = "there is no line \"cuts from here\" before this one";
    assert_eq!(stopped("start\ncuts to here\n"), (2, String::from(message)));
    let message = "\"cuts from here\", in line 2, has no line \"cuts to here\"";
    let plan = "start\ncuts from here\nread 3\n";
    assert_eq!(stopped(plan), (4, String::from(message)));
    let message = "a power cut is ordered that did not come yet; \"fault clear\" forgets it";
    let plan = "start\npower fails at access 9\ncuts from here\n";
    assert_eq!(stopped(plan), (3, String::from(message)));
}
