mod power;

use super::*;
use crate::clock::Time;
use crate::files::test_folder;
use crate::picture::Mark;
use crate::platter;
use reference::image::Cause;
use std::fs;
use std::path::Path;

/// Runs a plan. Says how it ended, the number of its last line, and its output.
fn played(plan: &str, settings: Settings) -> (Result<bool, String>, usize, String) {
    let mut out = vec![];
    let mut run = Run::new(settings, &mut out).expect("a platter");
    let played = run.plan(plan.as_bytes());
    let number = run.number();
    let ended = match played.and_then(|()| run.finish()) {
        Ok((good, _)) => Ok(good),
        Err(Stop::Line(message)) => Err(message),
        Err(Stop::Empty) => Err(String::from("empty")),
        Err(Stop::Unspoken) => Err(String::from("unspoken")),
        Err(Stop::Output(error)) => panic!("{error}"),
    };
    (ended, number, String::from_utf8(out).expect("text"))
}

fn on(path: &Path) -> Settings {
    Settings {
        platter: Some(path.to_path_buf()),
        folder: path.parent().map(Path::to_path_buf).unwrap_or_default(),
        ..Settings::default()
    }
}

#[test]
fn a_bad_line_leaves_the_platter_as_it_was_before() {
    let folder = test_folder("bad-line");
    let path = folder.join("p");
    let (ended, number, _) = played("start\nwrite 3 \"one\"\n", on(&path));
    assert_eq!((ended, number), (Ok(true), 3));
    let before = fs::read(&path).expect("a platter");

    // The reads of the third line move block 3 before its file turns out wrong.
    let faults = "fault sector 3 reads next 2 crc\nfault sector 3 writes next 2 unreadable\n";
    let plan = format!("{faults}start\nread 3 1 1 to none/such\n");
    let (ended, number, _) = played(&plan, on(&path));
    assert!(ended.is_err_and(|message| message.contains("none/such cannot be written")));
    assert_eq!(number, 4);
    assert!(fs::read(&path).expect("a platter") == before);
    assert!(!platter::unreadable_file(&path).expect("a name").exists());

    // What lines before the bad one wrote stays.
    let (ended, number, out) = played("start\nwrite 4 \"two\"\nwrite 5 6\nwrite 7 00\n", on(&path));
    assert!(ended.is_err_and(|message| message.contains("\"6\" is no data")));
    assert_eq!((number, out.lines().count()), (3, 2));
    let (ended, _, out) = played("start\ncompare 4 with \"two\"\nread 7\n", on(&path));
    assert_eq!(ended, Ok(true), "{out}");
    fs::remove_dir_all(folder).expect("removed");
}

#[test]
fn a_host_needs_a_start() {
    let (ended, number, _) = played("say hello\n\n# no\nread 17\n", Settings::default());
    assert!(ended.is_err_and(|message| message.contains("the drive is not started yet")));
    assert_eq!(number, 4);
    let (ended, _, _) = played("health\nstart\n", Settings::default());
    assert!(ended.is_err_and(|message| message.contains("the drive is not started yet")));
}

#[test]
fn text_of_another_kind_is_refused() {
    let mut run = Run::new(Settings::default(), vec![]).expect("a platter");
    let stopped = run.plan(&b"start\nsay \xFF\n"[..]);
    assert!(matches!(stopped, Err(Stop::Line(message)) if message == "no UTF-8 text"));
    assert_eq!(run.number(), 2);
}

#[test]
fn a_byte_order_mark_and_ends_of_other_systems_are_taken() {
    let plan = "\u{FEFF}start\r\nwrite 17 \"one\"\r\ncompare 17 with \"one\"\r\nsay so\r\n\r\n";
    let (ended, _, out) = played(plan, Settings::default());
    assert_eq!(ended, Ok(true), "{out}");
    assert!(out.contains("\nso\n") && !out.contains('\r'), "{out}");
    let (ended, number, _) = played("start\n\u{FEFF}start\n", Settings::default());
    assert!(ended.is_err_and(|message| message.starts_with("\"\\u{feff}start\" begins")));
    assert_eq!(number, 2);
}

#[test]
fn a_line_without_an_end_is_not_read_to_its_end() {
    let mut run = Run::new(Settings::default(), vec![]).expect("a platter");
    let endless = std::io::BufReader::new(std::io::repeat(b'#'));
    let message = "a line has 65536 bytes at most; is this a plan?";
    let stopped = run.plan(endless);
    assert!(matches!(stopped, Err(Stop::Line(said)) if said == message));
    let longest = format!("#{}\nstart\n", " ".repeat(65_534));
    assert_eq!(played(&longest, Settings::default()).0, Ok(true));
}

#[test]
fn a_plan_in_which_no_line_does_anything_is_empty() {
    let folder = test_folder("empty");
    let path = folder.join("p");
    for plan in ["", "\n\n", "# start\n", "\u{FEFF}"] {
        let (ended, _, out) = played(plan, on(&path));
        assert_eq!((ended, out.as_str()), (Err(String::from("empty")), ""));
        assert!(!path.exists());
    }
    fs::remove_dir_all(folder).expect("removed");
}

#[test]
fn a_plan_in_which_no_line_speaks_to_the_drive_has_no_verdict() {
    let folder = test_folder("unspoken");
    let path = folder.join("p");
    for (plan, said) in [
        ("say so\n# no more\n", "so\n"),
        (
            "help table",
            "  table                               table\n",
        ),
        ("fault clear", "fault clear\n"),
        ("power fails at access 1", "power fails at access 1\n"),
    ] {
        let (ended, _, out) = played(plan, on(&path));
        assert_eq!(ended, Err(String::from("unspoken")), "{plan}");
        assert_eq!(out, said);
        assert!(!path.exists(), "{plan}");
    }
    for plan in ["say so\nstart", "start\nhelp", "convert"] {
        assert_eq!(played(plan, on(&path)).0, Ok(true), "{plan}");
        fs::remove_file(&path).expect("a platter");
    }
    fs::remove_dir_all(folder).expect("removed");
}

#[test]
fn help_is_a_line_like_others() {
    let plan = "help\nstart\ncuts from here\nread 3\nhelp read\ncuts to here\n";
    let (ended, _, out) = played(plan, Settings::default());
    assert_eq!(ended, Ok(true), "{out}");
    assert!(out.starts_with("Lines of a plan, each with an example:\n"));
    assert_eq!(out.matches("\n  read BLOCKS [R [T]]").count(), 2);
    assert_eq!(out.matches("\nBLOCKS is a number").count(), 2);
    let (ended, number, _) = played("start\nhelp raed\n", Settings::default());
    assert!(ended.is_err_and(|message| message.ends_with("did you mean \"read\"?")));
    assert_eq!(number, 2);
}

/// Types lines. Says how the run ended, and its output.
fn typed(lines: &str) -> (Result<bool, String>, String) {
    let settings = Settings {
        typed: true,
        ..Settings::default()
    };
    let (ended, _, out) = played(lines, settings);
    (ended, out)
}

#[test]
fn a_wrong_line_that_is_typed_does_not_end_the_run() {
    let lines = "raed 17\nread 17\nstart\nwrite 17 \"one\"\nwrite 17 xx\n\
                 read 17 to none/such\ncompare 17 with \"one\"\n";
    let (ended, out) = typed(lines);
    assert_eq!(ended, Ok(true), "{out}");
    assert!(out.contains("\n  the bytes are \"one\"\n"), "{out}");
    assert!(
        out.contains("\n  1 of 1 expectations met\n  4 lines were wrong\n"),
        "{out}"
    );
    let (ended, _, out) = played(lines, Settings::default());
    assert!(ended.is_err() && out.is_empty());
    assert_eq!(typed("raed\nxx\n").0, Err(String::from("empty")));
    assert_eq!(typed("start\nexpect failed\n").0, Ok(false));
}

#[test]
fn a_wrong_line_among_typed_power_cuts() {
    // A line that did nothing is left out when the others are done again.
    let none = "start\nwrite 3 \"a\"\ncuts from here\nread 3\nwrite 4 file none\ncuts to here\n";
    let (ended, out) = typed(none);
    assert_eq!(ended, Ok(true), "{out}");
    assert!(
        out.contains("cuts to here: 1 access from line 3 to line 6, 1 power cut"),
        "{out}"
    );
    // One that read and then failed cannot be, so nothing is done again.
    let part = "start\ncuts from here\nread 3\nread 4 to none/such\nread 5\ncuts to here\n";
    let (ended, out) = typed(part);
    assert_eq!(ended, Ok(true), "{out}");
    assert!(
        !out.contains("cuts to here") && out.contains("  2 lines were wrong\n"),
        "{out}"
    );
    // A person may leave between the two.
    let (ended, out) = typed("start\ncuts from here\nread 3\n");
    assert_eq!(ended, Ok(true), "{out}");
    assert!(out.contains("  1 line was wrong\n"), "{out}");
}

#[test]
fn a_file_of_40_blocks_there_and_back() {
    let folder = test_folder("file");
    let bytes: Vec<u8> = (0..40 * 532 - 100).map(|n| (n % 251) as u8).collect();
    fs::write(folder.join("front.dat"), &bytes).expect("written");
    let plan = "start\nwrite 20..59 file front.dat\nread 20..59 to back.dat\n\
                compare 20..59 with file front.dat\ncompare 21 with file front.dat at 532\n";
    let (ended, _, out) = played(plan, on(&folder.join("p")));
    assert_eq!(ended, Ok(true), "{out}");
    assert!(out.contains("  21280 bytes written to back.dat\n"), "{out}");
    assert!(
        out.contains("  all 40 blocks are as in front.dat\n"),
        "{out}"
    );
    let mut filled = bytes;
    filled.resize(21280, 0);
    assert!(fs::read(folder.join("back.dat")).expect("a file") == filled);

    let (ended, number, _) = played("start\nwrite 0..40 file front.dat\n", on(&folder.join("p")));
    assert!(ended.is_err_and(|message| message.contains("40 of 41 blocks")));
    assert_eq!(number, 2);
    fs::remove_dir_all(folder).expect("removed");
}

#[test]
fn a_name_with_blanks_there_and_back() {
    let folder = test_folder("blanks");
    fs::write(folder.join("shop front.dat"), [7; 1064]).expect("written");
    let plan = "start\nwrite 3 file \"shop front.dat\" at 532\nread 3 to \"my back.dat\"\n\
                compare 3 with file \"shop front.dat\"\nread 3 to \"ab.dat\"\n\
                read 9728 to \"no such.dat\"\n";
    let (ended, _, out) = played(plan, on(&folder.join("p")));
    assert_eq!(ended, Ok(false), "{out}");
    for words in [
        "  532 bytes written to \"my back.dat\"\n",
        "  the bytes are as in \"shop front.dat\"\n",
        "  532 bytes written to ab.dat\n",
        "  NOT written to \"no such.dat\": not read were 9728\n",
    ] {
        assert!(out.contains(words), "{words}{out}");
    }
    for name in ["my back.dat", "ab.dat"] {
        assert!(fs::read(folder.join(name)).is_ok_and(|bytes| bytes == [7; 532]));
    }
    fs::remove_dir_all(folder).expect("removed");
}

#[test]
fn control_characters_of_a_plan_are_shown_as_escapes() {
    let folder = test_folder("escapes");
    let plan = "say \u{1b}[31mMonday:\tit is \"é\"\nstart\nwrite 3 \"a\u{7}\tb\"\n\
                fault\u{b}sector 17\tclear\nread 3 to \u{1b}c.dat\n\
                compare 3 with \"a\u{7}\tb\"\ncompare 3 with file \u{1b}c.dat\n";
    let settings = Settings {
        folder: folder.clone(),
        ..Settings::default()
    };
    let (ended, _, out) = played(plan, settings);
    assert_eq!(ended, Ok(true), "{out}");
    for words in [
        "\\u{1b}[31mMonday:\tit is \"é\"\n",
        "fault\\u{b}sector 17\tclear\n",
        "  532 bytes written to \\u{1b}c.dat\n",
        "  the bytes are \"a\\u{7}\tb\"\n",
        "  the bytes are as in \\u{1b}c.dat\n",
    ] {
        assert!(out.contains(words), "{words}{out}");
    }
    let raw = |letter: char| letter.is_control() && !['\n', '\t'].contains(&letter);
    assert!(!out.contains(raw), "{out:?}");
    assert!(folder.join("\u{1b}c.dat").exists());
    fs::remove_dir_all(folder).expect("removed");
}

#[test]
fn short_data_ends_in_zeros() {
    let plan = "start\nwrite 3 \"one\"\nwrite 4 4d*512\ncompare 4 with 4d*512 00*20\n\
                compare 3 with \"one\"\nwrite-verify 4 4e*531\ncompare 4 with 4e*531 00\n\
                compare 3 with \"one\"\nwrite 4..5 nothing\ncompare 4..5 with 00*532\n";
    let (ended, _, out) = played(plan, Settings::default());
    assert_eq!(ended, Ok(true), "{out}");
    assert!(out.contains("  5 of 5 expectations met\n"), "{out}");
}

#[test]
fn what_is_not_as_expected_is_said() {
    let plan = "start\nwrite 3..5 \"one\"\nexpect failed accesses 1\nwrite 4 00\n\
                compare 3..5 with \"one\"\nexpect good\n";
    let (ended, _, out) = played(plan, Settings::default());
    assert_eq!(ended, Ok(false));
    assert!(out.contains("  NOT as line 3 expects: failed\n"), "{out}");
    assert!(out.contains("  NOT \"one\": other bytes in 4\n"), "{out}");
    assert!(out.contains("  1 of 3 expectations met\n"), "{out}");
    let (ended, _, _) = played("expect good\n", Settings::default());
    assert!(ended.is_err());
    let (ended, _, _) = played("start\ntable\nexpect accesses 1\n", Settings::default());
    assert_eq!(ended, Ok(true));
}

#[test]
fn a_failed_read_compares_with_nothing_and_a_failed_store_stores_nothing() {
    let plan = "start\nwrite 3 \"one\"\nfault sector 3 reads all crc\n\
                fault sector 4960 writes next 1 timeout\ncompare 3 0 1 with 6f 6e 65\n\
                expect stored\nexpect failed not-stored accesses 92 status 0d 00 00 00\n\
                read 3 0 1\nexpect failed stored accesses 92 status 09 00 00 00\n\
                raise\nexpect not-stored accesses 0\n";
    let (ended, _, out) = played(plan, Settings::default());
    assert_eq!(ended, Ok(false));
    let part = "read 3: 91 reads, 91 CRC errors, table not stored (timeout), failed, E 0, \
                entered in the bad list\n  NOT as given: not read 3\n  NOT as line 6 expects: stored\n\
                read 3: 91 reads, 91 CRC errors, table stored, failed, E 0\n\
                raise: offer 01, a command may come\n";
    assert!(out.contains(part), "{out}");
    assert!(out.contains("  3 of 5 expectations met\n"), "{out}");
}

#[test]
fn other_bytes_and_reads_that_failed_are_told_apart() {
    let plan = "start\nwrite 0..9 \"a\"\nwrite 3 \"b\"\nwrite 6..7 \"b\"\n\
                fault sector 4..5 reads all crc\ncompare 0..9 0 1 with \"a\"\n";
    let (ended, _, out) = played(plan, Settings::default());
    assert_eq!(ended, Ok(false));
    let line = "\n  NOT \"a\": other bytes in 3, 6..7; not read 4..5\n";
    assert!(out.contains(line), "{out}");
    assert!(out.contains("  0 of 1 expectations met\n"), "{out}");
}

#[test]
fn a_move_whose_store_fails_is_a_move() {
    let plan = "start\nfault sector 3 writes all unreadable\n\
                fault sector 4960 writes next 1 timeout\nwrite-verify 3 \"one\"\n\
                expect failed spared not-stored accesses 205 status 0d 04 80 00\n\
                read 3\nexpect good stored accesses 2 status 00 00 00 00\n";
    let (ended, _, out) = played(plan, Settings::default());
    assert_eq!(ended, Ok(true), "{out}");
    let part = "table not stored (timeout), failed, spared, first since start or reset\n  \
                trial of sector 3: 100 rereads, 100 failed, not passed\n  \
                trial of spare 0 (sector 4928): 100 rereads, 0 failed, passed\n  \
                block 3 moved from sector 3 to spare 0 (sector 4928)\n\
                read 3: 1 read, table stored, good, in spare 0 (sector 4928)\n";
    assert!(out.contains(part), "{out}");
}

#[test]
fn equal_commands_are_one_line_and_a_trace_has_all() {
    let plan =
        "start\nreset\nwrite 3..6 \"one\"\nfault sector 5 reads next 1 timeout\nread 3..6 1 1\n";
    let (_, _, out) = played(plan, Settings::default());
    let lines: Vec<&str> = out.lines().take(8).collect();
    assert_eq!(
        lines,
        [
            "start: 1 read, table found: form B, run number 0, no spare used, no bad block",
            "reset: the controller waits",
            "write 3: 1 write, good, first since start or reset",
            "write 4..6: 3 blocks, each 1 write, good",
            "fault sector 5 reads next 1 timeout",
            "read 3..4: 2 blocks, each 1 read, good",
            "read 5: 2 reads, 1 timeout, good, E 0",
            "read 6: 1 read, good",
        ]
    );
    let trace = Settings {
        trace: true,
        ..Settings::default()
    };
    let (_, _, out) = played(plan, trace);
    let part = "read 5: 2 reads, 1 timeout, good, E 0\n    read sector 5: timeout\n    \
                read sector 5: good\n    status 04 00 00 00: timeout met, E 0\n    \
                about 0.155 s\nread 6";
    assert!(out.contains(part), "{out}");
}

/// The lines of trials in an output.
fn trial_lines(out: &str) -> Vec<&str> {
    let trial = |line: &&str| line.starts_with("  trial");
    out.lines().filter(trial).collect()
}

#[test]
fn so_many_rereads_fail_as_are_ordered() {
    for (fails, end) in [
        (0, "passed"),
        (1, "passed"),
        (30, "passed"),
        (31, "not passed"),
        (99, "not passed"),
        (100, "not passed"),
    ] {
        let plan = format!(
            "start\nfault sector 3 reads next 1 crc\nfault sector 3 rereads fail {fails} of 100\n\
             write-verify 3 \"one\"\nexpect good\ncompare 3 with \"one\"\n"
        );
        let (ended, _, out) = played(&plan, Settings::default());
        assert_eq!(ended, Ok(true), "{out}");
        let line = format!("  trial of sector 3: 100 rereads, {fails} failed, {end}");
        assert_eq!(trial_lines(&out)[0], line);
    }
}

#[test]
fn a_share_holds_for_every_trial_of_a_sector() {
    let plan = "start\nfault sector 3 rereads fail 29 of 100 timeout\n\
                fault sector 3 reads next 2 crc\nread 3 1 1\n\
                fault sector 3 reads next 1 crc\nwrite-verify 3 \"one\"\n";
    let (ended, _, out) = played(plan, Settings::default());
    assert_eq!(ended, Ok(true), "{out}");
    let line = "  trial of sector 3: 100 rereads, 29 failed, passed";
    assert_eq!(trial_lines(&out), [line; 2]);
}

#[test]
fn a_number_of_rereads_fails_once() {
    let plan = "start\nfault sector 3 rereads next 31 crc\nfault sector 3 reads next 2 crc\n\
                fault sector 4928 reads next 1 crc\nread 3 1 1\nexpect good spared\n";
    let (ended, _, out) = played(plan, Settings::default());
    assert_eq!(ended, Ok(true), "{out}");
    assert_eq!(
        trial_lines(&out),
        [
            "  trial of sector 3: 100 rereads, 31 failed, not passed",
            "  trial of spare 0 (sector 4928): 100 rereads, 1 failed, passed",
        ]
    );
}

#[test]
fn equal_trials_are_one_line_and_a_trace_folds_rereads() {
    let plan = "start\nfault sector 3..6 reads next 91 crc\nread 3..6 0 1\n\
                fault sector 6 rereads fail 12 of 100\nwrite 3..6 \"one\"\n";
    let (ended, _, out) = played(plan, Settings::default());
    assert_eq!(ended, Ok(true), "{out}");
    let part = "write 3..5: 3 blocks, each 100 reads, 1 write, table stored, good, \
                removed from the bad list\n  \
                trials of sectors 3..5, each: 100 rereads, 0 failed, passed\n\
                write 6: 100 reads, 1 write, 12 CRC errors, table stored, good, \
                removed from the bad list\n  \
                trial of sector 6: 100 rereads, 12 failed, passed\n";
    assert!(out.contains(part), "{out}");
    let trace = Settings {
        trace: true,
        ..Settings::default()
    };
    let (_, _, out) = played(plan, trace);
    let part = "  trial of sector 6: 100 rereads, 12 failed, passed\n    \
                write sector 6: done\n    \
                reread sector 6, 100 times: 88 good, 12 CRC errors\n    \
                store sector 4960: done\n    status 08 00 00 00: CRC error met, E 0\n";
    assert!(out.contains(part), "{out}");
}

/// The lines of `health` in an output.
fn health_lines(out: &str) -> Vec<&str> {
    let health = |line: &&str| line.starts_with("health:");
    out.lines().filter(health).collect()
}

#[test]
fn health_counts_spares() {
    let plan = "start\nhealth\nexpect good accesses 0 status 00 00 80 00\n\
                fault sector 3..4 writes all unreadable\n\
                fault sector 4928..4957 writes all timeout\nwrite-verify 3 \"one\"\nhealth\n\
                expect good not-stored accesses 0 status 00 00 00 00\nwrite-verify 4 \"one\"\n\
                expect stored\nhealth\nhealth\n";
    let (ended, _, out) = played(plan, Settings::default());
    assert_eq!(ended, Ok(true), "{out}");
    assert_eq!(
        health_lines(&out),
        [
            "health: 32 spares unused, no bad block, no latch, no unstored changes, \
             first since start or reset",
            "health: 1 spare unused, no bad block, no latch, no unstored changes",
            "health: no spare unused, no bad block, no latch, no unstored changes",
            "health: no spare unused, no bad block, no latch, no unstored changes",
        ]
    );
    assert!(out.contains("  7 of 7 expectations met\n"), "{out}");
}

#[test]
fn health_after_stores_that_fail() {
    let plan = "start\nfault sector 3 reads all crc\n\
                fault sector 4960 writes in-turn timeout no-settle\nread 3 0 1\nhealth\n\
                read 3 0 1\nexpect failed not-stored status 19 00 00 00\nhealth\n\
                start\nread 3 0 1\nhealth\n";
    let (ended, _, out) = played(plan, Settings::default());
    assert_eq!(ended, Ok(true), "{out}");
    assert_eq!(
        health_lines(&out),
        [
            "health: 32 spares unused, 1 bad block, no latch, unstored changes",
            "health: 32 spares unused, 1 bad block, under the latch, unstored changes",
            "health: 32 spares unused, 1 bad block, no latch, no unstored changes",
        ]
    );
}

#[test]
fn health_under_the_latch() {
    let plan = "start\nfault sector 3 reads next 1 no-settle\nread 3\nhealth\n\
                fault sector 4..5 reads all crc\nread 4..5 0 1\nhealth\n";
    let (ended, _, out) = played(plan, Settings::default());
    assert_eq!(ended, Ok(true), "{out}");
    assert_eq!(
        health_lines(&out),
        [
            "health: 32 spares unused, no bad block, under the latch, no unstored changes",
            "health: 32 spares unused, 2 bad blocks, under the latch, unstored changes",
        ]
    );
}

#[test]
fn health_without_a_table_fails_as_a_read_does() {
    let plan = "fault sector 4960 reads next 10 crc\nstart\nhealth\n\
                expect failed accesses 0 status 01 08 80 00\nraise\nhealth\nread 3\nexpect good\n";
    let (ended, _, out) = played(plan, Settings::default());
    assert_eq!(ended, Ok(false));
    assert_eq!(
        health_lines(&out),
        [
            "health: no access, failed, no table, first since start or reset",
            "health: no access, failed, no table",
        ]
    );
    assert!(
        out.contains("read 3: no access, failed, no table\n"),
        "{out}"
    );
    assert!(out.contains("  1 of 2 expectations met\n"), "{out}");
}

#[test]
fn health_in_a_trace() {
    let trace = Settings {
        trace: true,
        ..Settings::default()
    };
    let plan = "start\nfault sector 3 writes all unreadable\nwrite-verify 3 \"one\"\nhealth\n\
                expect failed accesses 1\n";
    let (ended, _, out) = played(plan, trace);
    let part = "health: 31 spares unused, no bad block, no latch, no unstored changes\n    \
                status 00 00 00 00: nothing to report, E 0\n    about 0.003 s\n  \
                NOT as line 5 expects: failed and accesses 1\n";
    assert!(out.contains(part), "{out}");
    assert_eq!(ended, Ok(false));
}

#[test]
fn the_health_block_as_any_number() {
    let plan = "start\nwrite $FFFFFD \"one\"\nexpect failed accesses 0 status 01 00 c0 00\n\
                read $FFFFFD 0 0\nexpect good accesses 0 status 00 00 00 00\n\
                compare $FFFFFD with 20 00*531\n";
    let (ended, _, out) = played(plan, Settings::default());
    assert_eq!(ended, Ok(true), "{out}");
    for line in [
        "write $FFFFFD (the health block): no access, failed, first since start or reset, no such block",
        "read $FFFFFD (the health block): no access, good",
    ] {
        assert!(out.lines().any(|next| next == line), "{out}");
    }
}

/// What a health line shows of a read that ended so and brought these first bytes,
/// and whether all was as it should be.
fn figures(end: End, first: [u8; 5]) -> (bool, String) {
    let mut out = vec![];
    let mut run = Run::new(Settings::default(), &mut out).expect("a platter");
    let report = Report {
        accesses: vec![],
        end,
        changes: vec![],
        took: Time::ZERO,
        other_bytes: false,
    };
    let mut data = [0; 532];
    data[..5].copy_from_slice(&first);
    run.figures(report, &data).expect("output");
    let (good, _) = run.finish().expect("output");
    let out = String::from_utf8(out).expect("text");
    let (shown, _) = out.split_once("\n\nSummary\n").expect("a summary");
    (good, shown.to_string())
}

#[test]
fn figures_are_those_of_the_bytes() {
    let good = End::Finished([0; 4]);
    let words = "health: 5 spares unused, 3 bad blocks, under the latch, unstored changes";
    assert_eq!(figures(good, [5, 3, 1, 1, 0]), (true, words.to_string()));
    for (first, fault) in [
        ([5, 3, 7, 1, 0], "byte 2 is 7, more than 1"),
        ([5, 3, 1, 2, 0], "byte 3 is 2, more than 1"),
        ([5, 3, 1, 1, 9], "byte 4 is 9, more than 0"),
    ] {
        let words = format!("health: no access, good\n  NOT a health block: {fault}");
        assert_eq!(figures(good, first), (false, words));
    }
}

#[test]
fn a_read_that_is_not_good_has_no_figures() {
    let failed = End::Finished([0x01, 0, 0x40, 0]);
    let words = "health: no access, failed, no such block";
    assert_eq!(figures(failed, [9; 5]), (true, words.to_string()));
    let refused = End::Refused(controller::Code::Place);
    let words = "health: no access, refused, code 3: the call is out of place";
    assert_eq!(figures(refused, [9; 5]), (true, words.to_string()));
}

/// Lists the lines of tables in an output: those of `convert`, `start` and `table`.
fn table_lines(out: &str) -> Vec<&str> {
    let (lines, _) = out.split_once("\n\nSummary\n").expect("a summary");
    let starts = ["convert", "start", "table", "  spare", "  bad blocks"];
    let wanted = |line: &&str| starts.iter().any(|start| line.starts_with(start));
    let dead = |line: &&str| line.ends_with(" is dead");
    lines
        .lines()
        .filter(wanted)
        .filter(|line| !dead(line))
        .collect()
}

#[test]
fn from_form_a_to_form_b_and_back() {
    let plan = "convert\nstart\nfault sector 3 writes next 1 timeout\n\
                fault sector 4928 rereads fail 31 of 100\nwrite 3 \"one\"\nraise\nlower 00\n\
                start\ntable\nconvert\nstart\ntable\nconvert\nstart\n";
    let (ended, _, out) = played(plan, Settings::default());
    assert_eq!(ended, Ok(true), "{out}");
    assert_eq!(
        table_lines(&out),
        [
            "convert: the table on the platter is of form A now",
            "start: 1 read, table found: form A, no spare used, no bad block",
            "start: 1 read, table found: form B, run number 1, 2 of 32 spares used, \
             1 of them dead, no bad block",
            "table: run number 1, 2 of 32 spares used, 1 of them dead, no bad block",
            "  spare 0 (sector 4928): dead, CRC error",
            "  spare 1 (sector 4929): block 3, CRC error",
            "convert: the table on the platter is of form A now",
            "start: 1 read, table found: form A, 2 of 32 spares used, 1 of them dead, no bad block",
            "table: run number 0, 2 of 32 spares used, 1 of them dead, no bad block",
            "  spare 0 (sector 4928): dead, cause unknown",
            "  spare 1 (sector 4929): block 3, cause unknown",
            "convert: the table on the platter is of form B now",
            "start: 1 read, table found: form B, run number 0, 2 of 32 spares used, \
             1 of them dead, no bad block",
        ]
    );
}

#[test]
fn a_convert_switches_the_drive_off() {
    for line in ["read 3", "table", "health", "raise", "reset", "traffic 5"] {
        let plan = format!("start\nwrite 3 \"one\"\nraise\nconvert\n{line}\n");
        let (ended, number, _) = played(&plan, Settings::default());
        let message = ended.expect_err("the drive is off");
        assert!(message.contains("the drive is not started yet"), "{line}");
        assert_eq!(number, 5);
    }
    let plan = "start\nwrite 3 \"one\"\nraise\nconvert\nstart\nread 3\nexpect good\n\
                convert\nstart\ncompare 3 with \"one\"\n";
    let (ended, _, out) = played(plan, Settings::default());
    assert_eq!(ended, Ok(true), "{out}");
}

#[test]
fn a_table_that_cannot_be_converted_stays() {
    let folder = test_folder("stays");
    let path = folder.join("p");
    let spoil = "start\nfault sector 3 reads all crc\n\
                 fault sector 4960 writes all unreadable\nread 3 0 1\n";
    let (ended, _, _) = played(spoil, on(&path));
    assert_eq!(ended, Ok(true));
    let before = fs::read(&path).expect("a platter");
    let (ended, number, _) = played("convert\n", on(&path));
    let message = "the platter has no good table, since sector 4960 is unreadable";
    assert_eq!((ended, number), (Err(String::from(message)), 1));
    assert!(fs::read(&path).expect("a platter") == before);

    fs::remove_file(platter::unreadable_file(&path).expect("a name")).expect("removed");
    let mut bytes = before;
    bytes[4960 * 532 + 531] ^= 1;
    fs::write(&path, &bytes).expect("written");
    let (ended, _, _) = played("convert\n", on(&path));
    let message = "the platter has no good table, code 7: the sum of form B is wrong";
    assert_eq!(ended, Err(String::from(message)));
    assert!(fs::read(&path).expect("a platter") == bytes);
    fs::remove_dir_all(folder).expect("removed");
}

#[test]
fn the_host_is_shown_form_a_and_the_platter_holds_form_b() {
    let folder = test_folder("both-forms");
    let path = folder.join("p");
    let plan = "start\nfault sector 3 writes all unreadable\nwrite-verify 3 \"one\"\n\
                read $FFFFFF to shown\n";
    let (ended, _, out) = played(plan, on(&path));
    assert_eq!(ended, Ok(true), "{out}");
    let stored = || fs::read(&path).expect("a platter")[4960 * 532..][..532].to_vec();
    assert_eq!(stored()[..4], controller::form_b::MAGIC);
    let shown = fs::read(folder.join("shown")).expect("a table");
    assert!(shown.starts_with(b"PROFILE "));
    let (ended, _, _) = played("convert\n", on(&path));
    assert_eq!(ended, Ok(true));
    assert!(stored() == shown);
    fs::remove_dir_all(folder).expect("removed");
}

#[test]
fn moments_are_kept_for_a_picture() {
    let settings = Settings {
        moments: true,
        ..Settings::default()
    };
    let plan = "say Monday\nstart\nfault sector 9 writes next 2 unreadable\n\
                write-verify 9 \"one\"\nraise\nread 9728\nhealth\n";
    let mut run = Run::new(settings, vec![]).expect("a platter");
    run.plan(plan.as_bytes()).expect("a plan");
    let (_, moments) = run.finish().expect("output");
    assert_eq!(moments.len(), 6);
    assert_eq!(moments[0].heading.as_deref(), Some("Monday"));
    assert_eq!(moments[2].command, "write-verify 9");
    let moved = crate::picture::Move {
        block: 9,
        sector: 4928,
        cause: Cause::Crc,
    };
    assert_eq!(moments[2].moved, Some(moved));
    let rereads = |failed| Mark::Rereads { all: 100, failed };
    assert_eq!(
        moments[2].accesses,
        [
            Mark::Write,
            Mark::CrcError,
            Mark::Write,
            rereads(100),
            Mark::Write,
            rereads(0),
            Mark::Store
        ]
    );
    assert!(moments[3].accesses.is_empty());
    assert!(matches!(moments[4].outcome, Outcome::Failed));
    assert_eq!(moments[5].command, "health");
    assert!(moments[5].accesses.is_empty());
    assert!(matches!(moments[5].outcome, Outcome::Good));
}

#[test]
fn other_bytes_are_kept_for_a_picture() {
    let settings = Settings {
        moments: true,
        ..Settings::default()
    };
    let plan = "start\nwrite 0..2 \"one\"\nwrite 1 \"two\"\ncompare 0..2 with \"one\"\n\
                fault sector 0..1 reads all crc\ncompare 0..2 0 0 with \"two\"\n";
    let mut run = Run::new(settings, vec![]).expect("a platter");
    run.plan(plan.as_bytes()).expect("a plan");
    let (good, moments) = run.finish().expect("output");
    assert!(!good);
    let others: Vec<bool> = moments.iter().map(|moment| moment.other_bytes).collect();
    assert_eq!(others[..5], [false; 5]);
    // A read that failed is a failure as it is.
    assert_eq!(others[5..], [false, true, false, false, false, true]);
}

#[test]
fn random_traffic_is_allowed_and_the_same_again() {
    let plan = "fault random seed 5 rate 1/10\nstart\ntraffic 3000 seed 2 blocks 4900..4999\n";
    let (ended, _, out) = played(plan, Settings::default());
    assert_eq!(ended, Ok(true));
    assert!(out.ends_with("history: allowed\n"), "{out}");
    assert_eq!(played(plan, Settings::default()).2, out);
    let other = plan.replace("seed 2", "seed 3");
    assert_ne!(played(&other, Settings::default()).2, out);
}

/// The summary's line about time.
fn time_line(plan: &str) -> String {
    let (ended, _, out) = played(plan, Settings::default());
    assert_eq!(ended, Ok(true), "{out}");
    let line = out.lines().find(|line| line.starts_with("  about "));
    line.unwrap_or_default().to_string()
}

#[test]
fn the_summary_has_the_time_and_the_longest_line() {
    let plan = "start\nwrite 0..9 \"one\"\nfault sector 5 reads next 2 timeout\nread 0..9 3 2\n";
    let words = "  about 0.915 s on the drive, the longest 0.322 s: read 5";
    assert_eq!(time_line(plan), words);
    assert_eq!(time_line(plan), words);
    assert_eq!(
        time_line("start\n"),
        "  about 0.151 s on the drive, the longest 0.151 s: start"
    );
    assert_eq!(time_line("convert\n"), "");
}

#[test]
fn power_cuts_that_are_tried_take_no_time() {
    let lines = "write 0..9 \"one\"\ncompare 0..9 with \"one\"\n";
    let tried = format!("start\ncuts from here\n{lines}cuts to here\n");
    assert_eq!(time_line(&tried), time_line(&format!("start\n{lines}")));
}
