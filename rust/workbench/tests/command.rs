//! The command itself: its exit status, its messages and the files it leaves.

mod common;

use std::fs;
use std::io::{BufRead, BufReader, Write};
use std::os::fd::OwnedFd;
use std::os::unix::net::UnixStream;
use std::path::Path;
use std::process::{Command, Stdio};

use common::{ended, folder, program, root};
use reference::image::form_b;

/// Runs the command in a folder. Says its exit status, its output and its messages.
fn workbench(folder: &Path, arguments: &[&str], input: &str) -> (i32, String, String) {
    let mut command = Command::new(program());
    command.args(arguments).env("WORKBENCH_ROOT", root());
    let output = ended(&mut command, folder, input);
    let text = |bytes| String::from_utf8(bytes).expect("text");
    let status = output.status.code().expect("a status");
    (status, text(output.stdout), text(output.stderr))
}

#[test]
fn help() {
    let here = folder("help");
    let (status, out, _) = workbench(&here, &["--help"], "");
    assert_eq!(status, 0);
    for word in [
        "week", "run", "import", "export", "table", "convert", "picture", "timeline", "odds",
        "report",
    ] {
        assert!(out.contains(&format!("\n  workbench {word} ")), "{word}");
    }
    fs::remove_dir_all(here).expect("removed");
}

#[test]
fn wrong_arguments() {
    let here = folder("arguments");
    for arguments in [
        &[][..],
        &["ran"],
        &["run", "none.plan"],
        &["run", "--platter"],
        &["run", "--fast"],
        &["run", "week", "latch"],
        &["import", "none"],
        &["table"],
        &["table", "none"],
        &["convert", "none", "out"],
        &["picture", "none", "out.svg"],
        &["timeline", "week"],
        &["odds"],
        &["odds", "banner", "--seeds", "9"],
        &["odds", "banner", "--seeds", "0", "--rate", "1/50"],
        &["odds", "banner", "--seeds", "9", "--rate", "0/0"],
        &["odds", "none", "--seeds", "9", "--rate", "1/50"],
        &["report", "week"],
        &["report", "none", "out.html"],
    ] {
        let (status, out, message) = workbench(&here, arguments, "");
        assert_eq!((status, out.as_str()), (2, ""), "{arguments:?}");
        assert!(message.starts_with("workbench: "), "{message}");
    }
    fs::remove_dir_all(here).expect("removed");
}

/// Runs the workbench with an output that nobody reads, and with such messages too if they
/// are closed. Says its exit status and its messages.
fn unread(here: &Path, arguments: &[&str], input: &str, closed: bool) -> (i32, String) {
    let nobody = || {
        let (output, _) = UnixStream::pair().expect("a pair");
        Stdio::from(OwnedFd::from(output))
    };
    let mut command = Command::new(program());
    command.args(arguments).env("WORKBENCH_ROOT", root());
    command.current_dir(here).stdin(Stdio::piped());
    command.stdout(nobody()).stderr(match closed {
        true => nobody(),
        false => Stdio::piped(),
    });
    let mut child = command.spawn().expect("the command");
    // A command that ends early reads nothing more.
    let _ = child
        .stdin
        .take()
        .map(|mut pipe| pipe.write_all(input.as_bytes()));
    let output = child.wait_with_output().expect("its end");
    let message = String::from_utf8(output.stderr).expect("text");
    (output.status.code().expect("a status"), message)
}

#[test]
fn an_output_that_nobody_reads() {
    let here = folder("unread");
    let on = ["run", "--platter", "p"];
    for answer in [&["--help"][..], &["-h"], &["--version"]] {
        assert_eq!(unread(&here, answer, "", false), (0, String::new()));
    }
    // What was done up to the line stays, and no line behind it is done.
    let plan = "start\nwrite 0 \"one\"\n";
    let message = "workbench: standard input:1: the output is closed, so the run ends here\n";
    assert_eq!(unread(&here, &on, plan, false), (2, String::from(message)));
    assert_eq!(unread(&here, &on, plan, true), (2, String::new()));
    let kept = workbench(&here, &on, "start\ncompare 0 with 00*532\n");
    assert_eq!(kept.0, 0, "{kept:?}");
    // Other commands do all of their work.
    let export = ["export", "p", "image"];
    assert_eq!(unread(&here, &export, "", false), (0, String::new()));
    assert!(fs::metadata(here.join("image")).is_ok_and(|image| image.len() == 9728 * 532));
    assert_eq!(unread(&here, &export, "", true), (2, String::new()));
    fs::remove_dir_all(here).expect("removed");
}

#[test]
fn a_summary_that_nobody_reads() {
    let mut command = Command::new(program());
    command.arg("run").stdin(Stdio::piped());
    command.stdout(Stdio::piped()).stderr(Stdio::piped());
    let mut child = command.spawn().expect("the command");
    let mut input = child.stdin.take().expect("a pipe");
    input.write_all(b"start\n").expect("a line");
    let mut shown = String::new();
    let mut output = BufReader::new(child.stdout.take().expect("a pipe"));
    output.read_line(&mut shown).expect("a line");
    drop((output, input));
    let output = child.wait_with_output().expect("its end");
    let message = "workbench: standard input: the output is closed, so the summary is not shown\n";
    assert_eq!(output.stderr, message.as_bytes(), "{shown}");
    assert_eq!(output.status.code(), Some(2));
}

#[test]
fn a_bad_plan_is_named_with_its_line() {
    let here = folder("bad-plan");
    fs::write(here.join("my.plan"), "start\n\nread 17\nwrite 17 xx\n").expect("written");
    let (status, out, message) = workbench(&here, &["run", "my.plan"], "");
    assert_eq!(status, 2);
    assert!(out.contains("read 17: 1 read, good"), "{out}");
    assert!(
        message.starts_with("workbench: my.plan:4: \"xx\" is no data"),
        "{message}"
    );
    let (_, _, message) = workbench(&here, &["run"], "start\nfault\n");
    assert!(
        message.starts_with("workbench: standard input:2: "),
        "{message}"
    );
    fs::remove_dir_all(here).expect("removed");
}

#[test]
fn an_empty_plan_is_a_wrong_one() {
    let empty = "the plan is empty: no line does anything";
    is_wrong("empty-plan", "# nothing yet\n\n", "", empty);
}

#[test]
fn a_plan_that_does_not_speak_to_the_drive_is_a_wrong_one() {
    let unspoken = "no line speaks to the drive: there is nothing to judge";
    let plan = "say hello\n# nothing yet\n";
    is_wrong("unspoken-plan", plan, "hello\n", unspoken);
}

/// Checks that no command takes a plan. Those that show a run say this before.
fn is_wrong(test: &str, plan: &str, said: &str, why: &str) {
    let here = folder(test);
    fs::write(here.join("my.plan"), plan).expect("written");
    for (arguments, name) in [
        (&["run"][..], "standard input"),
        (&["run", "my.plan"], "my.plan"),
        (&["timeline", "my.plan", "out.svg"], "my.plan"),
        (&["report", "my.plan", "out.html"], "my.plan"),
        (
            &["odds", "my.plan", "--seeds", "2", "--rate", "1/2"],
            "my.plan",
        ),
        (
            &["odds", "my.plan", "--seed", "2", "--rate", "1/2"],
            "my.plan",
        ),
    ] {
        let shows = arguments[0] == "run" || arguments.contains(&"--seed");
        let said = if shows { said } else { "" };
        let ended = workbench(&here, arguments, plan);
        let message = format!("workbench: {name}: {why}\n");
        assert_eq!(ended, (2, String::from(said), message), "{arguments:?}");
    }
    assert!(!here.join("out.svg").exists() && !here.join("out.html").exists());
    fs::remove_dir_all(here).expect("removed");
}

#[test]
fn what_is_no_plan_does_not_spill() {
    let here = folder("no-plan");
    let control = |c: char| c.is_control() && c != '\n';
    for bytes in [
        vec![0; 5_000_000],
        b"\x1b]0;title\x07 \x1b[2J".repeat(1000),
        b"say so\nwrite 17 file a\x1b[31m\x07\n".to_vec(),
        b"start\nwrite 17 file a\x1b[31m\x07\n".to_vec(),
        vec![0xFF; 1000],
    ] {
        fs::write(here.join("my.plan"), &bytes).expect("written");
        let (status, out, message) = workbench(&here, &["run", "my.plan"], "");
        assert_eq!(status, 2);
        assert!(message.starts_with("workbench: my.plan:"), "{message}");
        assert_eq!(message.lines().count(), 1, "{message}");
        assert!(
            message.len() < 200 && !message.contains(control),
            "{message}"
        );
        assert!(!out.contains(control), "{out}");
    }
    fs::remove_dir_all(here).expect("removed");
}

#[test]
fn a_platter_is_kept_from_run_to_run() {
    let here = folder("kept");
    let on_platter = ["run", "--platter", "shop.platter"];
    let moved = "fault sector 17 writes all unreadable\nstart\nwrite-verify 17 \"one\"\nraise\n";
    let (status, _, _) = workbench(&here, &on_platter, moved);
    assert_eq!(status, 0);
    let length = fs::metadata(here.join("shop.platter"))
        .expect("a platter")
        .len();
    assert_eq!(length, 5_209_344);
    let list = fs::read_to_string(here.join("shop.platter.unreadable"));
    assert_eq!(list.expect("a list"), "17\n");
    let again = "start\ncompare 17 with \"one\"\n";
    let (status, out, _) = workbench(&here, &on_platter, again);
    assert_eq!(status, 0);
    assert!(
        out.contains("block 17 lives in spare 0 (sector 4928)"),
        "{out}"
    );
    let (status, _, _) = workbench(&here, &on_platter, "start\ncompare 17 with \"two\"\n");
    assert_eq!(status, 1);

    fs::write(here.join("small"), "PROFILE").expect("written");
    let (status, _, message) = workbench(&here, &["run", "--platter", "small"], "start\n");
    assert_eq!(status, 2);
    assert!(
        message.contains("has 7 bytes and is no platter"),
        "{message}"
    );
    assert_eq!(fs::read(here.join("small")).expect("a file"), b"PROFILE");
    fs::remove_dir_all(here).expect("removed");
}

#[test]
fn images_and_pictures() {
    let here = folder("images");
    let image: Vec<u8> = (0..9728 * 532).map(|n: u32| (n / 532) as u8).collect();
    fs::write(here.join("a.image"), &image).expect("written");
    let (status, _, message) = workbench(&here, &["import", "a.image", "p"], "");
    assert_eq!((status, message.as_str()), (0, ""));
    let (status, _, _) = workbench(&here, &["export", "p", "b.image"], "");
    assert_eq!(status, 0);
    assert!(fs::read(here.join("b.image")).expect("an image") == image);
    fs::write(here.join("p.unreadable"), "5\n6\n").expect("written");
    let (status, _, message) = workbench(&here, &["export", "p", "c.image"], "");
    assert_eq!(status, 1);
    assert!(
        message.contains("blocks that cannot be read: 5..6;"),
        "{message}"
    );
    assert!(!here.join("c.image").exists());
    fs::remove_dir_all(here).expect("removed");
}

/// Makes a platter whose block 17 moved past a dead spare, and hands back the image of
/// its table.
fn moved_past_a_dead_spare(here: &Path) -> Vec<u8> {
    let plan = "fault sector 17 writes all unreadable\nfault sector 4928 writes all timeout\n\
                start\nwrite-verify 17 \"one\"\nraise\n";
    let (status, _, _) = workbench(here, &["run", "--platter", "p"], plan);
    assert_eq!(status, 0);
    let platter = fs::read(here.join("p")).expect("a platter");
    platter[4960 * 532..][..532].to_vec()
}

#[test]
fn tables_are_shown_and_converted() {
    let here = folder("tables");
    let image = moved_past_a_dead_spare(&here);
    fs::write(here.join("b.image"), &image).expect("written");
    let of_b = "form B, run number 1, 2 of 32 spares used, 1 of them dead, no bad block\n  \
                spare 0 (sector 4928): dead, timeout\n  spare 1 (sector 4929): block 17, timeout\n";
    for name in ["p", "b.image"] {
        let shown = workbench(&here, &["table", name], "");
        assert_eq!(shown, (0, format!("{name}: {of_b}"), String::new()));
    }
    let (status, out, message) = workbench(&here, &["convert", "b.image", "a.image"], "");
    let said = "a.image: the table of b.image in form A, without its run number and causes\n";
    assert_eq!((status, out.as_str(), message.as_str()), (0, said, ""));
    let (_, out, _) = workbench(&here, &["table", "a.image"], "");
    let of_a = "a.image: form A, 2 of 32 spares used, 1 of them dead, no bad block\n  \
                spare 0 (sector 4928): dead, cause unknown\n  \
                spare 1 (sector 4929): block 17, cause unknown\n";
    assert_eq!(out, of_a);

    let (status, out, _) = workbench(&here, &["convert", "a.image", "c.image"], "");
    let said = "c.image: the table of a.image in form B, with run number 0 and no cause known\n";
    assert_eq!((status, out.as_str()), (0, said));
    workbench(&here, &["convert", "c.image", "d.image"], "");
    let read = |name| fs::read(here.join(name)).expect("an image");
    assert!(read("d.image") == read("a.image"));
    assert!(read("c.image") != image);
    fs::remove_dir_all(here).expect("removed");
}

#[test]
fn what_is_no_table_is_refused_and_nothing_is_written() {
    let here = folder("no-tables");
    let image = moved_past_a_dead_spare(&here);
    let changed = |place: usize| {
        let mut image = image.clone();
        image[place] ^= 0x04;
        image
    };
    // No cause is 6; the sum goes with it.
    let mut cause = changed(19);
    let sum = form_b::sum(&cause[..530]);
    cause[530..].copy_from_slice(&sum.to_be_bytes());
    for (bytes, code) in [
        (
            image[..531].to_vec(),
            "2: it has 531 bytes, and an image has 532",
        ),
        (
            changed(0),
            "6: the image is neither a well-formed one of form A, nor does it begin as form B",
        ),
        (changed(531), "7: the sum of form B is wrong"),
        (
            cause,
            "8: an offset, count, entry, cause or zero of form B is wrong: a cause",
        ),
    ] {
        fs::write(here.join("t"), &bytes).expect("written");
        let words = format!("workbench: t is no table's image, code {code}\n");
        let refused = workbench(&here, &["convert", "t", "out"], "");
        assert_eq!(refused, (2, String::new(), words.clone()));
        assert_eq!(fs::read(here.join("t")).expect("as it was"), bytes);
        assert!(!here.join("out").exists());
        let (status, out, message) = workbench(&here, &["table", "t"], "");
        assert_eq!((status, out.as_str()), (2, ""));
        let other_length = "workbench: t has 531 bytes and is neither a platter";
        assert!(
            message == words || message.starts_with(other_length),
            "{message}"
        );
    }
    fs::write(here.join("t"), &image).expect("written");
    let (status, _, message) = workbench(&here, &["convert", "t", "p"], "");
    assert_eq!(status, 2);
    assert!(message.contains("p is a platter (name "), "{message}");
    let (status, _, message) = workbench(&here, &["convert", "t", "none/out"], "");
    assert_eq!(status, 2);
    assert!(message.contains("none/out cannot be written"), "{message}");
    let (status, _, message) = workbench(&here, &["picture", "p.unreadable", "out"], "");
    assert_eq!(status, 2);
    assert!(
        message.contains("nor a table's image, which has 532"),
        "{message}"
    );
    fs::remove_dir_all(here).expect("removed");
}

/// Draws, and hands back the picture.
fn picture(here: &Path, command: &str, from: &str) -> String {
    let (status, out, message) = workbench(here, &[command, from, "out.svg"], "");
    assert_eq!((status, out.as_str(), message.as_str()), (0, "", ""));
    let svg = fs::read_to_string(here.join("out.svg")).expect("a picture");
    assert!(svg.starts_with("<svg") && svg.ends_with("</svg>\n"));
    svg
}

#[test]
fn pictures() {
    let here = folder("pictures");
    let (status, _, _) = workbench(&here, &["run", "--platter", "p", "week"], "");
    assert_eq!(status, 0);
    let lost = "start\nfault sector 30 writes next 1 unreadable\nwrite 30 \"lost\"\n";
    let (status, _, _) = workbench(&here, &["run", "--platter", "p"], lost);
    assert_eq!(status, 0);
    let line = ">spare 0: block 17, CRC error</text>";
    let svg = picture(&here, "picture", "p");
    assert!(svg.contains(line) && svg.contains(", 1 unreadable sector<"));
    assert!(svg.contains(">unreadable sector 30</text>"));
    assert!(svg.contains(">1 unreadable sector</text>"));

    let platter = fs::read(here.join("p")).expect("a platter");
    fs::write(here.join("table"), &platter[4960 * 532..][..532]).expect("written");
    let svg = picture(&here, "picture", "table");
    assert!(svg.contains(line) && svg.contains(", no bad block<"));
    fs::write(here.join("table"), [0; 532]).expect("written");
    assert!(picture(&here, "picture", "table").contains("no good table found"));

    let svg = picture(&here, "timeline", "week");
    assert!(svg.contains(">The run of week.plan<") && svg.contains(">162 commands ("));
    assert!(!svg.contains("other bytes"));
    let plan = "start\nwrite 0..3 \"one\"\ncompare 0..3 with \"two\"\n";
    fs::write(here.join("my.plan"), plan).expect("written");
    let (status, out, message) = workbench(&here, &["timeline", "my.plan", "out.svg"], "");
    let said = "workbench: my.plan: 1 of 1 expectations not met\n";
    assert_eq!((status, out.as_str(), message.as_str()), (1, "", said));
    let svg = fs::read_to_string(here.join("out.svg")).expect("a picture");
    let words = "4 reads, blocks 0–3: 4 accesses, 0 errors, good, other bytes";
    assert!(svg.contains(&format!("<title>{words}, about 0.")));
    fs::remove_dir_all(here).expect("removed");
}

#[test]
fn a_time_line_counts_the_moves_of_failed_commands() {
    let here = folder("failed-moves");
    let plan = "start\nwrite 5 \"after\"\nfault sector 5 writes next 1 timeout\n\
                fault sector 4960 writes next 1 timeout\nwrite 5 \"x\"\nread 5\n";
    fs::write(here.join("my.plan"), plan).expect("written");
    let (status, out, _) = workbench(&here, &["run", "my.plan"], "");
    assert!(status == 0 && out.contains("table not stored (timeout), failed, spared\n"));
    assert!(out.contains("\n3 commands, 107 accesses, 1 move, history: allowed\n"));
    let svg = picture(&here, "timeline", "my.plan");
    let sum = ">3 commands (1 moved a block, 1 failed), 107 surface accesses (2 errors), ";
    assert!(svg.contains(sum), "{svg}");
    assert!(svg.contains(">5 → sector 4928, timeout</text>"));
    for (plan, moves) in [("latch", 1), ("random", 32)] {
        let svg = picture(&here, "timeline", plan);
        assert!(svg.contains(&format!(" commands ({moves} moved a block, ")));
    }
    fs::remove_dir_all(here).expect("removed");
}

/// Asks for the odds of the banner with these further words.
fn odds(here: &Path, words: &str) -> (i32, String, String) {
    let words = format!("odds banner --rate 1/20 {words}");
    let words: Vec<&str> = words.split_whitespace().collect();
    workbench(here, &words, "")
}

#[test]
fn odds_are_the_same_on_any_number_of_threads() {
    let here = folder("odds");
    let (status, out, message) = odds(&here, "--seeds 12 --jobs 1 --json 1.json --picture 1.svg");
    assert_eq!((status, message.as_str()), (0, ""));
    let other = odds(&here, "--picture 3.svg --jobs 3 --json 3.json --seeds 12");
    assert_eq!(other, (0, out.clone(), String::new()));
    let read = |name: &str| fs::read_to_string(here.join(name)).expect("a file");
    assert!(read("1.json") == read("3.json") && read("1.svg") == read("3.svg"));
    assert!(out.starts_with("The odds of banner: 12 runs, with seeds 1..12\n"));
    assert!(out.contains("\nno history is broken: "), "{out}");
    assert!(read("1.svg").contains(">The odds of banner</text>"));
    fs::remove_dir_all(here).expect("removed");
}

#[test]
fn the_command_for_one_run_again_has_the_name_of_the_program() {
    let here = folder("odds-name");
    for (name, shown) in [
        (None, "workbench"),
        (Some(""), "workbench"),
        (Some("bin/workbench"), "bin/workbench"),
        (Some("a folder/bench"), "'a folder/bench'"),
    ] {
        let mut command = Command::new(program());
        command.args("odds banner --seeds 1 --rate 1/50".split(' '));
        command.env("WORKBENCH_ROOT", root());
        match name {
            Some(name) => command.env("WORKBENCH_NAME", name),
            None => command.env_remove("WORKBENCH_NAME"),
        };
        let output = ended(&mut command, &here, "");
        let out = String::from_utf8(output.stdout).expect("text");
        let again = "odds banner --seed S --rate 1/50 --dying 1/2";
        assert!(
            out.ends_with(&format!("\none run again: {shown} {again}\n")),
            "{out}"
        );
    }
    fs::remove_dir_all(here).expect("removed");
}

#[test]
fn one_run_of_the_odds_is_shown_again() {
    let here = folder("odds-again");
    let (_, out, _) = odds(&here, "--seeds 12");
    let failure = out.lines().find(|line| line.contains("unreadable block "));
    let (_, seed) = failure
        .expect("a failure")
        .split_once("seed ")
        .expect("a seed");
    let (status, out, _) = odds(&here, &format!("--seed {seed}"));
    assert_eq!(status, 1);
    assert!(out.contains(", failed, E "), "{out}");
    assert!(out.contains("\n  dead sectors: "), "{out}");
    assert!(out.ends_with(", history: allowed\n"), "{out}");
    let (_, traced, _) = odds(&here, &format!("--seed {seed} --trace"));
    assert!(traced.contains("\n    read sector ") && traced.len() > out.len());
    assert_eq!(odds(&here, &format!("--seed {seed}")).1, out);
    fs::remove_dir_all(here).expect("removed");
}

#[test]
fn odds_that_cannot_be_counted() {
    let here = folder("odds-wrong");
    fs::write(here.join("my.plan"), "start\nread 17\nexpect failed\n").expect("written");
    let asked = ["odds", "my.plan", "--seeds", "9", "--rate", "1/50"];
    let (status, out, message) = workbench(&here, &asked, "");
    assert_eq!((status, out.as_str()), (2, ""));
    let words = "workbench: my.plan:3: the plan is not good without random faults \
                 (expectation not met)";
    assert!(message.starts_with(words), "{message}");
    fs::write(here.join("my.plan"), "read 17\n").expect("written");
    let (status, _, message) = workbench(&here, &asked, "");
    assert_eq!(status, 2);
    assert!(message.starts_with("workbench: my.plan:1: the drive is not started"));
    let (status, out, message) = odds(&here, "--seeds 2 --json none/odds.json");
    assert_eq!(status, 2);
    assert!(out.starts_with("The odds of banner") && message.contains("none/odds.json"));
    fs::remove_dir_all(here).expect("removed");
}

#[test]
fn pages() {
    let here = folder("pages");
    let (status, out, message) = workbench(&here, &["report", "week", "week.html"], "");
    let said = "week.html: 162 commands, 419 accesses, 1 move, history: allowed\n";
    assert_eq!((status, out.as_str(), message.as_str()), (0, said, ""));
    let page = fs::read_to_string(here.join("week.html")).expect("a page");
    assert!(page.starts_with("<!DOCTYPE html>\n") && page.ends_with("</html>\n"));
    assert!(page.contains("<h1>The run of week.plan</h1>"));

    let plan = "start\nread 17\nexpect failed\nexpect good\n";
    fs::write(here.join("my.plan"), plan).expect("written");
    let (status, out, message) = workbench(&here, &["report", "my.plan", "my.html"], "");
    let said = "my.html: 1 command, 2 accesses, 0 moves, history: allowed; \
                1 of 2 expectations not met\n";
    assert_eq!((status, out.as_str(), message.as_str()), (1, said, ""));
    let page = fs::read_to_string(here.join("my.html")).expect("a page");
    assert!(page.contains("NOT as line 3 expects: failed"));

    fs::write(here.join("my.plan"), "start\nwrite 17 xx\n").expect("written");
    let (status, out, message) = workbench(&here, &["report", "my.plan", "none.html"], "");
    assert_eq!((status, out.as_str()), (2, ""));
    let named = "workbench: my.plan:2: \"xx\" is no data";
    assert!(message.starts_with(named), "{message}");
    assert!(!here.join("none.html").exists());
    fs::remove_dir_all(here).expect("removed");
}
