//! A person at a terminal, by `script`, which makes one: what is typed comes back with the
//! output and the messages.

mod common;

use std::fs;
use std::path::Path;
use std::process::Command;

use common::{ended, folder, program, root};

/// Types lines, then the end. Says the exit status, and what the terminal shows.
fn typed(here: &Path, arguments: &str, lines: &str) -> (i32, String) {
    let line = format!("'{}' {arguments}", program().display());
    let mut command = Command::new("script");
    command.args(["-q", "-e", "-c", &line, "/dev/null"]);
    let output = ended(command.env("WORKBENCH_ROOT", root()), here, lines);
    let shown = String::from_utf8(output.stdout).expect("text");
    let status = output.status.code().expect("a status");
    (status, shown.replace("\r\n", "\n"))
}

#[test]
fn a_wrong_line_is_told_and_the_run_goes_on() {
    let here = folder("typed");
    let lines =
        "raed 17\nstart\nwrite 17 \"one\"\nexpect god\nexpect good\ncompare 17 with \"one\"\n";
    let (status, shown) = typed(&here, "run --platter p", lines);
    assert_eq!(status, 0, "{shown}");
    for part in [
        "workbench: lines of a plan, please; help shows them, and Ctrl-D ends\n",
        "\nworkbench: line 1: \"raed\" begins no line of a plan; did you mean \"read\"?\n",
        "\nworkbench: line 4: \"god\" cannot be expected; did you mean \"good\"? The words are",
        "\n  the bytes are \"one\"\n",
        "\n  2 of 2 expectations met\n  2 lines were wrong\n",
        ", history: allowed\n",
    ] {
        assert!(shown.contains(part), "{part}: {shown}");
    }
    assert!(here.join("p").exists());
    // The same lines of a pipe end the run.
    let mut command = Command::new(program());
    let output = ended(command.arg("run"), &here, lines);
    assert_eq!(output.status.code(), Some(2));
    let message = String::from_utf8(output.stderr).expect("text");
    assert!(message.starts_with("workbench: standard input:1: \"raed\" begins"));
    fs::remove_dir_all(here).expect("removed");
}

#[test]
fn who_wants_to_end_is_told_how() {
    let here = folder("typed-end");
    let words = ["quit", "exit", "q", "bye", "Quit"];
    let (status, shown) = typed(&here, "run", &format!("start\n{}\n", words.join("\n")));
    assert_eq!(status, 0, "{shown}");
    for (number, word) in (2..).zip(words) {
        let message = format!(
            "\nworkbench: line {number}: \"{word}\" begins no line of a plan; Ctrl-D at the start \
             of a line ends the run\n"
        );
        assert!(shown.contains(&message), "{message}: {shown}");
    }
    assert!(shown.contains("\n  5 lines were wrong\n"), "{shown}");
    // In a plan there is no such key.
    fs::write(here.join("my.plan"), "start\nquit\n").expect("written");
    let (status, shown) = typed(&here, "run my.plan", "");
    let message =
        "workbench: my.plan:2: \"quit\" begins no line of a plan; the line \"help\" shows \
                   all\n";
    assert!(status == 2 && shown.ends_with(message), "{shown}");
    fs::remove_dir_all(here).expect("removed");
}

#[test]
fn a_plan_in_a_file_is_not_typed() {
    let here = folder("not-typed");
    fs::write(here.join("my.plan"), "start\nraed 17\nread 17\n").expect("written");
    let (status, shown) = typed(&here, "run my.plan", "");
    assert_eq!(status, 2, "{shown}");
    assert!(
        shown.contains("workbench: my.plan:2: \"raed\" begins"),
        "{shown}"
    );
    assert!(!shown.contains("read 17: "), "{shown}");
    fs::remove_dir_all(here).expect("removed");
}

#[test]
fn the_exit_status_is_that_of_the_lines_that_were_done() {
    let here = folder("typed-status");
    let (status, shown) = typed(&here, "run", "start\nexpect failed\n");
    assert_eq!(status, 1, "{shown}");
    for lines in ["", "raed\n"] {
        let (status, shown) = typed(&here, "run", lines);
        assert_eq!(status, 0, "{shown}");
        assert!(shown.ends_with("workbench: no line was done\n"), "{shown}");
    }
    let (status, shown) = typed(&here, "run --platter p", "say so\nfault clear\n");
    assert_eq!(status, 0, "{shown}");
    let last = "workbench: no line spoke to the drive: there is nothing to sum up\n";
    assert!(
        shown.ends_with(last) && !shown.contains("Summary"),
        "{shown}"
    );
    assert!(!here.join("p").exists());
    fs::remove_dir_all(here).expect("removed");
}

#[test]
fn help_is_shown() {
    let here = folder("typed-help");
    let (status, shown) = typed(&here, "run", "help\nhelp fault\nhelp falt\n");
    assert_eq!(status, 0, "{shown}");
    assert!(
        shown.contains("\nLines of a plan, each with an example:\n"),
        "{shown}"
    );
    assert_eq!(
        shown.matches("\n  fault random seed S rate N/M ").count(),
        2
    );
    assert!(shown.contains("line 3: \"falt\" begins no line of a plan; did you mean \"fault\"?"));
    fs::remove_dir_all(here).expect("removed");
}
