//! The command itself: its exit status and its messages.

use std::env;
use std::path::PathBuf;
use std::process::Command;

/// Runs the command in its own folder. Says its exit status, its output and its
/// messages.
fn reference(arguments: &[&str]) -> (i32, String, String) {
    let program = env::var_os("CARGO_BIN_EXE_reference").expect("cargo names it");
    let program = PathBuf::from(program);
    let output = Command::new(&program)
        .args(arguments)
        .current_dir(program.parent().expect("a folder"))
        .output()
        .expect("the command");
    let text = |bytes| String::from_utf8(bytes).expect("text");
    let status = output.status.code().expect("a status");
    (status, text(output.stdout), text(output.stderr))
}

#[test]
fn nothing_to_compare_is_a_usage_error() {
    for counts in [["0", "10"], ["1", "0"], ["0", "0"]] {
        let [seeds, calls] = counts;
        let (status, out, message) = reference(&["compare", "cat", seeds, calls]);
        assert_eq!((status, out.as_str()), (2, ""), "{counts:?}");
        let mut lines = message.lines();
        let said = "reference: with 0 seeds or 0 calls nothing is compared";
        assert_eq!(lines.next(), Some(said));
        assert!(lines.next().is_some_and(|line| line.starts_with("usage:")));
    }
}

#[test]
fn agreement_says_how_many_calls() {
    let itself = "./reference script-run";
    let (status, out, message) = reference(&["compare", itself, "2", "20"]);
    assert_eq!((status, message.as_str()), (0, ""));
    let last = out.lines().last().expect("a line");
    let calls = last.strip_suffix(" calls of 2 seeds agreed").expect(last);
    assert!(calls.parse::<u32>().expect("a number") >= 40, "{last}");
}

#[test]
fn a_world_says_what_was_looked_at() {
    let (status, out, message) = reference(&["world", "plain", "1", "1", "1", "1"]);
    assert_eq!((status, message.as_str()), (0, ""));
    let mut lines = out.lines();
    let first = lines.next().expect("a line");
    let size = "plain: blocks 1, spares 1, commands 1, cuts 1: ";
    assert!(first.starts_with(size), "{first}");
    let last = lines.next().expect("a line");
    assert!(last.ends_with("; all are allowed"), "{last}");
    for words in [
        &["world", "huge"][..],
        &["world", "plain", "3", "1", "1", "1"],
    ] {
        assert_eq!(reference(words).0, 2, "{words:?}");
    }
}

#[test]
fn a_difference_is_no_success() {
    let (status, out, _) = reference(&["compare", "cat", "2", "20"]);
    assert_eq!(status, 1);
    assert!(out.starts_with("seed 1: line 1 of the transcript differs\n"));
    assert!(!out.contains("agreed"), "{out}");
}
