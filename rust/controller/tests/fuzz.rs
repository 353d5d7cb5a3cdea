//! The program of the comparison: what it does not call a comparison.
#![cfg(feature = "compare")]

use std::env;
use std::process::Command;

#[test]
fn nothing_to_compare_is_a_usage_error() {
    let program = env::var_os("CARGO_BIN_EXE_fuzz").expect("cargo names it");
    for counts in [["0", "10"], ["1", "0"], ["0", "0"]] {
        let run = Command::new(&program).args(counts).output();
        let output = run.expect("the program");
        assert_eq!(output.status.code(), Some(2), "{counts:?}");
        assert_eq!(output.stdout, b"", "{counts:?}");
        let message = String::from_utf8(output.stderr).expect("text");
        let mut lines = message.lines();
        let said = "fuzz: with 0 seeds or 0 calls no list is compared";
        assert_eq!(lines.next(), Some(said));
        assert!(lines.next().is_some_and(|line| line.starts_with("usage:")));
    }
}
