//! What the tests share.

#![allow(dead_code)] // each test needs a part of it

pub mod checkout;

use std::fs;
use std::io::Write;
use std::path::{Path, PathBuf};
use std::process::{Command, Output, Stdio};

/// Finds what cargo says of this package while it runs the tests. What it said at the build
/// would lead a copied checkout back to the first one.
fn from_cargo(name: &str) -> PathBuf {
    PathBuf::from(std::env::var_os(name).expect("cargo sets it"))
}

/// Finds the checkout that is tested.
pub fn root() -> PathBuf {
    from_cargo("CARGO_MANIFEST_DIR").join("../..")
}

/// Finds the workbench that is tested.
pub fn program() -> PathBuf {
    from_cargo("CARGO_BIN_EXE_workbench")
}

/// Makes an empty folder for one test.
pub fn folder(name: &str) -> PathBuf {
    let folder = std::env::temp_dir().join(format!("workbench-{}-{name}", std::process::id()));
    let _ = fs::remove_dir_all(&folder);
    fs::create_dir_all(&folder).expect("a folder");
    folder
}

/// Runs a command in a folder to its end.
pub fn ended(command: &mut Command, folder: &Path, input: &str) -> Output {
    let mut child = command
        .current_dir(folder)
        .stdin(Stdio::piped())
        .stdout(Stdio::piped())
        .stderr(Stdio::piped())
        .spawn()
        .expect("the command");
    let mut pipe = child.stdin.take().expect("a pipe");
    // A command that refuses its arguments is gone before it reads.
    let _ = pipe.write_all(input.as_bytes());
    drop(pipe);
    child.wait_with_output().expect("its end")
}

/// Runs the workbench in a folder. Says its exit status, its output and its messages.
pub fn workbench(folder: &Path, arguments: &[&str], input: &str) -> (i32, String, String) {
    let mut command = Command::new(program());
    command.args(arguments).env("WORKBENCH_ROOT", root());
    let output = ended(&mut command, folder, input);
    let text = |bytes| String::from_utf8(bytes).expect("text");
    let status = output.status.code().expect("a status");
    (status, text(output.stdout), text(output.stderr))
}

/// Runs the workbench, which goes well. Says its output.
pub fn done(folder: &Path, arguments: &[&str], input: &str) -> String {
    let (status, out, message) = workbench(folder, arguments, input);
    assert_eq!((status, message.as_str()), (0, ""), "{arguments:?}: {out}");
    out
}
