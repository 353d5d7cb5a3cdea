//! The workbench's command line: its help, its version, and what its arguments ask
//! for. The files that they name are looked at too, so that a wrong one is told at
//! once; `outputs` says which must not be replaced.

mod library;
pub mod near;
mod odds;
mod options;
pub mod outputs;
mod quote;
mod repository;
mod work;

use std::ffi::OsString;
use std::io::ErrorKind::BrokenPipe;
use std::io::{self, Write};
use std::process::ExitCode;

pub use odds::{Odds, Seeds};
pub use quote::{named, plain, quote, short, shown};
pub use repository::called;
pub use work::{Export, ImageForm, Plan, TagPlace, Work};

/// The help: every command, and every line of a plan with an example.
pub const HELP: &str = include_str!("help.txt");

/// Says what a command line asks for.
#[derive(Clone, Debug, PartialEq, Eq)]
pub enum Asked {
    /// This text.
    Answer(String),
    /// Something that is to be done.
    Work(Work),
}

/// Reads the arguments of a command line.
pub fn asked(arguments: impl Iterator<Item = OsString>) -> Result<Asked, String> {
    let words = arguments.map(OsString::into_string);
    let words: Vec<String> = words
        .collect::<Result<_, _>>()
        .map_err(|word| format!("{} is no UTF-8 text", word.display()))?;
    let words: Vec<&str> = words.iter().map(String::as_str).collect();
    match words[..] {
        ["--help" | "-h" | "help"] => Ok(Asked::Answer(String::from(HELP))),
        ["--version"] => Ok(Asked::Answer(version())),
        _ => work::parse(&words, repository::plans().as_deref()).map(Asked::Work),
    }
}

/// Says the version of the workbench, and the library that it is linked with.
fn version() -> String {
    let version = env!("CARGO_PKG_VERSION");
    let library = match repository::library() {
        Some(folder) => library::name(&folder),
        None => format!("library: {} names no folder", repository::ROOT),
    };
    format!("workbench {version}\n{library}\n")
}

/// Writes to standard output. If that is closed, whoever read it has seen enough.
pub fn say(text: &str) -> Result<(), String> {
    match io::stdout().write_all(text.as_bytes()) {
        Err(error) if error.kind() == BrokenPipe => Ok(()),
        said => said.map_err(output_fault),
    }
}

pub fn output_fault(error: io::Error) -> String {
    format!("the output cannot be written: {error}")
}

/// Says what is wrong, and hands back the status of a wrong argument, plan or file.
pub fn refuse(message: String) -> ExitCode {
    tell(&quote::plain_lines(&message));
    ExitCode::from(2)
}

/// Writes a message to standard error. If that is closed, nobody can be told.
pub fn tell(message: &str) {
    let _ = writeln!(io::stderr(), "workbench: {message}");
}

#[cfg(test)]
mod tests {
    use super::*;
    use std::os::unix::ffi::OsStringExt;

    fn answer(words: &[&str]) -> Result<Asked, String> {
        asked(words.iter().map(OsString::from))
    }

    #[test]
    fn help_and_version_are_answered() {
        for word in ["--help", "-h", "help"] {
            assert_eq!(answer(&[word]), Ok(Asked::Answer(String::from(HELP))));
        }
        let Ok(Asked::Answer(version)) = answer(&["--version"]) else {
            panic!("no answer");
        };
        let (first, rest) = version.split_once('\n').expect("two lines");
        assert_eq!(first, concat!("workbench ", env!("CARGO_PKG_VERSION")));
        assert!(
            rest.starts_with("library") && rest.ends_with('\n'),
            "{rest}"
        );
        assert!(answer(&["--version", "more"]).is_err());
    }

    #[test]
    fn arguments_are_text() {
        let word = OsString::from_vec(vec![b'a', 0xFF]);
        let message = asked([word].into_iter()).expect_err("no text");
        assert!(message.ends_with(" is no UTF-8 text"), "{message}");
    }
}
