//! The files that are made from here and kept beside the test programs.

use std::fs;
use std::io;
use std::path::Path;

use crate::{images, parity, script, scripts};

/// The folder of the stored scripts.
const SCRIPTS: &str = "tests/scripts";

/// A file below the root, and what it should hold.
#[derive(Clone, Debug, PartialEq, Eq)]
pub struct Fixture {
    pub path: String,
    pub contents: String,
}

impl Fixture {
    fn new(path: impl Into<String>, contents: String) -> Fixture {
        Fixture {
            path: path.into(),
            contents,
        }
    }
}

/// All files.
pub fn all() -> Vec<Fixture> {
    let mut fixtures = of_images();
    fixtures.push(of_parity());
    fixtures.extend(of_scripts());
    fixtures
}

/// The image cases and their transcript.
pub fn of_images() -> Vec<Fixture> {
    let input = images::input();
    let transcript = images::transcript(input.as_bytes());
    vec![
        Fixture::new("crates/test_images/stdin", input),
        Fixture::new("crates/test_images/stdout", transcript),
    ]
}

/// The parity table as it is printed.
pub fn of_parity() -> Fixture {
    Fixture::new("crates/print_parity/stdout", parity::lines())
}

/// The stored scripts, each with its transcript.
pub fn of_scripts() -> Vec<Fixture> {
    let mut fixtures = vec![];
    for stored in scripts::all() {
        let path = format!("{SCRIPTS}/{}", stored.name);
        let transcript = script::transcript(&stored.text);
        fixtures.push(Fixture::new(format!("{path}.script"), stored.text));
        fixtures.push(Fixture::new(format!("{path}.expected"), transcript));
    }
    fixtures
}

/// Writes all files. The root must be there; folders below it are made.
pub fn regenerate(root: &Path) -> io::Result<()> {
    if !root.is_dir() {
        let message = format!("{} is no folder", root.display());
        return Err(io::Error::new(io::ErrorKind::NotFound, message));
    }
    for fixture in all() {
        let path = root.join(&fixture.path);
        if let Some(folder) = path.parent() {
            fs::create_dir_all(folder)?;
        }
        fs::write(&path, &fixture.contents)?;
    }
    Ok(())
}

/// What is not current below the root, a message for each file.
pub fn stale(root: &Path) -> Vec<String> {
    let fixtures = all();
    let stale = fixtures.iter().filter_map(|fixture| {
        let path = root.join(&fixture.path);
        let fault = match fs::read(&path) {
            Ok(found) => difference(&found, fixture.contents.as_bytes())?,
            Err(error) => format!("cannot be read: {error}"),
        };
        Some(format!("{}: {fault}", path.display()))
    });
    stale.chain(strays(root, &fixtures)).collect()
}

/// Files in the folder of the stored scripts that are not made from here.
fn strays(root: &Path, fixtures: &[Fixture]) -> Vec<String> {
    let mut paths = match paths_in(root, SCRIPTS) {
        Ok(paths) => paths,
        Err(error) => return vec![format!("{SCRIPTS}: cannot be read: {error}")],
    };
    paths.retain(|path| fixtures.iter().all(|fixture| fixture.path != *path));
    paths.sort();
    let said = |path| format!("{path}: is not made from here");
    paths.into_iter().map(said).collect()
}

/// The files of a folder below the root, as fixtures have them.
fn paths_in(root: &Path, folder: &str) -> io::Result<Vec<String>> {
    fs::read_dir(root.join(folder))?
        .map(|file| Ok(format!("{folder}/{}", file?.file_name().display())))
        .collect()
}

/// The first line in which two files differ, in words; nothing if they are the
/// same.
fn difference(found: &[u8], wanted: &[u8]) -> Option<String> {
    if found == wanted {
        return None;
    }
    let mut found = found.split_inclusive(|&c| c == b'\n');
    let mut wanted = wanted.split_inclusive(|&c| c == b'\n');
    let mut number = 1;
    loop {
        match (found.next(), wanted.next()) {
            (Some(one), Some(other)) if one == other => number += 1,
            (one, other) => {
                let place = common(one.unwrap_or(b""), other.unwrap_or(b""));
                return Some(format!(
                    "not current, line {number} differs\n  found:  {}\n  wanted: {}",
                    excerpt(one, place),
                    excerpt(other, place)
                ));
            }
        }
    }
}

/// How many bytes two lines have in common at their start.
fn common(one: &[u8], other: &[u8]) -> usize {
    one.iter().zip(other).take_while(|(a, b)| a == b).count()
}

/// The part of a line around a place.
fn excerpt(line: Option<&[u8]>, place: usize) -> String {
    let Some(line) = line else {
        return String::from("(no such line)");
    };
    let from = place.saturating_sub(24);
    let to = line.len().min(place + 40);
    let before = if from > 0 { "... " } else { "" };
    let after = if to < line.len() { " ..." } else { "" };
    format!("{before}{}{after}", line[from..to].escape_ascii())
}

#[cfg(test)]
mod tests {
    use super::*;

    fn first_line(found: &str, wanted: &str) -> Option<String> {
        let message = difference(found.as_bytes(), wanted.as_bytes())?;
        message.lines().next().map(String::from)
    }

    #[test]
    fn the_first_differing_line_is_named() {
        assert_eq!(first_line("", ""), None);
        assert_eq!(first_line("a\nb\n", "a\nb\n"), None);
        let named = |number: u32| Some(format!("not current, line {number} differs"));
        assert_eq!(first_line("x\nb\n", "a\nb\n"), named(1));
        assert_eq!(first_line("a\nx\nc\n", "a\nb\nd\n"), named(2));
        assert_eq!(first_line("a\n", "a\nb\n"), named(2));
        assert_eq!(first_line("a\nb\nc\n", "a\nb\n"), named(3));
        assert_eq!(first_line("a\nb", "a\nb\n"), named(2));
        assert_eq!(first_line("", "a\n"), named(1));
    }

    #[test]
    fn excerpts_are_short() {
        let found = format!("{}x{}\n", "a".repeat(300), "b".repeat(300));
        let wanted = format!("{}y{}\n", "a".repeat(300), "b".repeat(300));
        let message = difference(found.as_bytes(), wanted.as_bytes()).expect("a difference");
        assert!(message.len() < 250, "{message}");
        assert!(message.contains("axb") && message.contains("ayb"));
        let message = difference(b"", b"a\n").expect("a difference");
        assert!(message.contains("(no such line)"), "{message}");
    }

    #[test]
    fn what_is_not_current_is_named() {
        let root = std::env::temp_dir().join(format!("reference-fixtures-{}", std::process::id()));
        fs::create_dir_all(&root).expect("a folder");
        regenerate(&root).expect("written");
        assert_eq!(stale(&root), [""; 0]);
        let file = |name: &str| root.join(SCRIPTS).join(name);
        fs::write(file("week.script"), "start\n").expect("written");
        fs::remove_file(file("clean.expected")).expect("removed");
        fs::write(file("weak.script"), "start\n").expect("written");
        let stale = stale(&root);
        assert_eq!(stale.len(), 3, "{stale:?}");
        for (said, part) in stale.iter().zip([
            "clean.expected: cannot be read",
            "week.script: not current",
            "tests/scripts/weak.script: is not made from here",
        ]) {
            assert!(said.contains(part), "{said}");
        }
        fs::remove_dir_all(root).expect("removed");
    }

    #[test]
    fn names_are_known() {
        let paths: Vec<String> = all().into_iter().map(|fixture| fixture.path).collect();
        assert_eq!(
            paths[..3],
            [
                "crates/test_images/stdin",
                "crates/test_images/stdout",
                "crates/print_parity/stdout"
            ]
        );
        for (pair, stored) in paths[3..].chunks(2).zip(scripts::all()) {
            let path = format!("tests/scripts/{}", stored.name);
            assert_eq!(pair, [format!("{path}.script"), format!("{path}.expected")]);
        }
    }
}
