//! The tables of the documents name theorems and definitions that are declared in the
//! files beside them.

mod common;

use std::fs;
use std::path::Path;

use common::root;

/// Holds a row of a table that names files of proofs or definitions.
struct Row<'a> {
    /// Each a name, or a name and its type.
    names: Vec<&'a str>,
    /// Each a file or a folder under `crates`.
    paths: Vec<String>,
}

/// Lists what stands in backquotes.
fn quoted(cell: &str) -> impl Iterator<Item = &str> {
    cell.split('`').skip(1).step_by(2)
}

/// Returns the row of a line, if it is one.
fn row(line: &str) -> Option<Row<'_>> {
    let cells = line.strip_prefix('|')?.strip_suffix('|')?;
    let [_, names, files] = cells.split('|').collect::<Vec<_>>()[..] else {
        return None;
    };
    let paths = paths(files);
    let names = quoted(names).filter(|name| !name.contains('/')).collect();
    (!paths.is_empty()).then_some(Row { names, paths })
}

/// Lists the files and folders that a cell names. A name alone is a file in the folder
/// of the one before it.
fn paths(cell: &str) -> Vec<String> {
    let mut folder = None;
    let mut paths = Vec::new();
    for name in quoted(cell) {
        match name.split('/').collect::<Vec<_>>()[..] {
            [owner, part @ ("src" | "specs" | "proofs"), ..] if owner != "*" => {
                folder = Some(format!("{owner}/{part}"));
                paths.push(String::from(name));
            }
            [file] => paths.extend(folder.as_ref().map(|folder| format!("{folder}/{file}"))),
            _ => {}
        }
    }
    paths
}

/// Returns the text of a file, or of all files in a folder.
fn text(path: &Path) -> Option<String> {
    if !path.is_dir() {
        return fs::read_to_string(path.with_extension("antt")).ok();
    }
    let entries = fs::read_dir(path).ok()?.flatten();
    Some(entries.filter_map(|entry| text(&entry.path())).collect())
}

/// Tells whether a line of the text declares the name, with its type if that is said.
fn declares(text: &str, name: &str) -> bool {
    let begins = format!("{name} :");
    let mut lines = text.lines().map(bare);
    lines.any(|line| match name.contains(" : ") {
        true => line == name,
        false => line.starts_with(&begins),
    })
}

/// Returns a line without what may stand before the name that it declares.
fn bare(line: &str) -> &str {
    let line = line.trim();
    let words = ["pub ", "abbrev ", "unfoldable ", "record ", "data "];
    match words.iter().find_map(|word| line.strip_prefix(word)) {
        Some(rest) => bare(rest),
        None => line,
    }
}

/// Lists what a row names and what is not there.
fn missing(row: &Row) -> Vec<String> {
    let mut missing = Vec::new();
    let mut all = String::new();
    for path in &row.paths {
        match text(&root().join("crates").join(path)) {
            Some(text) => all += &text,
            None => missing.push(path.clone()),
        }
    }
    let names = row.names.iter().filter(|name| !declares(&all, name));
    missing.extend(names.map(|name| String::from(*name)));
    missing
}

/// Lists what a document's tables name and what is not there.
fn missing_of(document: &str) -> Vec<String> {
    let rows: Vec<Row> = document.lines().filter_map(row).collect();
    assert!(rows.iter().any(|row| !row.names.is_empty()), "no row");
    rows.iter().flat_map(missing).collect()
}

fn document(name: &str) -> String {
    fs::read_to_string(root().join(name)).expect("a document")
}

#[test]
fn what_the_tables_name_is_declared() {
    let name = "docs/DESIGN.md";
    assert_eq!(missing_of(&document(name)), [""; 0], "{name}");
}

#[test]
fn a_wrong_name_type_or_file_is_noticed() {
    let theorems = document("docs/DESIGN.md");
    for (right, wrong) in [
        ("read_written", "read_writen"),
        ("unpacked", "unpackt"),
        ("demand_3 : Demand3", "demand_3 : Demand1"),
        ("demands/proofs/Allowed", "demands/proofs/Alowed"),
        ("ShutOut", "ShutOt"),
    ] {
        let [right, quoted] = [right, wrong].map(|name| format!("`{name}`"));
        assert!(theorems.contains(&right), "{right}");
        let missing = missing_of(&theorems.replace(&right, &quoted));
        assert!(missing.iter().any(|name| name.ends_with(wrong)), "{wrong}");
    }
}

#[test]
#[should_panic(expected = "no row")]
fn a_document_without_rows_is_noticed() {
    missing_of("| what | theorem | file |\n|---|---|---|\n");
}
