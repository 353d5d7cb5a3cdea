//! Words that are near to others, for slips of the pen.

use crate::quote;

/// Says which of these words may be meant: `; did you mean "read"?`, or nothing if none
/// is near.
pub fn meant(word: &str, among: &[&str]) -> String {
    match near(word, among) {
        Some(near) => format!("; did you mean \"{near}\"?"),
        None => String::new(),
    }
}

/// Says that a command has no such option, which may be meant, and where all are told.
pub fn no_option(word: &str, command: &str, options: &[&str]) -> String {
    see_help(
        &format!("{} is no option of {command}", quote(word)),
        word,
        options,
    )
}

/// Says what is wrong with a word, which of these may be meant, and where all are told.
pub fn see_help(fault: &str, word: &str, among: &[&str]) -> String {
    match meant(word, among) {
        none if none.is_empty() => format!("{fault}; see --help"),
        meant => format!("{fault}{meant} see --help"),
    }
}

/// Finds the nearest of these words, the first of equally near ones, if it is near enough:
/// one step for each three letters, and three at most.
pub fn near<'a>(word: &str, among: &[&'a str]) -> Option<&'a str> {
    let word: Vec<char> = word.to_lowercase().chars().collect();
    let near = among.iter().filter_map(|&other| {
        let letters: Vec<char> = other.chars().collect();
        let most = (word.len().max(letters.len()) / 3).clamp(1, 3);
        if word.len().abs_diff(letters.len()) > most {
            return None;
        }
        let steps = steps(&word, &letters);
        (steps <= most && steps < letters.len()).then_some((steps, other))
    });
    near.min_by_key(|(steps, _)| *steps).map(|(_, other)| other)
}

/// Counts the steps from one word to another. A step takes a letter out, puts one in, puts
/// one in the place of another, or lets two neighbours change places.
fn steps(from: &[char], to: &[char]) -> usize {
    let mut rows: Vec<Vec<usize>> = vec![(0..=to.len()).collect()];
    for i in 1..=from.len() {
        let mut row = vec![i];
        for j in 1..=to.len() {
            let same = from[i - 1] == to[j - 1];
            let other = rows[i - 1][j - 1] + usize::from(!same);
            let mut least = other.min(rows[i - 1][j] + 1).min(row[j - 1] + 1);
            if i > 1 && j > 1 && from[i - 1] == to[j - 2] && from[i - 2] == to[j - 1] {
                least = least.min(rows[i - 2][j - 2] + 1);
            }
            row.push(least);
        }
        rows.push(row);
    }
    rows[from.len()][to.len()]
}

#[cfg(test)]
mod tests {
    use super::*;

    #[test]
    fn steps_are_counted() {
        let count = |from: &str, to: &str| {
            let letters = |word: &str| word.chars().collect::<Vec<char>>();
            steps(&letters(from), &letters(to))
        };
        for (from, to, wanted) in [
            ("", "", 0),
            ("", "read", 4),
            ("read", "read", 0),
            ("raed", "read", 1),
            ("red", "read", 1),
            ("reads", "read", 1),
            ("read", "rear", 1),
            ("ared", "read", 2),
            ("kitten", "sitting", 3),
        ] {
            assert_eq!(count(from, to), wanted, "{from} {to}");
            assert_eq!(count(to, from), wanted, "{to} {from}");
        }
    }

    #[test]
    fn near_words_and_no_others() {
        let words = ["say", "read", "write", "write-verify", "unreadable"];
        for (word, wanted) in [
            ("raed", Some("read")),
            ("READ", Some("read")),
            ("rite", Some("write")),
            ("writeverify", Some("write-verify")),
            ("wriet-verfy", Some("write-verify")),
            ("unreadabel", Some("unreadable")),
            ("sy", Some("say")),
            ("save", None),
            ("xyz", None),
            ("s", None),
            ("", None),
            ("quit", None),
        ] {
            assert_eq!(near(word, &words), wanted, "{word}");
        }
        assert_eq!(near(&"r".repeat(5_000_000), &words), None);
        assert_eq!(meant("raed", &words), "; did you mean \"read\"?");
        assert_eq!(meant("xyz", &words), "");
        let option = |word| no_option(word, "run", &["--platter", "--trace"]);
        assert_eq!(
            option("--platform"),
            "\"--platform\" is no option of run; did you mean \"--platter\"? see --help"
        );
        assert_eq!(
            option("--fast"),
            "\"--fast\" is no option of run; see --help"
        );
    }
}
