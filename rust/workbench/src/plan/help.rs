//! The lines of a plan in words, for its line `help`: a part of the command's own help.

use usage::HELP;

use crate::show::wrapped;

/// The part about plans stands between these.
const BEGIN: &str = "Lines of a plan";
const END: &str = "\n\nExit status";

/// Behind the lines stand the sentences about their parts.
const SENTENCES: &str = "\nBLOCKS is";

/// Lines are at most this long.
const WIDTH: usize = 88;

/// Gives all that the help says about plans.
pub fn all() -> &'static str {
    let begin = HELP.find(BEGIN).unwrap_or_default();
    let end = HELP.find(END).unwrap_or(HELP.len());
    &HELP[begin..end]
}

/// Gives the words that lines begin with, each once.
pub fn words() -> Vec<&'static str> {
    let mut words: Vec<&str> = lines().filter_map(first).collect();
    words.dedup();
    words.retain(|word| *word != "#");
    words
}

/// Gives the lines that begin with this word, and the sentences about their parts.
pub fn of(word: &str) -> Result<String, String> {
    let lines: Vec<&str> = lines().filter(|line| first(line) == Some(word)).collect();
    if lines.is_empty() {
        return Err(unknown(word));
    }
    let about = sentences().into_iter();
    let about = about.filter(|sentence| is_about(sentence, word, &lines));
    let about: Vec<String> = about.collect();
    let wrapped = wrapped(&about.join(" "), WIDTH);
    let lines = lines.into_iter().map(String::from).chain(wrapped);
    Ok(lines.collect::<Vec<String>>().join("\n"))
}

/// Gives an example of the line that begins most like this one.
pub fn example(line: &str) -> Option<&'static str> {
    let mut best = (0, None);
    for (form, example) in lines().filter_map(columns) {
        let alike = alike(form, line);
        if alike > best.0 {
            best = (alike, Some(example));
        }
    }
    best.1
}

/// Parts a line of the help into its form and its example.
fn columns(line: &'static str) -> Option<(&'static str, &'static str)> {
    let (form, example) = line.trim().split_once("  ")?;
    Some((form, example.trim_start()))
}

/// Counts the words with which a line begins as this form does. A word in capitals stands
/// for any other, and does not count.
fn alike(form: &str, line: &str) -> usize {
    let pairs = form.split_whitespace().zip(line.split_whitespace());
    let same = pairs.take_while(|(part, word)| is_capital(part) || part == word);
    same.filter(|(part, _)| !is_capital(part)).count()
}

/// Says that a word begins no line.
pub fn unknown(word: &str) -> String {
    let quote = usage::quote(word);
    let rest = match usage::near::near(word, &words()) {
        Some(near) => format!("did you mean \"{near}\"?"),
        None => String::from("the line \"help\" shows all"),
    };
    format!("{quote} begins no line of a plan; {rest}")
}

/// Gives the lines, each with its example.
fn lines() -> impl Iterator<Item = &'static str> {
    all().lines().filter(|line| line.starts_with("  "))
}

fn first(line: &'static str) -> Option<&'static str> {
    line.split_whitespace().next()
}

/// Gives the sentences about the parts of lines.
fn sentences() -> Vec<String> {
    let (_, rest) = all().split_once(SENTENCES).unwrap_or_default();
    let text: Vec<&str> = SENTENCES.split_whitespace().collect();
    let text: Vec<&str> = text.into_iter().chain(rest.split_whitespace()).collect();
    let text = text.join(" ");
    let sentences = text.trim_end_matches('.').split(". ");
    sentences.map(|sentence| format!("{sentence}.")).collect()
}

/// Says whether a sentence is about a part of these lines, or about the line of this word.
fn is_about(sentence: &str, word: &str, lines: &[&str]) -> bool {
    let bare = |part: &str| {
        part.trim_matches(|c: char| !c.is_alphanumeric())
            .to_string()
    };
    let parts: Vec<String> = sentence.split_whitespace().map(bare).collect();
    let in_lines = |part: &String| {
        let mut parts = lines.iter().flat_map(|line| line.split_whitespace());
        parts.any(|other| bare(other) == *part)
    };
    let told = parts.first().filter(|part| is_capital(part));
    let mut named = parts.iter().take(4);
    let line = sentence.starts_with("The line") && named.any(|part| part == word);
    line || told.is_some_and(in_lines)
}

/// Says whether a word stands for a part of a line, as BLOCKS does.
fn is_capital(word: &str) -> bool {
    word.chars().all(|letter| letter.is_ascii_uppercase())
}
