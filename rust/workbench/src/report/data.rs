//! What the page's script reads: each sector that was met or is not as it was made, in
//! JSON. Words that occur often stand there once.

use std::collections::HashMap;
use std::fmt::Write;

use super::kept::Part;
use super::platter::{geometry, States};
use super::sectors::Story;
use super::told::Told;

/// Words, each with its number.
#[derive(Default)]
struct Words {
    numbers: HashMap<String, usize>,
    all: Vec<String>,
}

impl Words {
    /// Finds the number of these words.
    fn number(&mut self, words: &str) -> usize {
        if let Some(&number) = self.numbers.get(words) {
            return number;
        }
        let number = self.all.len();
        self.numbers.insert(words.to_string(), number);
        self.all.push(words.to_string());
        number
    }
}

/// Writes the data of a page.
pub fn json(told: &Told, states: &States) -> String {
    let mut words = Words::default();
    let stories = told.log.sectors().iter();
    let stories: Vec<String> = stories
        .map(|(sector, story)| format!("\"{sector}\":{}", of_sector(&mut words, story)))
        .collect();
    let noted = states.noted(told);
    let changed = noted.iter().filter(|&&sector| states.is_changed(sector));
    let sentences: Vec<String> = changed
        .map(|&sector| format!("\"{sector}\":{}", quoted(&states.sentence(sector))))
        .collect();
    let moves = states.view.moves.iter();
    let moves: Vec<String> = moves
        .map(|moved| format!("\"{}\":{}", moved.block.number(), moved.sector))
        .collect();
    let noted: Vec<String> = noted.iter().map(u32::to_string).collect();
    let all: Vec<String> = words.all.iter().map(|words| quoted(words)).collect();
    format!(
        "{{\"map\":{},\"known\":{},\n\"noted\":[{}],\n\"moves\":{{{}}},\n\"sentences\":{{{}}},\n\"words\":[{}],\n\"stories\":{{{}}}}}",
        geometry(),
        states.view.known,
        noted.join(","),
        moves.join(","),
        sentences.join(",\n"),
        all.join(",\n"),
        stories.join(",\n"),
    )
}

/// Writes what happened to a sector: its counts, and then for each event the line, the
/// command, the words and how often; of those left out only how many they are.
fn of_sector(words: &mut Words, story: &Story) -> String {
    let mut json = format!("[{}", words.number(&story.counts.words()));
    for part in story.events.parts() {
        // Writing to a string does not fail.
        let _ = match part {
            Part::Gap(gap) => write!(json, ",{gap}"),
            Part::Thing(event, _, times) => {
                let (name, said) = (words.number(&event.name), words.number(&event.words));
                write!(json, ",[{},{name},{said},{times}]", event.line)
            }
        };
    }
    json + "]"
}

/// Writes a text in JSON, without any letter that could end the script.
fn quoted(text: &str) -> String {
    let mut json = String::from("\"");
    for letter in text.chars() {
        match letter {
            ' '..='~' if !"\"\\<>&'".contains(letter) => json.push(letter),
            _ => {
                let mut units = [0; 2];
                for unit in letter.encode_utf16(&mut units) {
                    let _ = write!(json, "\\u{unit:04x}");
                }
            }
        }
    }
    json + "\""
}

#[cfg(test)]
mod tests {
    use super::*;

    #[test]
    fn a_text_cannot_end_the_script() {
        assert_eq!(
            quoted("</script> \"é→\u{1F600}\\"),
            "\"\\u003c/script\\u003e \\u0022\\u00e9\\u2192\\ud83d\\ude00\\u005c\""
        );
        assert_eq!(quoted("2 writes; a"), "\"2 writes; a\"");
    }

    #[test]
    fn words_stand_there_once() {
        let mut words = Words::default();
        assert_eq!(
            [words.number("a"), words.number("b"), words.number("a")],
            [0, 1, 0]
        );
        assert_eq!(words.all, ["a", "b"]);
    }
}
