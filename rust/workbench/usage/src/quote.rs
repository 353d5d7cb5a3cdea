//! Quotes of what a person or a file gave: short, on one line, and harmless on a terminal.

/// A quote has so many characters at most.
const MOST: usize = 40;

/// Puts words between quotation marks, as `short` gives them.
pub fn quote(words: &str) -> String {
    format!("\"{}\"", short(words))
}

/// Gives the first 40 characters of words at most, with `…` for the others, and escapes
/// in the place of control characters.
pub fn short(words: &str) -> String {
    let (mut short, mut room) = (String::new(), MOST);
    for letter in words.chars() {
        let letter = visible(letter);
        let length = letter.chars().count();
        if length > room {
            short.push('…');
            break;
        }
        room -= length;
        short.push_str(&letter);
    }
    short
}

/// Gives words with escapes in the place of control characters.
pub fn plain(words: &str) -> String {
    words.chars().map(visible).collect()
}

/// Gives words as `plain` does, but with their tabs.
pub fn shown(words: &str) -> String {
    let parts: Vec<String> = words.split('\t').map(plain).collect();
    parts.join("\t")
}

/// Gives the name of a file as a plan has it: in quotation marks if there are blanks in it.
pub fn named(file: &str) -> String {
    let name = plain(file);
    match file.contains(char::is_whitespace) {
        true => format!("\"{name}\""),
        false => name,
    }
}

/// Gives a message as `plain` does, with its further lines, which begin with two blanks.
pub fn plain_lines(message: &str) -> String {
    let lines: Vec<String> = message.split("\n  ").map(plain).collect();
    lines.join("\n  ")
}

/// Gives a letter, or an escape for one that moves what stands around it.
fn visible(letter: char) -> String {
    let format = matches!(letter,
        '\u{200B}'..='\u{200F}' | '\u{2028}'..='\u{202E}' | '\u{2060}'..='\u{206F}' | '\u{FEFF}');
    match letter {
        '\0' => String::from("\\0"),
        _ if format || letter.is_control() => letter.escape_default().to_string(),
        _ => letter.to_string(),
    }
}

#[cfg(test)]
mod tests {
    use super::*;

    #[test]
    fn a_quote_is_short() {
        let forty = "a".repeat(40);
        assert_eq!(quote(&forty), format!("\"{forty}\""));
        assert_eq!(quote(&format!("{forty}a")), format!("\"{forty}…\""));
        assert_eq!(quote(&"\0".repeat(5_000_000)).chars().count(), 43);
        assert_eq!(quote("it's \"é\\\""), "\"it's \"é\\\"\"");
    }

    #[test]
    fn control_characters_are_escapes() {
        let words = "a\u{1b}[31m\r\n\tb\0\u{7f}\u{9b}\u{202e}\u{feff}";
        let escaped = "a\\u{1b}[31m\\r\\n\\tb\\0\\u{7f}\\u{9b}\\u{202e}\\u{feff}";
        assert_eq!(plain(words), escaped);
        assert_eq!(shown(words), escaped.replace("\\t", "\t"));
        assert_eq!(named("a\u{1b}.dat"), "a\\u{1b}.dat");
        assert_eq!(named("a\tb c"), "\"a\\tb c\"");
        assert!(!quote(words).contains(char::is_control));
        let message = "a\u{1b}\nb has no table\n  known are:\n    c\n";
        let lines = "a\\u{1b}\\nb has no table\n  known are:\n    c\\n";
        assert_eq!(plain_lines(message), lines);
        // An escape is whole, or is not there.
        let almost = format!("{}\u{1b}", "a".repeat(36));
        assert_eq!(short(&almost), format!("{}…", "a".repeat(36)));
    }
}
