//! The options of a command, wherever they stand among its words.

use crate::near::no_option;

/// Holds the words of a command: names of files, and options.
#[derive(Clone, Debug, PartialEq, Eq)]
pub struct Sorted<'a> {
    names: Vec<&'a str>,
    /// Each option, and its value if it has one.
    options: Vec<(&'a str, Option<&'a str>)>,
}

/// Lists what a command knows: options alone, and those that a value follows.
#[derive(Clone, Copy, Debug)]
pub struct Known {
    pub command: &'static str,
    pub flags: &'static [&'static str],
    pub valued: &'static [&'static str],
}

impl<'a> Sorted<'a> {
    /// Sorts the words of a command. Returns them, or says which option is wrong.
    pub fn new(words: &[&'a str], known: Known) -> Result<Sorted<'a>, String> {
        let (mut names, mut options) = (vec![], vec![]);
        let mut words = words.iter();
        while let Some(&word) = words.next() {
            if known.valued.contains(&word) {
                let value = words.next().ok_or_else(|| without_value(word))?;
                options.push((word, Some(*value)));
            } else if known.flags.contains(&word) {
                options.push((word, None));
            } else if word.starts_with("--") {
                let options = [known.flags, known.valued].concat();
                return Err(no_option(word, known.command, &options));
            } else {
                names.push(word);
            }
        }
        let sorted = Sorted { names, options };
        sorted.once()?;
        Ok(sorted)
    }

    /// Says which option stands there twice, if one does.
    fn once(&self) -> Result<(), String> {
        let mut options = self.options.iter().map(|(option, _)| option).enumerate();
        let twice = options.find(|(at, option)| {
            let before = &self.options[..*at];
            before.iter().any(|(earlier, _)| earlier == *option)
        });
        match twice {
            Some((_, option)) => Err(format!("{option} is given twice")),
            None => Ok(()),
        }
    }

    /// Returns the names in their order.
    pub fn names(&self) -> &[&'a str] {
        &self.names
    }

    /// Says whether an option is given.
    pub fn has(&self, option: &str) -> bool {
        self.options.iter().any(|(given, _)| *given == option)
    }

    /// Says whether an option is given, and no other.
    pub fn has_alone(&self, option: &str) -> bool {
        matches!(self.options[..], [(given, _)] if given == option)
    }

    /// Returns the value of an option, if it is given.
    pub fn value(&self, option: &str) -> Option<&'a str> {
        let given = self.options.iter().find(|(given, _)| *given == option);
        given.and_then(|(_, value)| *value)
    }
}

fn without_value(option: &str) -> String {
    let wanted = match option {
        "--form" => "a form: raw532, raw512 or diskcopy",
        "--tags" => "a place: first or last",
        _ => "a file",
    };
    format!("{option} needs {wanted}")
}

#[cfg(test)]
mod tests {
    use super::*;

    const KNOWN: Known = Known {
        command: "export",
        flags: &["--keep-going", "--all"],
        valued: &["--form", "--to"],
    };

    fn fault(words: &[&str]) -> String {
        Sorted::new(words, KNOWN).expect_err("a fault")
    }

    #[test]
    fn options_stand_anywhere() {
        for words in [
            ["--form", "raw512", "--keep-going", "a", "b"],
            ["a", "--keep-going", "b", "--form", "raw512"],
        ] {
            let sorted = Sorted::new(&words, KNOWN).expect("words");
            assert_eq!(sorted.names(), ["a", "b"]);
            assert!(sorted.has("--keep-going") && !sorted.has("--all"));
            assert_eq!(sorted.value("--form"), Some("raw512"));
            assert_eq!(sorted.value("--to"), None);
        }
    }

    #[test]
    fn wrong_options_are_named() {
        assert_eq!(
            fault(&["--fast", "a"]),
            "\"--fast\" is no option of export; see --help"
        );
        for (word, option) in [("--from", "--form"), ("--keepgoing", "--keep-going")] {
            let meant = format!("did you mean \"{option}\"?");
            assert_eq!(
                fault(&[word, "a"]),
                format!("\"{word}\" is no option of export; {meant} see --help")
            );
        }
        assert_eq!(
            fault(&["a", "--form"]),
            "--form needs a form: raw532, raw512 or diskcopy"
        );
        assert_eq!(fault(&["a", "--to"]), "--to needs a file");
        assert_eq!(
            fault(&["--to", "a", "b", "--to", "a"]),
            "--to is given twice"
        );
        assert_eq!(fault(&["--all", "--all"]), "--all is given twice");
    }
}
