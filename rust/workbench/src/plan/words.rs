//! The words of a line, and the numbers, bytes and blocks that they spell.

use reference::geometry::{Sector, BLOCKS, SECTORS};
use reference::text;
use usage::{quote, short};

use super::slip::Slip;
use crate::data::{Blocks, Data};

/// Numbers of commands have 24 bits.
const MOST_NUMBER: u32 = 0xFF_FFFF;

/// What of a line is still to be read.
pub struct Words<'a> {
    rest: &'a str,
}

impl<'a> Words<'a> {
    pub fn new(line: &'a str) -> Words<'a> {
        Words { rest: line.trim() }
    }

    /// The next word.
    pub fn next(&mut self) -> Option<&'a str> {
        let (word, rest) = match self.rest.split_once(char::is_whitespace) {
            Some((word, rest)) => (word, rest.trim_start()),
            None => (self.rest, ""),
        };
        self.rest = rest;
        (!word.is_empty()).then_some(word)
    }

    /// The next word without taking it.
    pub fn peek(&self) -> Option<&'a str> {
        self.rest.split_whitespace().next()
    }

    /// The next word, which must be there.
    pub fn need(&mut self, what: &str) -> Result<&'a str, Slip> {
        self.next().ok_or_else(|| missing(what))
    }

    /// The name of a file, which must be there: a word, or all between two quotation marks.
    pub fn name(&mut self, what: &str) -> Result<&'a str, Slip> {
        let Some(rest) = self.rest.strip_prefix('"') else {
            return self.need(what);
        };
        let Some((name, rest)) = rest.split_once('"') else {
            let marked = short(self.rest);
            return Err(missing(&format!("the closing quotation mark of {marked}")));
        };
        if name.trim().is_empty() {
            return Err(missing("the name between the quotation marks"));
        }
        if rest.starts_with(|letter: char| !letter.is_whitespace()) {
            let fault = format!("{} touches the quotation mark before it", quote(rest));
            return Err(Slip::Form(fault));
        }
        self.rest = rest.trim_start();
        Ok(name)
    }

    /// Takes the next word if it is this one.
    pub fn take(&mut self, word: &str) -> bool {
        let found = self.peek() == Some(word);
        if found {
            self.next();
        }
        found
    }

    /// Takes these words, which come in this place.
    pub fn expected(&mut self, place: &str, wanted: &[&str]) -> Result<(), Slip> {
        let all = wanted.join(" ");
        for word in wanted {
            let found = self.need(&format!("\"{all}\""))?;
            if found != *word {
                let fault = format!("{place} comes \"{all}\", not {}", quote(found));
                return Err(Slip::Form(fault));
            }
        }
        Ok(())
    }

    /// All that is left.
    pub fn rest(self) -> &'a str {
        self.rest
    }

    /// Nothing may be left.
    pub fn end(self) -> Result<(), Slip> {
        match self.rest {
            "" => Ok(()),
            rest => Err(Slip::Form(format!("{} is too much", quote(rest)))),
        }
    }

    /// A number that is this at most.
    pub fn number(&mut self, what: &str, most: u32) -> Result<u32, Slip> {
        let word = self.need(what)?;
        number(word, what, most)
    }

    /// A number from 1 on.
    pub fn positive(&mut self, what: &str) -> Result<u32, Slip> {
        match self.number(what, u32::MAX)? {
            0 => Err(Slip::Value(format!("{what} is 1 at least, not 0"))),
            number => Ok(number),
        }
    }

    /// A number, which need not be that of a block, or a range of blocks.
    pub fn blocks(&mut self) -> Result<Blocks, Slip> {
        match self.peek() {
            Some(word) if !word.contains("..") => {
                Ok(Blocks::one(self.number("a block", MOST_NUMBER)?))
            }
            _ => self.range(),
        }
    }

    /// A block, or a range of blocks.
    pub fn range(&mut self) -> Result<Blocks, Slip> {
        let (first, last) = self.ends("block", BLOCKS - 1)?;
        Ok(Blocks { first, last })
    }

    /// A sector, or a range of sectors.
    pub fn sectors(&mut self) -> Result<Vec<Sector>, Slip> {
        let (first, last) = self.ends("sector", SECTORS - 1)?;
        Ok((first..=last).filter_map(Sector::new).collect())
    }

    /// The ends of a range, or one number as both.
    fn ends(&mut self, noun: &str, most: u32) -> Result<(u32, u32), Slip> {
        let what = &format!("a {noun}");
        let word = self.need(&format!("{what} or a range of {noun}s"))?;
        let (first, last) = word.split_once("..").unwrap_or((word, word));
        if first.is_empty() || last.is_empty() {
            let fault = format!("{} is no range: a number is missing", short(word));
            return Err(Slip::Form(fault));
        }
        let first = number(first, what, most)?;
        let last = number(last, what, most)?;
        match first <= last {
            true => Ok((first, last)),
            false => Err(Slip::Value(format!(
                "{} is no range: {first} is above {last}",
                short(word)
            ))),
        }
    }

    /// What is left of the line, as data.
    pub fn data(mut self) -> Result<Data, Slip> {
        if self.rest.starts_with('"') {
            return quoted(self.rest).map(|text| Data::Text(text.to_string()));
        }
        if self.take("file") {
            let path = self.name("the name behind \"file\"")?.to_string();
            let mut offset = 0;
            if self.take("at") {
                offset = self.number("the offset behind \"at\"", u32::MAX)? as usize;
            }
            self.end()?;
            return Ok(Data::File { path, offset });
        }
        if self.take("nothing") {
            self.end()?;
            return Ok(Data::Bytes(vec![]));
        }
        bytes(self.rest).map(Data::Bytes)
    }
}

/// Says that something is missing.
pub fn missing(what: &str) -> Slip {
    Slip::Form(format!("{what} is missing"))
}

/// A decimal number, or a hexadecimal one after `$` or `0x`.
fn number(word: &str, what: &str, most: u32) -> Result<u32, Slip> {
    let hex = word.strip_prefix('$').or(word.strip_prefix("0x"));
    let (digits, radix) = hex.map_or((word, 10), |digits| (digits, 16));
    // A sign is no digit, though from_str_radix takes it.
    let number = match digits.starts_with('+') {
        false => u64::from_str_radix(digits, radix).ok(),
        true => None,
    };
    let none = || Slip::Form(format!("{what} is a number, and {} is none", quote(word)));
    match u32::try_from(number.ok_or_else(none)?) {
        Ok(number) if number <= most => Ok(number),
        _ => {
            let fault = format!("{what} is {most} at most, not {}", short(word));
            Err(Slip::Value(fault))
        }
    }
}

/// The text between quotation marks.
fn quoted(rest: &str) -> Result<&str, Slip> {
    let text = rest.strip_prefix('"').and_then(|r| r.strip_suffix('"'));
    match text {
        Some("") => Err(missing("the text between the quotation marks")),
        Some(text) if !text.contains('"') => Ok(text),
        _ => Err(Slip::Form(format!(
            "{} is no text between two quotation marks",
            short(rest)
        ))),
    }
}

/// Says that a word is no data, and why.
fn no_data(word: &str, fault: &str) -> Slip {
    let meant = usage::near::meant(word, &["file", "nothing"]);
    Slip::Form(format!("{} is no data: {fault}{meant}", quote(word)))
}

/// Bytes as call scripts have them.
fn bytes(tokens: &str) -> Result<Vec<u8>, Slip> {
    let mut bytes = vec![];
    for token in tokens.split_whitespace() {
        let (byte, count) = text::parse_token(token.as_bytes())
            .map_err(|fault| no_data(token, &fault.to_string()))?;
        bytes.resize(bytes.len() + count, byte);
    }
    match bytes.len() {
        0 => Err(missing("the data")),
        length if length > text::MOST => {
            let fault = format!("{length} bytes are more than {}", text::MOST);
            Err(Slip::Value(fault))
        }
        _ => Ok(bytes),
    }
}
