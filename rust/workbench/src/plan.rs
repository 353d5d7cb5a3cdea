//! A line of a plan. `docs/WORKBENCH.md` describes each with an example.

mod help;
mod orders;
mod power;
mod slip;
#[cfg(test)]
mod tests;
mod words;

use crate::data::{Blocks, Data};
use crate::host::{Retry, USUAL};
use crate::power as ordered;
pub use orders::Order;
use slip::Slip;
use usage::quote;
use words::Words;

/// What a line asks for.
#[derive(Clone, Debug, PartialEq, Eq)]
pub enum Line {
    /// Nothing: an empty line or a comment.
    Nothing,
    Say(String),
    /// Lines of a plan in words, to be shown.
    Help(String),
    Start,
    Reset,
    Raise,
    Lower(u8),
    Table,
    Convert,
    Read {
        blocks: Blocks,
        retry: Retry,
        to: Option<String>,
    },
    Write {
        blocks: Blocks,
        verify: bool,
        data: Data,
    },
    Compare {
        blocks: Blocks,
        retry: Retry,
        data: Data,
    },
    Dump(u32),
    Health,
    Traffic(Traffic),
    Fault(Order),
    /// The power fails.
    Power(ordered::Order),
    /// The lines from here are done again with power cuts.
    CutsFrom,
    /// The lines up to here are.
    CutsTo,
    Expect(Vec<Expectation>),
}

/// Random commands of a host.
#[derive(Clone, Copy, Debug, PartialEq, Eq)]
pub struct Traffic {
    pub commands: u32,
    pub seed: u32,
    pub blocks: Blocks,
}

/// What a plan expects of the host's last line.
#[derive(Clone, Copy, Debug, PartialEq, Eq)]
pub enum Expectation {
    Good,
    Failed,
    Refused,
    /// Moved to a spare, or not.
    Spared,
    InPlace,
    /// A store was done, or none was.
    Stored,
    NotStored,
    /// The power failed in the line.
    Cut,
    /// E.
    Errors(u8),
    /// All that were answered, a store too.
    Accesses(u32),
    Status([u8; 4]),
}

/// The words of `expect`, as the help has them.
const EXPECTED: &str = "good, failed, refused, spared, in-place, stored, not-stored, cut, \
                        errors E, accesses N and status HH HH HH HH";

/// Reads a line, or says what is wrong with it.
pub fn parse(line: &str) -> Result<Line, String> {
    line_of(Words::new(line)).map_err(|slip| slip.told(line))
}

fn line_of(mut words: Words) -> Result<Line, Slip> {
    let Some(first) = words.next() else {
        return Ok(Line::Nothing);
    };
    match first {
        comment if comment.starts_with('#') => Ok(Line::Nothing),
        "say" => Ok(Line::Say(words.rest().to_string())),
        "help" => help(words),
        "start" => alone(Line::Start, words),
        "reset" => alone(Line::Reset, words),
        "raise" => alone(Line::Raise, words),
        "table" => alone(Line::Table, words),
        "convert" => alone(Line::Convert, words),
        "health" => alone(Line::Health, words),
        "lower" => lower(words),
        "read" => read(words),
        "write" => write(words, false),
        "write-verify" => write(words, true),
        "compare" => compare(words),
        "dump" => dump(words),
        "traffic" => traffic(words),
        "fault" => orders::parse(words).map(Line::Fault),
        "power" => power::parse(words).map(Line::Power),
        "cuts" => power::cuts(words),
        "expect" => expect(words),
        other => Err(Slip::Value(help::unknown(other))),
    }
}

fn help(mut words: Words) -> Result<Line, Slip> {
    let text = match words.next() {
        Some(word) => help::of(word).map_err(Slip::Value)?,
        None => String::from(help::all()),
    };
    alone(Line::Help(text), words)
}

fn alone(line: Line, words: Words) -> Result<Line, Slip> {
    words.end().map(|()| line)
}

fn lower(mut words: Words) -> Result<Line, Slip> {
    let byte = hex_byte(words.need("the byte on the bus")?)?;
    alone(Line::Lower(byte), words)
}

fn hex_byte(word: &str) -> Result<u8, Slip> {
    match reference::text::parse_token(word.as_bytes()) {
        Ok((byte, 1)) => Ok(byte),
        _ => {
            let fault = format!("a byte is two hex digits, not {}", quote(word));
            Err(Slip::Form(fault))
        }
    }
}

fn read(mut words: Words) -> Result<Line, Slip> {
    let blocks = words.blocks()?;
    let retry = retry(&mut words, "to")?;
    let to = match words.take("to") {
        true => Some(words.name("the name of a file behind \"to\"")?.to_string()),
        false => None,
    };
    alone(Line::Read { blocks, retry, to }, words)
}

/// R and T, up to this word.
fn retry(words: &mut Words, until: &str) -> Result<Retry, Slip> {
    let mut retry = USUAL;
    for (name, count) in [("R", &mut retry.retries), ("T", &mut retry.threshold)] {
        if let Some(word) = words.peek().filter(|word| *word != until) {
            let number = words.number(name, 255);
            *count = number.map_err(|slip| no_retry(slip, name, until, word))? as u8;
        }
    }
    Ok(retry)
}

/// Says that a word is neither a count nor the word behind the counts, if it is no number.
fn no_retry(slip: Slip, name: &str, until: &str, word: &str) -> Slip {
    let meant = usage::near::meant(word, &[until]);
    let neither = format!(
        "{} is neither {name}, a number, nor \"{until}\"{meant}",
        quote(word)
    );
    match slip {
        Slip::Form(_) => Slip::Form(neither),
        Slip::Value(fault) => Slip::Value(fault),
    }
}

fn write(mut words: Words, verify: bool) -> Result<Line, Slip> {
    let blocks = words.blocks()?;
    let data = words.data()?;
    Ok(Line::Write {
        blocks,
        verify,
        data,
    })
}

fn compare(mut words: Words) -> Result<Line, Slip> {
    let blocks = words.blocks()?;
    let retry = retry(&mut words, "with")?;
    if !words.take("with") {
        let fault = "\"with\" and the data are missing";
        return Err(Slip::Form(String::from(fault)));
    }
    let data = words.data()?;
    if data == Data::Bytes(vec![]) {
        let fault = "\"nothing\" can be written, not compared with";
        return Err(Slip::Value(String::from(fault)));
    }
    Ok(Line::Compare {
        blocks,
        retry,
        data,
    })
}

fn dump(mut words: Words) -> Result<Line, Slip> {
    let number = words.number("a block", 0xFF_FFFF)?;
    alone(Line::Dump(number), words)
}

fn traffic(mut words: Words) -> Result<Line, Slip> {
    let mut traffic = Traffic {
        commands: words.positive("the number of commands")?,
        seed: 1,
        blocks: Blocks {
            first: 0,
            last: 9727,
        },
    };
    while let Some(word) = words.next() {
        match word {
            "seed" => traffic.seed = words.number("the seed", u32::MAX)?,
            "blocks" => traffic.blocks = words.range()?,
            other => {
                let meant = usage::near::meant(other, &["seed", "blocks"]);
                let fault = format!("{} is no part of traffic{meant}", quote(other));
                return Err(Slip::Form(fault));
            }
        }
    }
    Ok(Line::Traffic(traffic))
}

fn expect(mut words: Words) -> Result<Line, Slip> {
    let mut expectations = vec![];
    while let Some(word) = words.next() {
        expectations.push(expectation(word, &mut words)?);
    }
    match expectations.is_empty() {
        true => Err(Slip::Form(format!(
            "what is expected is missing; the words are {EXPECTED}"
        ))),
        false => Ok(Line::Expect(expectations)),
    }
}

fn expectation(word: &str, words: &mut Words) -> Result<Expectation, Slip> {
    match word {
        "good" => Ok(Expectation::Good),
        "failed" => Ok(Expectation::Failed),
        "refused" => Ok(Expectation::Refused),
        "spared" => Ok(Expectation::Spared),
        "in-place" => Ok(Expectation::InPlace),
        "stored" => Ok(Expectation::Stored),
        "not-stored" => Ok(Expectation::NotStored),
        "cut" => Ok(Expectation::Cut),
        "errors" => {
            let errors = words.number("E, the count of errors,", 255)?;
            Ok(Expectation::Errors(errors as u8))
        }
        "accesses" => {
            let accesses = words.number("N, the count of accesses,", u32::MAX)?;
            Ok(Expectation::Accesses(accesses))
        }
        "status" => status(words).map(Expectation::Status),
        other => Err(Slip::Value(not_expected(other))),
    }
}

/// Reads the four status bytes.
fn status(words: &mut Words) -> Result<[u8; 4], Slip> {
    let mut status = [0; 4];
    for (byte, which) in status
        .iter_mut()
        .zip(["first", "second", "third", "fourth"])
    {
        let what = format!("the {which} of the four status bytes");
        *byte = hex_byte(words.need(&what)?)?;
    }
    Ok(status)
}

/// Says that a word cannot be expected, and which can.
fn not_expected(word: &str) -> String {
    let words: Vec<&str> = EXPECTED.split([' ', ',']).collect();
    let the_words = match usage::near::meant(word, &words) {
        meant if meant.is_empty() => String::from("; the words"),
        meant => format!("{meant} The words"),
    };
    format!(
        "{} cannot be expected{the_words} are {EXPECTED}",
        quote(word)
    )
}
