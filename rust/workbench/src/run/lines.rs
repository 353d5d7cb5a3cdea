//! Reads the lines of a plan one after another. A wrong one ends the run, unless a person
//! types them.

use std::io::{BufRead, Read, Write};

use super::{Did, Run, Stop};
use crate::plan;

/// What some editors put before a text.
const BYTE_ORDER_MARK: &[u8] = "\u{FEFF}".as_bytes();

/// A line has so many bytes at most. What has more is no plan, and may have no end.
const MOST_BYTES: usize = 65_536;

/// Words with which other programs end.
const ENDS: [&str; 4] = ["quit", "exit", "q", "bye"];

impl<W: Write> Run<W> {
    /// Says the number of the line that was read last.
    pub fn number(&self) -> usize {
        self.number
    }

    /// Runs all lines. The platter is saved after each line that changed it, so a
    /// line that stops the run leaves it as it was before.
    pub fn plan(&mut self, mut input: impl BufRead) -> Result<(), Stop> {
        while self.next(&mut input)?.is_some() {}
        Ok(())
    }

    /// Does the next line. Hands back its text, or nothing at the end of the plan.
    pub fn next(&mut self, input: &mut impl BufRead) -> Result<Option<String>, Stop> {
        let mut bytes = vec![];
        self.number += 1;
        let mut line = input.by_ref().take(MOST_BYTES as u64 + 1);
        let read = line.read_until(b'\n', &mut bytes);
        if read.map_err(|error| error.to_string())? == 0 {
            self.end()?;
            return Ok(None);
        }
        let bytes = match bytes.strip_prefix(BYTE_ORDER_MARK) {
            Some(rest) if self.number == 1 => rest,
            _ => &bytes[..],
        };
        let kept = self.kept_for_cuts();
        let done = self.text(bytes);
        self.pass_or_tell(done, kept)?;
        if self.did == Did::Drive {
            self.save()?;
        }
        self.out.flush()?;
        Ok(Some(String::from_utf8_lossy(bytes).into_owned()))
    }

    /// Does the line that has these bytes.
    fn text(&mut self, bytes: &[u8]) -> Result<(), Stop> {
        if bytes.len() > MOST_BYTES {
            let message = format!("a line has {MOST_BYTES} bytes at most; is this a plan?");
            return Err(Stop::Line(message));
        }
        let text = std::str::from_utf8(bytes).map_err(|_| String::from("no UTF-8 text"))?;
        if let Some(word) = word_of_end(text).filter(|_| self.settings.typed) {
            return Err(Stop::Line(how_to_end(word)));
        }
        let line = plan::parse(text)?;
        let does = Did::by(&line);
        self.times.line(text);
        self.line(line, text.trim())?;
        self.did = self.did.max(does);
        Ok(())
    }

    /// Ends the lines. Some line must have spoken to the drive.
    fn end(&mut self) -> Result<(), Stop> {
        let over = self.cuts_are_over();
        self.pass_or_tell(over, self.kept_for_cuts())?;
        match self.did {
            Did::Nothing => Err(Stop::Empty),
            Did::Words => Err(Stop::Unspoken),
            Did::Drive => self.save(),
        }
    }

    /// Tells of a wrong line and lets the run go on, if a person types; else hands it on.
    /// Before the line so much was kept for power cuts.
    fn pass_or_tell(&mut self, done: Result<(), Stop>, kept: (usize, usize)) -> Result<(), Stop> {
        let message = match done {
            Err(Stop::Line(message)) if self.settings.typed => message,
            done => return done,
        };
        self.out.flush()?;
        self.wrong += 1;
        let message = usage::plain(&message);
        usage::tell(&format!("line {}: {message}", self.number));
        if self.forget_for_cuts(kept) {
            usage::tell("the line was done in part, so \"cuts from here\" is forgotten");
        }
        Ok(())
    }
}

/// Returns the word by which a person wants to end the lines, if this line begins with one.
fn word_of_end(text: &str) -> Option<&str> {
    let word = text.split_whitespace().next()?;
    let ends = ENDS.iter().any(|end| end.eq_ignore_ascii_case(word));
    ends.then_some(word)
}

/// Says how typed lines end, since this word does not end them.
fn how_to_end(word: &str) -> String {
    format!("\"{word}\" begins no line of a plan; Ctrl-D at the start of a line ends the run")
}
