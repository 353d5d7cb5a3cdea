//! The text format of test inputs: a line is the word `read` and bytes.
//!
//! Bytes are tokens, each after a single blank: `HH`, or `HH*N` for that byte N
//! times. Empty lines and lines that begin with `#` are skipped.

use std::fmt;

use crate::rng::Rng;

/// A line brings at most this many bytes, and a count is at most this.
pub const MOST: usize = 4096;

/// What is wrong with a line.
#[derive(Clone, Copy, Debug, PartialEq, Eq)]
pub enum Fault {
    /// It does not begin with the word.
    Word,
    /// A token does not begin with a byte, or goes on with something else than
    /// a count.
    Byte,
    /// What stands after the `*` is no count.
    Count,
    /// The bytes are too many.
    Length,
}

impl fmt::Display for Fault {
    fn fmt(&self, f: &mut fmt::Formatter) -> fmt::Result {
        f.write_str(match self {
            Fault::Word => "a line is read and its bytes",
            Fault::Byte => "a byte is two hex digits",
            Fault::Count => "a count is 1 to 4096",
            Fault::Length => "more than 4096 bytes",
        })
    }
}

/// The lines of an input with their numbers, from 1, skipped ones left out.
pub fn lines(input: &[u8]) -> impl Iterator<Item = (usize, &[u8])> {
    (1..)
        .zip(input.split(|&c| c == b'\n'))
        .filter(|(_, line)| !line.is_empty() && !line.starts_with(b"#"))
}

/// The bytes that a line brings.
pub fn parse_line(line: &[u8]) -> Result<Vec<u8>, Fault> {
    let rest = line.strip_prefix(b"read").ok_or(Fault::Word)?;
    match rest.first() {
        None | Some(b' ') => parse_bytes(rest),
        Some(_) => Err(Fault::Word),
    }
}

/// The bytes of some tokens, each of them after a blank.
fn parse_bytes(tokens: &[u8]) -> Result<Vec<u8>, Fault> {
    let mut bytes = Vec::new();
    // The first piece is what stands before the first blank: nothing.
    for token in tokens.split(|&c| c == b' ').skip(1) {
        let (byte, count) = parse_token(token)?;
        if bytes.len() + count > MOST {
            return Err(Fault::Length);
        }
        bytes.resize(bytes.len() + count, byte);
    }
    Ok(bytes)
}

/// A byte and how many times the token brings it.
pub fn parse_token(token: &[u8]) -> Result<(u8, usize), Fault> {
    let [high, low, rest @ ..] = token else {
        return Err(Fault::Byte);
    };
    let byte = 16 * hex_digit(*high)? + hex_digit(*low)?;
    match rest {
        [] => Ok((byte, 1)),
        [b'*', digits @ ..] => Ok((byte, parse_count(digits)?)),
        _ => Err(Fault::Byte),
    }
}

fn hex_digit(c: u8) -> Result<u8, Fault> {
    match c {
        b'0'..=b'9' => Ok(c - b'0'),
        b'a'..=b'f' => Ok(c - b'a' + 10),
        b'A'..=b'F' => Ok(c - b'A' + 10),
        _ => Err(Fault::Byte),
    }
}

fn parse_count(digits: &[u8]) -> Result<usize, Fault> {
    let mut count = 0;
    for digit in digits {
        if !digit.is_ascii_digit() {
            return Err(Fault::Count);
        }
        count = 10 * count + usize::from(digit - b'0');
        if count > MOST {
            return Err(Fault::Count);
        }
    }
    // No digits at all make 0 too.
    if count == 0 {
        return Err(Fault::Count);
    }
    Ok(count)
}

/// Bytes as tokens, each after a blank: one token for each run of equal bytes,
/// lower-case.
pub fn show_bytes(bytes: &[u8]) -> String {
    runs(bytes)
        .map(|(byte, count)| match count {
            1 => format!(" {byte:02x}"),
            _ => format!(" {byte:02x}*{count}"),
        })
        .collect()
}

/// A line that brings these bytes, in the plainest spelling.
pub fn show_line(bytes: &[u8]) -> String {
    format!("read{}", show_bytes(bytes))
}

/// A line that brings these bytes, in a spelling that varies: upper-case hex,
/// zeros before a count, a count of 1, a run in two parts.
pub fn show_line_varied(bytes: &[u8], rng: &mut Rng) -> String {
    format!("read{}", show_bytes_varied(bytes, rng))
}

/// Bytes as tokens, each after a blank, in a spelling that varies.
pub fn show_bytes_varied(bytes: &[u8], rng: &mut Rng) -> String {
    let mut tokens = String::new();
    for (byte, count) in runs(bytes) {
        let first = if count > 1 && rng.one_in(4) {
            1 + rng.place(count - 1)
        } else {
            count
        };
        tokens += &varied_token(byte, first, rng);
        if first < count {
            tokens += &varied_token(byte, count - first, rng);
        }
    }
    tokens
}

fn varied_token(byte: u8, count: usize, rng: &mut Rng) -> String {
    let upper = rng.one_in(2);
    let counted = count > 1 || rng.one_in(16);
    let zeros = if rng.one_in(2) { rng.place(4) } else { 0 };
    let hex = if upper {
        format!("{byte:02X}")
    } else {
        format!("{byte:02x}")
    };
    if counted {
        format!(" {hex}*{}{count}", "0".repeat(zeros))
    } else {
        format!(" {hex}")
    }
}

/// The runs of equal bytes, as long as they are.
fn runs(bytes: &[u8]) -> impl Iterator<Item = (u8, usize)> + '_ {
    bytes.chunk_by(|a, b| a == b).map(|run| (run[0], run.len()))
}

#[cfg(test)]
mod tests {
    use super::*;

    fn parse(line: &str) -> Result<Vec<u8>, Fault> {
        parse_line(line.as_bytes())
    }

    #[test]
    fn bytes_are_read() {
        assert_eq!(parse("read"), Ok(vec![]));
        assert_eq!(parse("read 00"), Ok(vec![0]));
        assert_eq!(parse("read aB Cd*2 09*1"), Ok(vec![0xAB, 0xCD, 0xCD, 9]));
        assert_eq!(parse("read 7f*0003"), Ok(vec![0x7F; 3]));
        assert_eq!(parse("read 7f*4096"), Ok(vec![0x7F; 4096]));
        assert_eq!(parse("read 7f*4000 7f*96"), Ok(vec![0x7F; 4096]));
        assert_eq!(
            parse("read 7f*000000000000000000000000000002"),
            Ok(vec![0x7F; 2])
        );
    }

    #[test]
    fn the_word() {
        let lines = [
            " read", " ", "\r", "\t", "rea", "Read 00", "READ", "ready", "read*2", "read\t00",
            "read\r", "read00", "00", " # no", "write 00",
        ];
        for line in lines {
            assert_eq!(parse(line), Err(Fault::Word), "{line:?}");
        }
    }

    #[test]
    fn bytes_at_fault() {
        let lines = [
            "read ",
            "read  00",
            "read 00 ",
            "read 00  00",
            "read 0",
            "read 000",
            "read 0g",
            "read g0",
            "read 00x2",
            "read 00,00",
            "read 00\r",
            "read 00\t",
            "read 00\t00",
            "read *2",
            "read 0*2",
            "read 000*2",
            "read 00 *2",
            "read +1",
            "read 0x00",
            "read 00 #",
            "read -1",
            "read \u{e9}",
            "read 00*0002 0",
        ];
        for line in lines {
            assert_eq!(parse(line), Err(Fault::Byte), "{line:?}");
        }
        assert_eq!(parse_line(b"read \xFF\xFE"), Err(Fault::Byte));
    }

    #[test]
    fn counts_at_fault() {
        let lines = [
            "read 00*",
            "read 00*0",
            "read 00*0000",
            "read 00*4097",
            "read 00*04097",
            "read 00*65536",
            "read 00*4294967297",
            "read 00*18446744073709551617",
            "read 00*99999999999999999999999999999999999999999999",
            "read 00*+1",
            "read 00*-1",
            "read 00*a",
            "read 00*1a",
            "read 00*1\r",
            "read 00*1*1",
            "read 00* 1",
            "read 00**1",
            "read 00*0x1",
            "read 00*1.0",
        ];
        for line in lines {
            assert_eq!(parse(line), Err(Fault::Count), "{line:?}");
        }
    }

    #[test]
    fn lines_too_long() {
        for line in ["read 00*4096 00", "read 00 00*4096", "read 00*4096 00*4096"] {
            assert_eq!(parse(line), Err(Fault::Length), "{line:?}");
        }
        let spelled = format!("read{}", " 55".repeat(4097));
        assert_eq!(parse(&spelled), Err(Fault::Length));
        assert_eq!(parse(&spelled[..spelled.len() - 3]), Ok(vec![0x55; 4096]));
    }

    #[test]
    fn the_first_fault_decides() {
        assert_eq!(parse("read 00*4096 00 zz"), Err(Fault::Length));
        assert_eq!(parse("read 00*4096 zz 00"), Err(Fault::Byte));
        assert_eq!(parse("read 00*4096 00*0"), Err(Fault::Count));
        assert_eq!(parse("read 00*0 zz"), Err(Fault::Count));
        assert_eq!(parse("read zz 00*0"), Err(Fault::Byte));
        assert_eq!(parse("read zz*0"), Err(Fault::Byte));
        assert_eq!(parse("reader zz"), Err(Fault::Word));
    }

    #[test]
    fn faults_in_words() {
        assert_eq!(Fault::Word.to_string(), "a line is read and its bytes");
        assert_eq!(Fault::Byte.to_string(), "a byte is two hex digits");
        assert_eq!(Fault::Count.to_string(), "a count is 1 to 4096");
        assert_eq!(Fault::Length.to_string(), "more than 4096 bytes");
    }

    #[test]
    fn skipped_lines_are_counted() {
        let found: Vec<_> = lines(b"# one\n\nread 00\n#\nread\n\n").collect();
        assert_eq!(found, [(3, &b"read 00"[..]), (5, b"read")]);
        assert_eq!(lines(b"read").count(), 1);
        assert_eq!(lines(b"").count(), 0);
        assert_eq!(lines(b"\n\n").count(), 0);
    }

    #[test]
    fn plain_spelling() {
        assert_eq!(show_line(&[]), "read");
        assert_eq!(show_line(&[0xAB]), "read ab");
        assert_eq!(
            show_line(&[0, 0, 1, 0, 0xFF, 0xFF, 0xFF]),
            "read 00*2 01 00 ff*3"
        );
    }

    #[test]
    fn there_and_back() {
        let mut rng = Rng::new(3);
        for _ in 0..500 {
            let length = rng.place(300);
            let mut bytes = vec![];
            while bytes.len() < length {
                let byte = rng.byte();
                let run = 1 + rng.place(5);
                bytes.resize(bytes.len() + run, byte);
            }
            assert_eq!(parse(&show_line(&bytes)), Ok(bytes.clone()));
            assert_eq!(parse(&show_line_varied(&bytes, &mut rng)), Ok(bytes));
        }
    }
}
