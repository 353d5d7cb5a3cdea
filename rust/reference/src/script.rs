//! Call scripts: one call per line is read, one line of transcript per call is
//! written (docs/REPLAY.md).

use std::fmt;
use std::io::{self, BufRead, Write};

use crate::controller::Answer;
use crate::drive::{Call, Drive, Returned};
use crate::text::{self, parse_token, MOST};

/// The longest buffer that a line may lend.
pub const MOST_LENT: usize = 600;

/// A line of a script.
#[derive(Clone, Debug, PartialEq, Eq)]
pub struct Line {
    /// The length to lend, if the line names one.
    pub lend: Option<usize>,
    pub call: Call,
}

/// What is wrong with a line.
#[derive(Clone, Copy, Debug, PartialEq, Eq)]
pub enum Fault {
    /// Its first word is none of the calls.
    Call,
    /// Arguments are missing or too many, or blanks are.
    Arguments,
    Byte,
    Count,
    Answer,
    Length,
    TooMany,
}

impl fmt::Display for Fault {
    fn fmt(&self, f: &mut fmt::Formatter) -> fmt::Result {
        f.write_str(match self {
            Fault::Call => "no such call",
            Fault::Arguments => "wrong arguments",
            Fault::Byte => "a byte is two hex digits",
            Fault::Count => "a count is 1 to 4096",
            Fault::Answer => "an answer is 0 to 255",
            Fault::Length => "a length is 0 to 600",
            Fault::TooMany => "more than 4096 bytes",
        })
    }
}

impl From<text::Fault> for Fault {
    fn from(fault: text::Fault) -> Fault {
        match fault {
            text::Fault::Word => Fault::Call,
            text::Fault::Byte => Fault::Byte,
            text::Fault::Count => Fault::Count,
            text::Fault::Length => Fault::TooMany,
        }
    }
}

/// Reads a line that is not skipped. The first fault from the left decides.
pub fn parse(line: &[u8]) -> Result<Line, Fault> {
    let mut words = line.split(|&c| c == b' ');
    // There is always a first word; in front of a leading blank it is empty.
    let mut word = words.next().unwrap_or_default();
    let mut lend = None;
    if word == b"lend" {
        let length = argument(&mut words)?;
        lend = Some(number(length, MOST_LENT).ok_or(Fault::Length)?);
        word = argument(&mut words)?;
    }
    let call = match word {
        b"start" => Call::Start,
        b"raise" => Call::Raise,
        b"lower" => Call::Lower(one_byte(argument(&mut words)?)?),
        b"feed" => Call::Feed(bytes(&mut words)?),
        b"surface" => {
            let answer = number(argument(&mut words)?, 255).ok_or(Fault::Answer)?;
            // The number fits: it is at most 255.
            Call::Surface(answer as u8, bytes(&mut words)?)
        }
        b"reset" => Call::Reset,
        b"image" => Call::Image,
        b"convert" => Call::Convert(bytes(&mut words)?),
        _ => return Err(Fault::Call),
    };
    match words.next() {
        None => Ok(Line { lend, call }),
        Some(_) => Err(Fault::Arguments),
    }
}

/// The next word. An empty one stands between two blanks or behind the last.
fn argument<'a>(words: &mut impl Iterator<Item = &'a [u8]>) -> Result<&'a [u8], Fault> {
    words
        .next()
        .filter(|word| !word.is_empty())
        .ok_or(Fault::Arguments)
}

/// A decimal number of at most this value.
fn number(word: &[u8], most: usize) -> Option<usize> {
    let mut value = 0;
    for digit in word {
        if !digit.is_ascii_digit() {
            return None;
        }
        value = 10 * value + usize::from(digit - b'0');
        if value > most {
            return None;
        }
    }
    (!word.is_empty()).then_some(value)
}

/// The byte of a token that may have no count.
fn one_byte(token: &[u8]) -> Result<u8, Fault> {
    if token.len() != 2 {
        return Err(Fault::Byte);
    }
    let (byte, _) = parse_token(token)?;
    Ok(byte)
}

/// The bytes of all words that are left.
fn bytes<'a>(words: &mut impl Iterator<Item = &'a [u8]>) -> Result<Vec<u8>, Fault> {
    let mut bytes = vec![];
    for token in words {
        if token.is_empty() {
            return Err(Fault::Arguments);
        }
        let (byte, count) = parse_token(token)?;
        if bytes.len() + count > MOST {
            return Err(Fault::TooMany);
        }
        bytes.resize(bytes.len() + count, byte);
    }
    Ok(bytes)
}

/// A line in the plainest spelling.
pub fn show(line: &Line) -> String {
    let call = match &line.call {
        Call::Start => String::from("start"),
        Call::Raise => String::from("raise"),
        Call::Lower(byte) => format!("lower {byte:02x}"),
        Call::Feed(bytes) => format!("feed{}", text::show_bytes(bytes)),
        Call::Surface(answer, bytes) => format!("surface {answer}{}", text::show_bytes(bytes)),
        Call::Reset => String::from("reset"),
        Call::Image => String::from("image"),
        Call::Convert(bytes) => format!("convert{}", text::show_bytes(bytes)),
    };
    match line.lend {
        Some(length) => format!("lend {length} {call}"),
        None => call,
    }
}

/// Runs a script from the never-started drive and writes its transcript.
pub fn run(mut script: impl BufRead, mut transcript: impl Write) -> io::Result<()> {
    let mut drive = Drive::new();
    let mut line = vec![];
    let mut count = 0u64;
    while script.read_until(b'\n', &mut line)? > 0 {
        count += 1;
        let said = line.strip_suffix(b"\n").unwrap_or(&line);
        if !said.is_empty() && !said.starts_with(b"#") {
            match parse(said) {
                Ok(Line { lend, call }) => {
                    let returned = drive.lend(lend, &call);
                    writeln!(transcript, "{}", outcome(&drive, &returned))?;
                }
                Err(fault) => {
                    writeln!(transcript, "error: line {count}: {fault}")?;
                    break;
                }
            }
        }
        line.clear();
    }
    transcript.flush()
}

/// The transcript of a script in memory.
pub fn transcript(script: &str) -> String {
    let mut transcript = vec![];
    run(script.as_bytes(), &mut transcript).expect("memory takes all bytes");
    String::from_utf8(transcript).expect("a transcript is plain text")
}

/// The line for one call.
pub fn outcome(drive: &Drive, returned: &Returned) -> String {
    let answer = match returned.answer {
        Answer::Wait => String::from("wait"),
        Answer::Offer(offer) => format!("offer {:02x}", offer.byte()),
        Answer::Read(sector) => format!("read {}", sector.number()),
        Answer::Write(sector) => format!("write {}", sector.number()),
        Answer::Store => String::from("store"),
        Answer::Finished => String::from("finished"),
        Answer::Refused(code) => format!("refused {}", code.number()),
    };
    if let Some(image) = &returned.image {
        return format!("{answer} image {:08x}", adler32(image));
    }
    let status: String = drive
        .status()
        .iter()
        .map(|byte| format!("{byte:02x}"))
        .collect();
    format!(
        "{answer} status {status} data {:08x}",
        adler32(drive.data())
    )
}

/// The Adler-32 of some bytes.
pub fn adler32(bytes: &[u8]) -> u32 {
    const PRIME: u32 = 65521;
    let (mut low, mut high) = (1, 0);
    for &byte in bytes {
        low = (low + u32::from(byte)) % PRIME;
        high = (high + low) % PRIME;
    }
    (high << 16) | low
}

#[cfg(test)]
mod tests {
    use super::*;
    use crate::images::draft::Draft;
    use crate::rng::Rng;

    /// Sum of 532 zeros: the low half stays 1, the high half counts them.
    const ZEROS: &str = "02140001";

    fn call(line: &str) -> Result<Call, Fault> {
        let line = parse(line.as_bytes())?;
        assert_eq!(line.lend, None);
        Ok(line.call)
    }

    fn fault(line: &str) -> Option<Fault> {
        parse(line.as_bytes()).err()
    }

    #[test]
    fn calls_are_read() {
        assert_eq!(call("start"), Ok(Call::Start));
        assert_eq!(call("raise"), Ok(Call::Raise));
        assert_eq!(call("lower 55"), Ok(Call::Lower(0x55)));
        assert_eq!(call("lower Fa"), Ok(Call::Lower(0xFA)));
        assert_eq!(call("feed"), Ok(Call::Feed(vec![])));
        assert_eq!(
            call("feed 00 0A*002 ff*1"),
            Ok(Call::Feed(vec![0, 10, 10, 255]))
        );
        assert_eq!(call("surface 2"), Ok(Call::Surface(2, vec![])));
        assert_eq!(
            call("surface 0 5a*532"),
            Ok(Call::Surface(0, vec![0x5A; 532]))
        );
        assert_eq!(
            call("surface 000255 01"),
            Ok(Call::Surface(255, vec![0x01]))
        );
        let zeros = format!("surface {}3", "0".repeat(100));
        assert_eq!(call(&zeros), Ok(Call::Surface(3, vec![])));
        assert_eq!(call("reset"), Ok(Call::Reset));
        assert_eq!(call("image"), Ok(Call::Image));
        assert_eq!(call("convert"), Ok(Call::Convert(vec![])));
        assert_eq!(
            call("convert F0 78*1 3c*002"),
            Ok(Call::Convert(vec![0xF0, 0x78, 0x3C, 0x3C]))
        );
        assert_eq!(call("feed 00*4096"), Ok(Call::Feed(vec![0; 4096])));
    }

    #[test]
    fn lengths_are_read() {
        let line = |lend, call| {
            Ok(Line {
                lend: Some(lend),
                call,
            })
        };
        assert_eq!(parse(b"lend 0 start"), line(0, Call::Start));
        assert_eq!(parse(b"lend 600 raise"), line(600, Call::Raise));
        assert_eq!(parse(b"lend 0536 lower 55"), line(536, Call::Lower(0x55)));
        assert_eq!(parse(b"lend 7 feed"), line(7, Call::Feed(vec![])));
        assert_eq!(
            parse(b"lend 7 surface 9 00*2"),
            line(7, Call::Surface(9, vec![0, 0]))
        );
        assert_eq!(parse(b"lend 532 image"), line(532, Call::Image));
        assert_eq!(
            parse(b"lend 0 convert"),
            line(0, Call::Convert(vec![])),
            "both are empty"
        );
        assert_eq!(
            parse(b"lend 0600 convert 01*3"),
            line(600, Call::Convert(vec![1; 3]))
        );
    }

    #[test]
    fn no_such_call() {
        let lines = [
            " ",
            "  ",
            " start",
            "\tstart",
            "start\r",
            "\r",
            "\t",
            "Start",
            "START",
            "starts",
            "start,",
            "stop",
            "read 0",
            "0",
            " # no comment",
            "lower55",
            "lower\t55",
            "feed\t00",
            "surface0",
            "Convert",
            "converts",
            "convert\t00",
            "convert00",
            "lend 5 converted",
            "lends 5 raise",
            "Lend 5 raise",
            "lend\t5 raise",
            "lend 5 lend 5 raise",
            "lend 5 stop",
            "lend 5 raise\r",
            "lend 5 # no comment",
            "\u{e9}",
        ];
        for line in lines {
            assert_eq!(fault(line), Some(Fault::Call), "{line:?}");
        }
        assert_eq!(parse(b"\xFF\x00"), Err(Fault::Call));
    }

    #[test]
    fn wrong_arguments() {
        let lines = [
            "start ",
            "start 1",
            "start  ",
            "raise ",
            "raise 01",
            "raise #",
            "reset ",
            "reset 0",
            "image ",
            "image 532",
            "lower",
            "lower ",
            "lower  55",
            "lower 55 ",
            "lower 55 55",
            "lower 55  ",
            "lower 55 zz",
            "feed ",
            "feed  00",
            "feed 00 ",
            "feed 00  00",
            "surface",
            "surface ",
            "surface  0",
            "surface 0 ",
            "surface 0  00",
            "surface 0 00 ",
            "convert ",
            "convert  00",
            "convert 00 ",
            "lend 5 convert ",
            "lend",
            "lend ",
            "lend  5 raise",
            "lend 5",
            "lend 5 ",
            "lend 5  raise",
            "lend 5 raise ",
            "lend 5 raise 1",
            "lend 5 lower",
            "lend 5 surface",
        ];
        for line in lines {
            assert_eq!(fault(line), Some(Fault::Arguments), "{line:?}");
        }
    }

    #[test]
    fn bytes_at_fault() {
        let lines = [
            "lower 5",
            "lower 555",
            "lower 5g",
            "lower 55*1",
            "lower 55*2",
            "lower 0x55",
            "lower 55\r",
            "lower 5 5",
            "feed 0",
            "feed 000",
            "feed 0g",
            "feed 00 0",
            "feed *2",
            "feed 0*2",
            "feed 00\t",
            "feed 00\t00",
            "feed 00,00",
            "feed #",
            "surface 0 0",
            "surface 0 5a*2 x",
            "surface 9 00\r",
            "convert 0",
            "convert 00 x",
            "convert lend",
            "lend 5 convert #",
            "lend 5 lower 5",
            "lend 5 feed 0",
            "feed \u{e9}",
        ];
        for line in lines {
            assert_eq!(fault(line), Some(Fault::Byte), "{line:?}");
        }
    }

    #[test]
    fn counts_at_fault() {
        let lines = [
            "feed 00*",
            "feed 00*0",
            "feed 00*4097",
            "feed 00*+1",
            "feed 00*1x",
            "feed 00*1\r",
            "feed 00* 1",
            "feed 00*18446744073709551617",
            "surface 0 00*0",
            "surface 0 00 00*5000",
            "convert 00*0",
            "convert 00*4097",
            "lend 5 feed 00*0",
        ];
        for line in lines {
            assert_eq!(fault(line), Some(Fault::Count), "{line:?}");
        }
    }

    #[test]
    fn answers_at_fault() {
        let lines = [
            "surface 256",
            "surface 1000",
            "surface -1",
            "surface +1",
            "surface x",
            "surface 0x1",
            "surface 1.",
            "surface 0*2",
            "surface 2\r",
            "surface 18446744073709551616",
            "surface 256 zz",
            "lend 5 surface 256",
        ];
        for line in lines {
            assert_eq!(fault(line), Some(Fault::Answer), "{line:?}");
        }
    }

    #[test]
    fn lengths_at_fault() {
        let lines = [
            "lend 601 raise",
            "lend 601",
            "lend 601 stop",
            "lend -1 raise",
            "lend x raise",
            "lend raise",
            "lend 5a raise",
            "lend 18446744073709551616 raise",
            "lend 601 surface 256",
            "lend 601 convert",
        ];
        for line in lines {
            assert_eq!(fault(line), Some(Fault::Length), "{line:?}");
        }
    }

    #[test]
    fn too_many_bytes() {
        for line in [
            "feed 00*4096 00",
            "feed 00 00*4096",
            "surface 0 00*4096 00 zz",
            "lend 5 feed 00*4096 00",
            "convert 00*4096 00",
        ] {
            assert_eq!(fault(line), Some(Fault::TooMany), "{line:?}");
        }
        assert_eq!(fault("feed 00*4096 zz 00"), Some(Fault::Byte));
        assert_eq!(fault("feed 00*4096  00"), Some(Fault::Arguments));
        assert_eq!(fault("feed 00*4096 "), Some(Fault::Arguments));
    }

    #[test]
    fn sums() {
        // The known sums of zlib.
        assert_eq!(adler32(b""), 1);
        assert_eq!(adler32(b"Wikipedia"), 0x11E6_0398);
        assert_eq!(adler32(&[0; 532]), 0x0214_0001);
        assert_eq!(adler32(&[0xEE; 532]), 0x017D_EEA8);
    }

    #[test]
    fn a_small_transcript() {
        let image = Draft::new(&[], &[]).bytes();
        let script = format!(
            "# a read of block 17\n\nstart\nsurface 0{}\nraise\nlower 55\n\
             feed 00 00 00 11 0a 03\nraise\nlower 55\nsurface 0 5a*532\nlower 55\nimage",
            text::show_bytes(&image)
        );
        let five_a = adler32(&[0x5A; 532]);
        // The image call gives form B.
        let mut of_b = [0; 532];
        of_b[..16].copy_from_slice(&[0xF0, 0x78, 0x3C, 0x1E, 0, 0, 0, 0, 0, 0, 0, 16, 0, 0, 0, 16]);
        of_b[530..].copy_from_slice(&[0x01, 0xE2]);
        let table = adler32(&of_b);
        assert_eq!(
            transcript(&script),
            format!(
                "read 4960 status 00000000 data {ZEROS}\n\
                 wait status 00000000 data {ZEROS}\n\
                 offer 01 status 00000000 data {ZEROS}\n\
                 wait status 00000000 data {ZEROS}\n\
                 wait status 00000000 data {ZEROS}\n\
                 offer 02 status 00000000 data {ZEROS}\n\
                 read 17 status 00000000 data {ZEROS}\n\
                 finished status 00008000 data {five_a:08x}\n\
                 refused 3 status 00008000 data {five_a:08x}\n\
                 wait image {table:08x}\n"
            )
        );
    }

    #[test]
    fn a_fault_stops_the_run() {
        let raise = format!("offer 01 status 00000000 data {ZEROS}\n");
        assert_eq!(
            transcript("# one\n\nraise\n\nlower\nraise\n"),
            format!("{raise}error: line 5: wrong arguments\n")
        );
        assert_eq!(transcript("stop"), "error: line 1: no such call\n");
        assert_eq!(
            transcript("raise\nlower 5"),
            format!("{raise}error: line 2: a byte is two hex digits\n")
        );
        assert_eq!(
            transcript("feed 00*0"),
            "error: line 1: a count is 1 to 4096\n"
        );
        assert_eq!(
            transcript("\nsurface 256"),
            "error: line 2: an answer is 0 to 255\n"
        );
        assert_eq!(
            transcript("#\nlend 601 raise\n"),
            "error: line 2: a length is 0 to 600\n"
        );
        assert_eq!(
            transcript("feed 00*4096 00"),
            "error: line 1: more than 4096 bytes\n"
        );
    }

    #[test]
    fn nothing_to_run() {
        for script in ["", "\n", "\n\n", "#", "# start\n", "\n#\n"] {
            assert_eq!(transcript(script), "", "{script:?}");
        }
    }

    #[test]
    fn bytes_that_are_no_text() {
        let mut out = vec![];
        run(&b"#\xFF\xFE\nraise\nst\xFFrt\n"[..], &mut out).expect("memory");
        assert!(out.ends_with(b"\nerror: line 3: no such call\n"));
        out.clear();
        run(&b"feed \xFF\n"[..], &mut out).expect("memory");
        assert_eq!(out, b"error: line 1: a byte is two hex digits\n");
    }

    #[test]
    fn refused_lengths_leave_all_as_it_was() {
        let script = "lend 535 raise\nlend 536 raise\nlend 532 image\nlend 536 image\n";
        let ee = adler32(&[0xEE; 532]);
        assert_eq!(
            transcript(script),
            format!(
                "refused 2 status 00000000 data {ZEROS}\n\
                 offer 01 status 00000000 data {ZEROS}\n\
                 refused 3 image {ee:08x}\n\
                 refused 2 image {ee:08x}\n"
            )
        );
    }

    #[test]
    fn converts_show_their_second_buffer() {
        let of_a = Draft::new(&[], &[]).bytes();
        let bytes = text::show_bytes(&of_a);
        let ee = |count: usize| adler32(&vec![0xEE; count]);
        let of_b = {
            let mut drive = Drive::new();
            let returned = drive.call(&Call::Convert(of_a.clone()));
            returned.image.expect("an image")
        };
        let script = format!(
            "convert{bytes}\nlend 532 convert{}\nlend 600 convert{bytes}\n\
             lend 0 convert{bytes}\nconvert\nconvert 00*532\n",
            text::show_bytes(&of_b)
        );
        assert_eq!(
            transcript(&script),
            format!(
                "wait image {:08x}\nwait image {:08x}\nrefused 2 image {:08x}\n\
                 refused 2 image 00000001\nrefused 2 image {:08x}\nrefused 6 image {:08x}\n",
                adler32(&of_b),
                adler32(&of_a),
                ee(600),
                ee(532),
                ee(532)
            )
        );
    }

    #[test]
    fn there_and_back() {
        let mut rng = Rng::new(5);
        for _ in 0..500 {
            let bytes: Vec<u8> = (0..rng.place(9)).map(|_| rng.pick(&[1, 2, 255])).collect();
            let call = match rng.below(8) {
                0 => Call::Start,
                1 => Call::Raise,
                2 => Call::Lower(rng.byte()),
                3 => Call::Feed(bytes),
                4 => Call::Surface(rng.byte(), bytes),
                5 => Call::Reset,
                6 => Call::Convert(bytes),
                _ => Call::Image,
            };
            let lend = rng.one_in(2).then(|| rng.place(601));
            let line = Line { lend, call };
            assert_eq!(parse(show(&line).as_bytes()), Ok(line));
        }
    }
}
