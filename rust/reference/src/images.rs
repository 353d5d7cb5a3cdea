//! Cases for the reader and the writer of table images: the input file, and the
//! transcript that is expected for an input.
//!
//! Each image has one line of transcript, which begins so:
//!
//! - `spares 17 dead bads 4927 written ..`: form A with these lists;
//! - `form b run 7 spares 17:1 dead:2 bads 4927 written ..`: form B with this run
//!   number and these lists, each spare entry with its cause;
//! - `none`: neither form, or not 532 bytes;
//! - `none 7`: form B with a wrong sum;
//! - `none 8`: form B with the right sum and something else wrong.
//!
//! After `written` come the bytes that are written for the table in the same form.

mod damage;
pub mod draft;
pub mod draft_b;
mod form_b;
mod lists;
mod random;
mod whole;

use crate::image::{self, Fault, Form, Spare, Table};
use crate::rng::Rng;
use crate::text;

/// What the making of a case says about it, whatever the reader finds.
#[derive(Clone, Copy, Debug, PartialEq, Eq)]
pub enum Expect {
    /// A well-formed image.
    Table,
    /// Neither a well-formed image of form A nor the beginning of one of form B.
    Form,
    /// Form B with a wrong sum.
    Sum,
    /// Form B with the right sum and something else wrong.
    Field,
    /// Only the reader can tell.
    Either,
}

/// One image of the input.
#[derive(Clone, Debug)]
pub struct Case {
    pub bytes: Vec<u8>,
    pub expect: Expect,
}

/// Cases of one kind.
#[derive(Clone, Debug)]
pub struct Group {
    /// What it holds, in plain words.
    pub about: &'static str,
    pub cases: Vec<Case>,
}

impl Group {
    /// A group whose cases are all expected to be the same.
    fn all(
        expect: Expect,
        about: &'static str,
        images: impl IntoIterator<Item = Vec<u8>>,
    ) -> Group {
        let cases = images
            .into_iter()
            .map(|bytes| Case { bytes, expect })
            .collect();
        Group { about, cases }
    }
}

/// Makes all cases.
pub fn groups() -> Vec<Group> {
    [of_form_a(), of_form_b()].concat()
}

/// Makes the cases of form A.
pub fn of_form_a() -> Vec<Group> {
    [
        whole::groups(),
        damage::groups(),
        lists::groups(),
        random::groups(),
    ]
    .concat()
}

/// Makes the cases of form B.
pub fn of_form_b() -> Vec<Group> {
    [form_b::whole(), form_b::damaged()].concat()
}

/// The input file.
pub fn input() -> String {
    let mut rng = Rng::new(0x696E_7075);
    let mut input = String::from("# Images for the reader and the writer of the spare table.\n");
    for group in groups() {
        input += &format!("\n# {}\n", group.about);
        for case in group.cases {
            // One line in three is spelled in an unusual way.
            let line = if rng.one_in(3) {
                text::show_line_varied(&case.bytes, &mut rng)
            } else {
                text::show_line(&case.bytes)
            };
            input += &line;
            input.push('\n');
        }
    }
    input
}

/// What is expected for an input: a line for each image, or an error in the
/// last one.
pub fn transcript(input: &[u8]) -> String {
    let mut transcript = String::new();
    for (number, line) in text::lines(input) {
        match text::parse_line(line) {
            Ok(bytes) => {
                transcript += &outcome(&bytes);
                transcript.push('\n');
            }
            Err(fault) => {
                transcript += &format!("error: line {number}: {fault}\n");
                break;
            }
        }
    }
    transcript
}

/// Makes the line for one image: what it holds and what is written for that in the
/// same form, or that it is none and, for form B, with which code.
fn outcome(bytes: &[u8]) -> String {
    match image::read(bytes) {
        Ok((form, table)) => show_table(form, &table),
        Err(Fault::Form) => String::from("none"),
        Err(Fault::Sum) => String::from("none 7"),
        Err(Fault::Field(_)) => String::from("none 8"),
    }
}

fn show_table(form: Form, table: &Table) -> String {
    let mut line = match form {
        Form::A => String::from("spares"),
        Form::B => format!("form b run {} spares", table.run()),
    };
    for entry in table.spares() {
        match entry.spare {
            Spare::Moved(block) => line += &format!(" {}", block.number()),
            Spare::Dead => line += " dead",
        }
        if form == Form::B {
            line += &format!(":{}", entry.cause.number());
        }
    }
    line += " bads";
    for bad in table.bads() {
        line += &format!(" {}", bad.number());
    }
    line += " written";
    line += &text::show_bytes(&image::write(form, table));
    line
}

#[cfg(test)]
mod tests {
    use super::*;

    const BEGIN: &str = "50 52 4f 46 49 4c 45 20*6 00*3 03 90 00 26 00 02 14 20";

    #[test]
    fn empty_image() {
        let line = format!("read {BEGIN} 00*2 ff*6 00*500");
        assert_eq!(
            transcript(line.as_bytes()),
            format!("spares bads written {BEGIN} 00*2 ff*6 00*500\n")
        );
    }

    #[test]
    fn image_with_entries() {
        // Spares: dead, 9727, dead; bads: 0, 9727. A mark that follows a dead
        // one, or a count that equals its neighbour, makes a longer run.
        let line =
            format!("read {BEGIN} 03 02 FF FF FE 00 25 FF ff*2 fe ff*3 00*3 00 25 ff*4 00*00485");
        assert_eq!(
            transcript(line.as_bytes()),
            format!(
                "spares dead 9727 dead bads 0 9727 written {BEGIN} 03 02 ff*2 fe 00 25 ff*3 fe \
                 ff*3 00*4 25 ff*4 00*485\n"
            )
        );
    }

    const BEGIN_B: &str = "f0 78 3c 1e";

    #[test]
    fn empty_image_of_form_b() {
        // 450 for the first bytes and 16 twice: 482.
        let bytes = format!("{BEGIN_B} 00*7 10 00*3 10 00*514 01 e2");
        assert_eq!(
            transcript(format!("read {bytes}").as_bytes()),
            format!("form b run 0 spares bads written {bytes}\n")
        );
    }

    #[test]
    fn image_of_form_b_with_entries() {
        // Run number 258; spares: dead by a timeout, 9727 after a CRC error, 0; bads
        // 0 and 9727. 450, 3, 49, 766, 293 and 292: 1853 in all, 073d hex.
        let bytes = format!(
            "{BEGIN_B} 00*2 01 02 00 03 00 10 00 02 00 1c ff ff fe 02 00 25 ff 01 00*4 \
             00*3 00 25 ff 00*496 07 3d"
        );
        let written = format!(
            "{BEGIN_B} 00*2 01 02 00 03 00 10 00 02 00 1c ff*2 fe 02 00 25 ff 01 00*8 25 ff \
             00*496 07 3d"
        );
        assert_eq!(
            transcript(format!("read {bytes}").as_bytes()),
            format!("form b run 258 spares dead:2 9727:1 0:0 bads 0 9727 written {written}\n")
        );
    }

    #[test]
    fn refusals_of_form_b() {
        let read = |bytes: &str| transcript(format!("read {BEGIN_B} {bytes}").as_bytes());
        assert_eq!(read("00*7 10 00*3 10 00*514 01 e3"), "none 7\n");
        assert_eq!(read("00*7 10 00*3 11 00*514 01 e2"), "none 7\n");
        assert_eq!(read("00*7 10 00*3 11 00*514 01 e3"), "none 8\n");
        assert_eq!(read("00*7 10 00*3 10 00*513 01 e2"), "none\n");
        assert_eq!(read(""), "error: line 1: a byte is two hex digits\n");
    }

    #[test]
    fn no_image() {
        assert_eq!(
            transcript(b"read\nread 00*532\nread ff*532"),
            "none\nnone\nnone\n"
        );
        let line = format!("read {BEGIN} 00*2 ff*6 00*499 01\n");
        assert_eq!(transcript(line.as_bytes()), "none\n");
    }

    #[test]
    fn nothing_to_read() {
        assert_eq!(transcript(b""), "");
        assert_eq!(transcript(b"\n# read 00\n\n"), "");
    }

    #[test]
    fn a_fault_stops_the_run() {
        assert_eq!(
            transcript(b"# images\n\nread 00\n\nread 00 0\nread 00\n"),
            "none\nerror: line 5: a byte is two hex digits\n"
        );
        assert_eq!(
            transcript(b"write"),
            "error: line 1: a line is read and its bytes\n"
        );
        assert_eq!(
            transcript(b"read 00*4097"),
            "error: line 1: a count is 1 to 4096\n"
        );
        assert_eq!(
            transcript(b"read 00*4096\nread 00*4096 00"),
            "none\nerror: line 2: more than 4096 bytes\n"
        );
    }

    #[test]
    fn the_reader_finds_what_the_making_says() {
        for group in groups() {
            assert!(!group.cases.is_empty(), "{}", group.about);
            for (number, case) in group.cases.iter().enumerate() {
                let found = match image::read(&case.bytes) {
                    Ok(_) => Expect::Table,
                    Err(Fault::Form) => Expect::Form,
                    Err(Fault::Sum) => Expect::Sum,
                    Err(Fault::Field(_)) => Expect::Field,
                };
                assert!(
                    case.expect == Expect::Either || case.expect == found,
                    "{}, case {number}: {}",
                    group.about,
                    text::show_line(&case.bytes)
                );
            }
        }
    }

    #[test]
    fn an_image_that_was_read_is_written_again() {
        for case in groups().iter().flat_map(|group| &group.cases) {
            if let Ok((form, table)) = image::read(&case.bytes) {
                assert_eq!(image::write(form, &table)[..], case.bytes[..]);
            }
        }
    }

    #[test]
    fn random_cases_go_both_ways() {
        for group in groups() {
            let open = group
                .cases
                .iter()
                .filter(|case| case.expect == Expect::Either);
            let (read, not): (Vec<_>, Vec<_>) =
                open.partition(|case| image::read(&case.bytes).is_ok());
            if read.len() + not.len() > 0 {
                assert!(read.len() >= 10, "{}: {} are read", group.about, read.len());
                assert!(not.len() >= 10, "{}: {} are not", group.about, not.len());
            }
        }
    }

    #[test]
    fn the_input_brings_the_cases() {
        let input = input();
        let brought: Vec<Vec<u8>> = text::lines(input.as_bytes())
            .map(|(_, line)| text::parse_line(line).expect("a line"))
            .collect();
        let cases: Vec<Vec<u8>> = groups()
            .into_iter()
            .flat_map(|group| group.cases)
            .map(|case| case.bytes)
            .collect();
        assert_eq!(brought, cases);
        assert_eq!(transcript(input.as_bytes()).lines().count(), cases.len());
    }

    #[test]
    fn the_input_is_of_a_fit_size_and_always_the_same() {
        let input = input();
        assert!(input.len() < 500_000, "{} bytes", input.len());
        let count = text::lines(input.as_bytes()).count();
        assert!((1000..=1300).contains(&count), "{count} images");
        assert_eq!(input, super::input());
        assert!(input.is_ascii());
    }

    #[test]
    fn unusual_spellings_are_met() {
        let input = input();
        for spelling in [" 4F", " 4f", " FF*", " ff*", "*03 ", "*1 ", "*0004"] {
            assert!(input.contains(spelling), "{spelling:?}");
        }
    }
}
