//! Tables in files: a platter's, or the 532 bytes of an image. They are shown in words,
//! and images are turned into their other form. What an image is worth is the proved
//! library's to say.

use std::path::Path;

use controller::{Answer, Code};
use reference::geometry::{SECTOR_BYTES, TABLE};
use reference::image::{self, Clause, Fault, Form, Table};
use usage::outputs::Output;

use crate::image_files::{pointed, unknown};
use crate::platter::{self, Platter};
use crate::{files, rescue, show, table};

/// Says what a file with a table is.
pub enum Source {
    /// The 532 bytes of an image, of whatever worth.
    Image(Vec<u8>),
    Platter(Platter),
}

impl Source {
    /// Reads a file.
    pub fn read(path: &Path) -> Result<Source, String> {
        let mut source = platter::Source::open(path)?;
        let bytes = source.bytes()?;
        match bytes.len() {
            SECTOR_BYTES => Ok(Source::Image(bytes)),
            length if length < platter::LENGTH => {
                Err(pointed(path, &bytes).unwrap_or_else(|| neither(path, &bytes)))
            }
            _ => source.platter(&bytes).map(Source::Platter),
        }
    }

    /// Returns its table, if it has one.
    pub fn table(&self) -> Option<(Form, Table)> {
        match self {
            Source::Image(bytes) => image::read(bytes).ok(),
            Source::Platter(platter) => platter.table(),
        }
    }

    /// Lists the numbers of its unreadable sectors. An image knows of none.
    pub fn unreadable(&self) -> Vec<u32> {
        match self {
            Source::Image(_) => vec![],
            Source::Platter(platter) => {
                let sectors = platter.unreadable();
                sectors.iter().map(|sector| sector.number()).collect()
            }
        }
    }
}

/// Says of a file that it is neither a platter nor a table's image.
fn neither(path: &Path, bytes: &[u8]) -> String {
    let fault = format!(
        "{} has {} bytes and is neither a platter, which has {} (9792 sectors of 532), nor a \
         table's image, which has 532",
        path.display(),
        bytes.len(),
        platter::LENGTH
    );
    unknown(&fault, bytes)
}

/// Shows the table of a file in words, or says why it has none and what can be had.
pub fn lines(path: &Path) -> Result<Vec<String>, String> {
    let name = path.display();
    let (form, table) = match Source::read(path)? {
        Source::Image(bytes) => judged(&bytes).map_err(|fault| no_image(path, &fault))?,
        Source::Platter(platter) => {
            let judged = held(&platter).and_then(|bytes| judged(&bytes));
            judged.map_err(|fault| rescue::no_table(path, &fault))?
        }
    };
    let mut lines = vec![format!("{name}: {}", summary(form, &table))];
    let entries = table::lines(&table);
    lines.extend(entries.iter().map(|line| format!("  {line}")));
    Ok(lines)
}

/// Says the form of a table, its run number and its counts.
pub fn summary(form: Form, table: &Table) -> String {
    let (form, counts) = (table::form(form, table), table::counts(table, true));
    format!("{form}, {counts}")
}

/// Writes the other form of an image to a file. Says what was written.
pub fn convert(from: &Path, to: &Path) -> Result<String, String> {
    let bytes = files::read(from)?;
    let (form, other) = turned(&bytes).map_err(|fault| no_image(from, &fault))?;
    files::write(&Output::to_new(to, "the table"), &other)?;
    let past = match form {
        Form::A => "without its run number and causes",
        Form::B => "with run number 0 and no cause known",
    };
    let (form, from, to) = (table::form_name(form), from.display(), to.display());
    Ok(format!("{to}: the table of {from} in {form}, {past}"))
}

/// Turns an image into its other form. Returns that form and the bytes, or the code of
/// the refusal in words.
pub fn turned(image: &[u8]) -> Result<(Form, [u8; SECTOR_BYTES]), String> {
    let mut other = [0; SECTOR_BYTES];
    match controller::convert(image, &mut other) {
        Answer::Wait => {
            let (form, _) = image::read(&other).expect("the other form is an image");
            Ok((form, other))
        }
        Answer::Refused(code) => Err(refused(code, image)),
        answer => unreachable!("convert answered {answer:?}"),
    }
}

/// Reads an image that the library takes, or says its refusal in words.
pub fn judged(bytes: &[u8]) -> Result<(Form, Table), String> {
    turned(bytes)?;
    Ok(image::read(bytes).expect("what is turned into the other form is an image"))
}

/// Returns what the table's sector holds.
pub fn held(platter: &Platter) -> Result<Vec<u8>, String> {
    let held = platter.held(TABLE).map(|bytes| bytes.to_vec());
    held.ok_or_else(|| format!("since sector {} is unreadable", TABLE.number()))
}

/// Says a refusal, and which number of form B is wrong or how long the bytes are.
fn refused(code: Code, image: &[u8]) -> String {
    let words = match (code, image::read(image)) {
        (Code::Buffer, _) => format!("it has {} bytes, and an image has 532", image.len()),
        (code, Err(Fault::Field(clause))) => {
            format!("{}: {}", show::refused(code), broken(clause))
        }
        (code, _) => String::from(show::refused(code)),
    };
    format!("code {}: {words}", code.number())
}

/// Names what a clause of form B is about.
fn broken(clause: Clause) -> &'static str {
    match clause {
        Clause::SpareCount => "the spare count",
        Clause::SpareOffset => "the spare offset",
        Clause::BadCount => "the bad count",
        Clause::BadOffset => "the bad offset",
        Clause::SpareEntry => "an entry of the spare list is no block",
        Clause::Cause => "a cause",
        Clause::SpareTwice => "a block stands twice in the spare list",
        Clause::BadEntry => "an entry of the bad list is no block",
        Clause::BadTwice => "a block stands twice in the bad list",
        Clause::Zeros => "a byte behind the lists is no zero",
    }
}

/// Says of a file that it is no table's image.
pub fn no_image(path: &Path, fault: &str) -> String {
    format!("{} is no table's image, {fault}", path.display())
}

#[cfg(test)]
mod tests {
    use super::*;
    use crate::files::test_folder;
    use reference::geometry::Block;
    use reference::image::{form_b, Cause, Entry, Spare};
    use reference::surface::{Access, Left};
    use std::fs;

    /// Makes a table with a moved block, a dead spare and two bad blocks.
    fn table() -> Table {
        let block = |number| Block::new(number).expect("a block");
        let entries = [
            (Spare::Moved(block(17)), Cause::Crc),
            (Spare::Dead, Cause::Timeout),
        ];
        let spares = entries.map(|(spare, cause)| Entry { spare, cause });
        Table::new(5, spares.to_vec(), vec![block(40), block(41)]).expect("a table")
    }

    /// Makes its image of form B with other bytes at a place, and the sum that goes with them.
    fn changed(place: usize, bytes: &[u8]) -> Vec<u8> {
        let mut image = image::write(Form::B, &table()).to_vec();
        image[place..place + bytes.len()].copy_from_slice(bytes);
        let sum = form_b::sum(&image[..form_b::SUM_AT]);
        image[form_b::SUM_AT..].copy_from_slice(&sum.to_be_bytes());
        image
    }

    fn refusal(image: &[u8]) -> String {
        turned(image).expect_err("a refusal")
    }

    #[test]
    fn there_and_back() {
        let (a, b) = (image::write(Form::A, &table()), changed(0, &[]));
        assert_eq!(turned(&b), Ok((Form::A, a)));
        let (form, other) = turned(&a).expect("form B");
        let (_, read) = image::read(&other).expect("a table");
        assert_eq!((form, read.run()), (Form::B, 0));
        assert!(read.spares().iter().all(|one| one.cause == Cause::Unknown));
        assert_eq!(turned(&other), Ok((Form::A, a)));
    }

    #[test]
    fn other_lengths_are_code_2() {
        for length in [0, 4, 531, 533, 5320] {
            let mut image = changed(0, &[]);
            image.resize(length, 0);
            let words = format!("code 2: it has {length} bytes, and an image has 532");
            assert_eq!(refusal(&image), words);
        }
    }

    #[test]
    fn neither_form_is_code_6() {
        let words = "code 6: the image is neither a well-formed one of form A, nor does it begin \
                     as form B";
        assert_eq!(refusal(&[0; 532]), words);
        assert_eq!(refusal(&changed(0, &[0xF1])), words);
        let mut of_a = image::write(Form::A, &table());
        of_a[531] = 1;
        assert_eq!(refusal(&of_a), words);
    }

    #[test]
    fn a_wrong_sum_is_code_7() {
        for place in [4, 19, 529, 530, 531] {
            let mut image = changed(0, &[]);
            image[place] ^= 0x40;
            assert_eq!(refusal(&image), "code 7: the sum of form B is wrong");
        }
        // The sum comes before all else of form B.
        let mut image = changed(8, &[1]);
        image[531] ^= 1;
        assert_eq!(refusal(&image), "code 7: the sum of form B is wrong");
    }

    #[test]
    fn each_other_fault_of_form_b_is_code_8_and_named() {
        for (place, bytes, words) in [
            (8, &[1][..], "the spare count"),
            (11, &[17], "the spare offset"),
            (12, &[1], "the bad count"),
            (15, &[25], "the bad offset"),
            (17, &[0x26], "an entry of the spare list is no block"),
            (19, &[4], "a cause"),
            (20, &[0, 0, 17], "a block stands twice in the spare list"),
            (24, &[0xFF], "an entry of the bad list is no block"),
            (29, &[40], "a block stands twice in the bad list"),
            (529, &[1], "a byte behind the lists is no zero"),
        ] {
            let fault = "an offset, count, entry, cause or zero of form B is wrong";
            let words = format!("code 8: {fault}: {words}");
            assert_eq!(refusal(&changed(place, bytes)), words);
        }
    }

    #[test]
    fn a_refusal_writes_nothing() {
        let folder = test_folder("not-converted");
        let (from, to) = (folder.join("from"), folder.join("to"));
        for (image, code) in [
            (vec![0; 531], 2),
            (vec![0; 532], 6),
            ([changed(0, &[])[..531].to_vec(), vec![0]].concat(), 7),
            (changed(19, &[4]), 8),
        ] {
            fs::write(&from, &image).expect("written");
            let message = convert(&from, &to).expect_err("a refusal");
            let start = format!("{} is no table's image, code {code}: ", from.display());
            assert!(message.starts_with(&start), "{message}");
            assert_eq!(fs::read(&from).expect("as it was"), image);
            assert_eq!(fs::read_dir(&folder).expect("a folder").count(), 1);
        }
        fs::remove_dir_all(folder).expect("removed");
    }

    /// Shows the table of a file, without the folder in its name.
    fn shown(path: &Path) -> Vec<String> {
        let folder = format!("{}/", path.parent().expect("a folder").display());
        let lines = lines(path).expect("a table");
        lines.iter().map(|line| line.replace(&folder, "")).collect()
    }

    #[test]
    fn both_forms_in_words() {
        let folder = test_folder("words");
        let path = folder.join("t");
        fs::write(&path, changed(0, &[])).expect("written");
        let of_b = [
            "t: form B, run number 5, 2 of 32 spares used, 1 of them dead, 2 bad blocks",
            "  spare 0 (sector 4928): block 17, CRC error",
            "  spare 1 (sector 4929): dead, timeout",
            "  bad blocks: 40..41",
        ];
        assert_eq!(shown(&path), of_b);
        let mut platter = Platter::blank();
        let image = changed(0, &[]);
        platter.leave(Access::Write(TABLE), &image, &Left::Held(image.clone()));
        fs::remove_file(&path).expect("removed");
        platter.save(&path).expect("saved");
        assert_eq!(shown(&path), of_b);
        fs::write(&path, image::write(Form::A, &table())).expect("written");
        assert_eq!(
            shown(&path),
            [
                "t: form A, 2 of 32 spares used, 1 of them dead, 2 bad blocks",
                "  spare 0 (sector 4928): block 17, cause unknown",
                "  spare 1 (sector 4929): dead, cause unknown",
                "  bad blocks: 40..41",
            ]
        );
        fs::remove_dir_all(folder).expect("removed");
    }

    #[test]
    fn a_file_without_a_table() {
        let folder = test_folder("no-words");
        let path = folder.join("t");
        let message = |part: &str| {
            let message = lines(&path).expect_err("no table");
            assert!(message.contains(part), "{message}");
        };
        fs::write(&path, [0; 532]).expect("written");
        message("/t is no table's image, code 6: ");
        fs::write(&path, [0; 533]).expect("written");
        message("/t has 533 bytes and is neither a platter, which has 5209344 ");
        fs::write(&path, vec![0; platter::LENGTH + 1]).expect("written");
        message("/t has 5209345 bytes and is no platter");
        let mut platter = Platter::blank();
        platter.leave(Access::Write(TABLE), &[0; 532], &Left::Held(vec![0; 532]));
        fs::remove_file(&path).expect("removed");
        platter.save(&path).expect("saved");
        message("/t has no good table, code 6: ");
        platter.leave(Access::Write(TABLE), &[0; 532], &Left::Spoiled);
        platter.save(&path).expect("saved");
        message("/t has no good table, since sector 4960 is unreadable");
        fs::remove_dir_all(folder).expect("removed");
    }
}
