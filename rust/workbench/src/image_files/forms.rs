//! The forms of an image, told by a file's size and content, and the blocks of each. A
//! block has 532 bytes: 512 of data, and 20 of tags before or behind them.

use std::path::Path;

use reference::geometry::{BLOCKS, SECTOR_BYTES};
use reference::image;
use usage::{ImageForm, TagPlace};

use super::diskcopy::{self, DiskCopy, DATA_BYTES, TAG_BYTES};
use crate::{platter, show, table_files};

/// Counts the blocks of a drive.
const ALL: usize = BLOCKS as usize;

/// Length of an image of blocks of 532 bytes.
pub const LENGTH: usize = ALL * SECTOR_BYTES;

/// Length of an image of blocks of 512 bytes.
pub const DATA_LENGTH: usize = ALL * DATA_BYTES;

/// Holds an image in one of its forms.
#[derive(Clone, Copy, Debug, PartialEq, Eq)]
pub enum Image<'a> {
    Raw532(&'a [u8]),
    Raw512(&'a [u8]),
    DiskCopy(DiskCopy<'a>),
}

impl<'a> Image<'a> {
    /// Recognises an image. Returns nothing if the file is none, and what is wrong with one
    /// that cannot be taken. No image of DiskCopy has the size of another form.
    pub fn of(bytes: &'a [u8]) -> Option<Result<Image<'a>, String>> {
        match bytes.len() {
            LENGTH => Some(Ok(Image::Raw532(bytes))),
            DATA_LENGTH => Some(Ok(Image::Raw512(bytes))),
            _ => Some(diskcopy::read(bytes)?.map(Image::DiskCopy)),
        }
    }

    /// Says what the image is.
    pub fn words(&self) -> String {
        match self {
            Image::Raw532(_) => format!("an image of {ALL} blocks of {SECTOR_BYTES} bytes"),
            Image::Raw512(_) => format!("an image of {ALL} blocks of {DATA_BYTES} bytes"),
            Image::DiskCopy(image) => image.words(),
        }
    }

    /// Counts the blocks.
    pub fn blocks(&self) -> usize {
        match self {
            Image::Raw532(_) | Image::Raw512(_) => ALL,
            Image::DiskCopy(image) => image.blocks(),
        }
    }

    /// Says which checksums are wrong.
    pub fn wrong_sums(&self) -> Vec<String> {
        match self {
            Image::Raw532(_) | Image::Raw512(_) => vec![],
            Image::DiskCopy(image) => image.wrong_sums(),
        }
    }

    /// Returns its blocks, 532 bytes each, with the tags at this place if the image has
    /// them apart.
    pub fn whole_blocks(&self, place: TagPlace) -> Vec<u8> {
        match self {
            Image::Raw532(bytes) => bytes.to_vec(),
            Image::Raw512(data) => joined(data, &[], place),
            Image::DiskCopy(image) => joined(image.data, image.tags, place),
        }
    }
}

/// Puts data and tags together, block by block. Tags that are not there are zeros.
fn joined(data: &[u8], tags: &[u8], place: TagPlace) -> Vec<u8> {
    let tags = tags.chunks_exact(TAG_BYTES);
    let tags = tags.chain(std::iter::repeat(&[0; TAG_BYTES][..]));
    let blocks = data.chunks_exact(DATA_BYTES).zip(tags);
    let blocks = blocks.flat_map(|(data, tag)| match place {
        TagPlace::First => [tag, data],
        TagPlace::Last => [data, tag],
    });
    blocks.flatten().copied().collect()
}

/// Takes blocks of 532 bytes apart, into their data and their tags.
fn parted(blocks: &[u8], place: TagPlace) -> (Vec<u8>, Vec<u8>) {
    let (mut data, mut tags) = (vec![], vec![]);
    for block in blocks.chunks_exact(SECTOR_BYTES) {
        let (its_tag, its_data) = match place {
            TagPlace::First => block.split_at(TAG_BYTES),
            TagPlace::Last => {
                let (data, tag) = block.split_at(DATA_BYTES);
                (tag, data)
            }
        };
        data.extend_from_slice(its_data);
        tags.extend_from_slice(its_tag);
    }
    (data, tags)
}

/// Holds the bytes of an image that is to be written.
pub struct Written {
    pub bytes: Vec<u8>,
    /// The numbers of the blocks whose tags were not zero and are not in it.
    pub dropped: Vec<u32>,
}

/// Writes blocks of 532 bytes in a form. An image of DiskCopy has this name.
pub fn written(blocks: Vec<u8>, form: ImageForm, place: TagPlace, name: &str) -> Written {
    let kept = |bytes| Written {
        bytes,
        dropped: vec![],
    };
    match form {
        ImageForm::Raw532 => kept(blocks),
        ImageForm::Raw512 => {
            let (bytes, tags) = parted(&blocks, place);
            let tags = (0..).zip(tags.chunks_exact(TAG_BYTES));
            let used = tags.filter(|(_, tag)| tag.iter().any(|&byte| byte != 0));
            let dropped = used.map(|(number, _)| number).collect();
            Written { bytes, dropped }
        }
        ImageForm::DiskCopy => {
            let (data, tags) = parted(&blocks, place);
            kept(diskcopy::write(name, &data, &tags))
        }
    }
}

/// Returns the image of a file's bytes, or says why there is none that can be imported.
pub fn importable<'a>(path: &Path, bytes: &'a [u8]) -> Result<Image<'a>, String> {
    let name = path.display();
    match Image::of(bytes) {
        Some(Ok(image)) if image.blocks() <= ALL => Ok(image),
        Some(Ok(image)) => {
            let what = image.words();
            Err(format!("{name} is {what}, and the drive has {ALL} blocks"))
        }
        Some(Err(fault)) => Err(format!("{name} is no good DiskCopy 4.2 image: {fault}")),
        None if platter::is_one(bytes) => Err(format!(
            "{name} is a platter already; workbench run --platter takes it"
        )),
        None if image::read(bytes).is_ok() => Err(format!(
            "{name} is a table's image, and no image of blocks; workbench put-table puts it on a \
             platter, and table, convert and picture take it"
        )),
        None => Err(format!(
            "{name} has {} bytes and is no image that is known; {}{}\n{KNOWN}",
            bytes.len(),
            beginning(bytes),
            no_table(bytes).unwrap_or_else(|| nearly(bytes.len())),
        )),
    }
}

/// Lists what a file can be.
const KNOWN: &str = "  known are:
  5175296 bytes: an image of 9728 blocks of 532 bytes, for import
  4980736 bytes: an image of 9728 blocks of 512 bytes, for import
  84 bytes and more, 01 00 at byte 82: a DiskCopy 4.2 image of 9728 blocks or fewer, for import
  5209344 bytes: a platter of 9792 sectors of 532 bytes
  532 bytes: a table's image, for table, convert, picture and put-table";

/// Shows the first bytes of a file.
fn beginning(bytes: &[u8]) -> String {
    let first = &bytes[..bytes.len().min(16)];
    let hex: Vec<String> = first.iter().map(|byte| format!("{byte:02X}")).collect();
    let text = first.iter().map(|byte| match byte {
        b' '..=b'~' => char::from(*byte),
        _ => '.',
    });
    match first {
        [] => String::from("it is empty"),
        _ => {
            let text: String = text.collect();
            format!("it begins with {} ({text})", hex.join(" "))
        }
    }
}

/// Says why a file is no table's image, if it has the length of one.
fn no_table(bytes: &[u8]) -> Option<String> {
    let long = bytes.len() == SECTOR_BYTES;
    let fault = table_files::judged(bytes).err().filter(|_| long)?;
    Some(format!(
        "\n  it has the length of a table's image, and is none, {fault}"
    ))
}

/// Says how many whole blocks a file would have, if it has another number than a drive.
fn nearly(length: usize) -> String {
    let sizes = [SECTOR_BYTES, DATA_BYTES].into_iter();
    let whole = sizes.filter(|size| length > 0 && length.is_multiple_of(*size));
    let found: Vec<String> = whole
        .map(|size| (show::count((length / size) as u64, "block", "blocks"), size))
        .map(|(blocks, size)| format!("{blocks} of {size} bytes"))
        .collect();
    match found[..] {
        [] => String::new(),
        _ => {
            let found = found.join(" or ");
            format!(
                "\n  it would be {found}; an image without a header has {ALL}, no more and no less"
            )
        }
    }
}

/// Says of a file with these bytes that it is no platter. An image is told what makes a
/// platter of it.
pub fn no_platter(path: &Path, bytes: &[u8]) -> String {
    pointed(path, bytes).unwrap_or_else(|| {
        let fault = format!(
            "{} has {} bytes and is no platter, which has {} (9792 sectors of 532)",
            path.display(),
            bytes.len(),
            platter::LENGTH
        );
        unknown(&fault, bytes)
    })
}

/// Says what to do with an image in the place of a platter.
pub fn pointed(path: &Path, bytes: &[u8]) -> Option<String> {
    let name = path.display();
    match Image::of(bytes) {
        Some(Ok(image)) => {
            let comma = match image {
                Image::DiskCopy(_) => ",",
                _ => "",
            };
            let rest = match image.blocks() {
                0..=ALL => String::from("workbench import makes one of it"),
                _ => format!("the drive has {ALL} blocks"),
            };
            let what = image.words();
            Some(format!("{name} is {what}{comma} and no platter; {rest}"))
        }
        Some(Err(fault)) => Some(format!(
            "{name} is no platter, and no good DiskCopy 4.2 image: {fault}"
        )),
        None if image::read(bytes).is_ok() => Some(format!(
            "{name} is a table's image and no platter; workbench put-table puts it on one"
        )),
        None => None,
    }
}

/// Puts the first bytes of an unknown file, and what is known, behind what is wrong with it.
pub fn unknown(fault: &str, bytes: &[u8]) -> String {
    format!("{fault}; {}\n{KNOWN}", beginning(bytes))
}

#[cfg(test)]
mod tests {
    use super::*;
    use crate::files::test_folder;
    use crate::platter::{Platter, PlatterFile};
    use reference::rng::Rng;
    use std::fs;
    use usage::outputs::LIST_AT_END;

    fn random(length: usize) -> Vec<u8> {
        let mut rng = Rng::new(5);
        (0..length).map(|_| rng.byte()).collect()
    }

    /// Says why a file `x` with these bytes cannot be imported.
    fn refused(bytes: &[u8]) -> String {
        importable(Path::new("x"), bytes).expect_err("no image")
    }

    #[test]
    fn the_three_forms_are_told_apart() {
        let (data, tags) = (vec![1; 3 * DATA_BYTES], vec![2; 3 * TAG_BYTES]);
        for (bytes, words) in [
            (vec![0; 5_175_296], "an image of 9728 blocks of 532 bytes"),
            (vec![0; 4_980_736], "an image of 9728 blocks of 512 bytes"),
            (
                diskcopy::write("Shop", &data, &tags),
                "a DiskCopy 4.2 image \"Shop\" of 3 blocks of 512 bytes with tags of 20",
            ),
        ] {
            let image = Image::of(&bytes).expect("a form").expect("an image");
            assert_eq!(image.words(), words);
        }
        for length in [0, 83, 84, 532, LENGTH - 1, DATA_LENGTH + 1, platter::LENGTH] {
            assert_eq!(Image::of(&vec![0; length]), None);
        }
    }

    #[test]
    fn no_image_with_a_header_has_the_size_of_another_file() {
        for whole in [LENGTH, DATA_LENGTH, platter::LENGTH] {
            for block in [DATA_BYTES, DATA_BYTES + 12, SECTOR_BYTES] {
                assert_ne!((whole - diskcopy::HEADER) % block, 0);
            }
        }
    }

    #[test]
    fn tags_stand_before_or_behind_the_data() {
        let data = [[1; DATA_BYTES], [2; DATA_BYTES]].concat();
        let tags = [[3; TAG_BYTES], [4; TAG_BYTES]].concat();
        let first = joined(&data, &tags, TagPlace::First);
        assert_eq!(first.len(), 2 * SECTOR_BYTES);
        assert_eq!((first[0], first[19], first[20], first[531]), (3, 3, 1, 1));
        assert_eq!((first[532], first[552]), (4, 2));
        let last = joined(&data, &tags, TagPlace::Last);
        assert_eq!((last[0], last[511], last[512], last[531]), (1, 1, 3, 3));
        for (blocks, place) in [(first, TagPlace::First), (last, TagPlace::Last)] {
            assert_eq!(parted(&blocks, place), (data.clone(), tags.clone()));
        }
        let without = joined(&data, &[], TagPlace::First);
        assert_eq!((without[0], without[19], without[20]), (0, 0, 1));
        assert_eq!((without[532], without[551], without[552]), (0, 0, 2));
    }

    #[test]
    fn each_form_there_and_back() {
        let blocks = random(LENGTH);
        for place in [TagPlace::First, TagPlace::Last] {
            for form in [ImageForm::Raw532, ImageForm::DiskCopy] {
                let written = written(blocks.clone(), form, place, "Shop");
                assert!(written.dropped.is_empty());
                let image = Image::of(&written.bytes).expect("a form");
                let image = image.expect("an image");
                assert_eq!((image.blocks(), image.wrong_sums()), (9728, vec![]));
                assert!(image.whole_blocks(place) == blocks);
            }
        }
    }

    #[test]
    fn tags_that_are_dropped_are_named() {
        let mut blocks = vec![0; LENGTH];
        // The last tag byte of block 3, and a data byte of block 5.
        blocks[3 * SECTOR_BYTES + 19] = 1;
        blocks[5 * SECTOR_BYTES + 20] = 1;
        let form = ImageForm::Raw512;
        let first = written(blocks.clone(), form, TagPlace::First, "");
        assert_eq!(first.dropped, [3]);
        assert_eq!(first.bytes.len(), DATA_LENGTH);
        assert_eq!(first.bytes[5 * DATA_BYTES], 1);
        let image = Image::of(&first.bytes).expect("a form").expect("an image");
        blocks[3 * SECTOR_BYTES + 19] = 0;
        assert!(image.whole_blocks(TagPlace::First) == blocks);
        blocks[7 * SECTOR_BYTES + 512] = 1;
        let last = written(blocks, form, TagPlace::Last, "");
        assert_eq!(last.dropped, [7]);
        assert_eq!(last.bytes[5 * DATA_BYTES + 20], 1);
    }

    #[test]
    fn what_is_unknown_is_told_with_what_is_known() {
        let message = refused(b"PK\x03\x04");
        let start = "x has 4 bytes and is no image that is known; it begins with 50 4B 03 04 \
                     (PK..)\n  known are:\n  5175296 bytes: ";
        assert!(message.starts_with(start), "{message}");
        let size = |length: usize| format!("\n  {length} bytes: ");
        for length in [LENGTH, DATA_LENGTH, platter::LENGTH, SECTOR_BYTES] {
            assert!(message.contains(&size(length)), "{length}: {message}");
        }
        assert!(
            refused(b"").starts_with("x has 0 bytes and is no image that is known; it is empty")
        );
        let long = refused(&[b'x'; 100]);
        assert!(long.contains(&format!(" ({})\n", "x".repeat(16))), "{long}");
    }

    #[test]
    fn another_number_of_blocks_is_told() {
        let fewer = refused(&vec![0; DATA_LENGTH - DATA_BYTES]);
        let words =
            "\n  it would be 9727 blocks of 512 bytes; an image without a header has 9728, \
                     no more and no less\n";
        assert!(fewer.contains(words), "{fewer}");
        let more = refused(&vec![0; 2 * LENGTH]);
        assert!(
            more.contains("19456 blocks of 532 bytes or 20216 blocks of 512"),
            "{more}"
        );
        assert!(!refused(&vec![0; LENGTH - 1]).contains("it would be"));
        let data = vec![0; 9729 * DATA_BYTES];
        let message = refused(&diskcopy::write("Big", &data, &[]));
        let words = "\"Big\" of 9729 blocks of 512 bytes without tags, and the drive has 9728";
        assert!(message.contains(words), "{message}");
    }

    #[test]
    fn files_of_another_kind_are_pointed_on() {
        let mut platter = Platter::blank();
        let folder = test_folder("pointed");
        let path = folder.join("p");
        platter.save(&path).expect("saved");
        let bytes = fs::read(&path).expect("a platter");
        let message = importable(&path, &bytes).expect_err("a platter");
        let words = "/p is a platter already; workbench run --platter takes it";
        assert!(message.ends_with(words), "{message}");
        // One whose save is not over is a platter too.
        let saving = [&bytes, LIST_AT_END.as_bytes()].concat();
        let message = importable(&path, &saving).expect_err("a platter");
        assert!(message.ends_with(words), "{message}");
        fs::remove_dir_all(folder).expect("removed");
    }

    #[test]
    fn a_tables_image_is_pointed_on_and_what_is_nearly_one_is_told() {
        let mut table = platter::empty_table();
        assert_eq!(
            refused(&table),
            "x is a table's image, and no image of blocks; workbench put-table puts it on a \
             platter, and table, convert and picture take it"
        );
        table[531] ^= 1;
        for (bytes, fault) in [
            (&table[..], "code 7: the sum of form B is wrong"),
            (
                &[0; 532],
                "code 6: the image is neither a well-formed one of form A, nor does it begin as \
                 form B",
            ),
        ] {
            let message = refused(bytes);
            let words = format!(
                ")\n  it has the length of a table's image, and is none, {fault}\n  known are:\n"
            );
            assert!(message.contains(&words), "{message}");
            assert!(!message.contains("it would be"), "{message}");
        }
        assert!(!refused(&table[..531]).contains("the length of a table's"));
    }

    /// Checks what is said of a file with these bytes in the place of a platter.
    fn is_no_platter(bytes: &[u8], words: &str) {
        let folder = test_folder("in-its-place");
        let path = folder.join("x");
        fs::write(&path, bytes).expect("written");
        let loaded = Platter::load(&path).err();
        let opened = PlatterFile::open(&path).err();
        for message in [loaded, opened] {
            let message = message.expect("no platter");
            assert!(message.ends_with(words), "{message}");
        }
        fs::remove_dir_all(folder).expect("removed");
    }

    #[test]
    fn images_in_the_place_of_a_platter_are_pointed_on() {
        let import = "and no platter; workbench import makes one of it";
        for (length, size) in [(LENGTH, 532), (DATA_LENGTH, 512)] {
            let words = format!("/x is an image of 9728 blocks of {size} bytes {import}");
            is_no_platter(&vec![0; length], &words);
        }
        let words = "/x is a DiskCopy 4.2 image \"Shop\" of 1 block of 512 bytes without tags, ";
        is_no_platter(
            &diskcopy::write("Shop", &[0; 512], &[]),
            &format!("{words}{import}"),
        );
        is_no_platter(
            &diskcopy::write("Big", &vec![0; 9729 * 512], &[]),
            "without tags, and no platter; the drive has 9728 blocks",
        );
        is_no_platter(
            &diskcopy::write("Floppy", &[0; 512], &[0; 12]),
            "/x is no platter, and no good DiskCopy 4.2 image: each block has 12 tag bytes, as a \
             floppy's has, and a drive's block has 20",
        );
        is_no_platter(
            &platter::empty_table(),
            "/x is a table's image and no platter; workbench put-table puts it on one",
        );
    }

    #[test]
    fn what_is_no_platter_for_another_reason_is_told_as_ever() {
        let folder = test_folder("no-platter");
        let path = folder.join("p");
        fs::write(&path, b"PROFILE").expect("written");
        let message = Platter::load(&path).expect_err("no platter");
        let words =
            "/p has 7 bytes and is no platter, which has 5209344 (9792 sectors of 532); it \
                     begins with 50 52 4F 46 49 4C 45 (PROFILE)\n  known are:\n";
        assert!(message.contains(words), "{message}");
        fs::remove_file(&path).expect("removed");
        Platter::blank().save(&path).expect("saved");
        fs::write(folder.join("p.unreadable"), "x\n").expect("written");
        let message = Platter::load(&path).expect_err("no list");
        assert!(
            message.ends_with("p.unreadable:1: \"x\" is no sector"),
            "{message}"
        );
        assert!(Platter::load(&folder.join("none")).is_err());
        assert!(PlatterFile::open(&folder.join("none")).is_ok());
        fs::remove_dir_all(folder).expect("removed");
    }
}
