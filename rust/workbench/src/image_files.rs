//! Images that people already have: the blocks of a drive in a file, as emulators keep
//! them. They come on a platter and off it by the controller's own commands. `forms` tells
//! them apart, and `diskcopy` has the one with a header.

mod diskcopy;
mod forms;

use std::path::Path;

use controller::SECTOR_BYTES;
use reference::geometry::BLOCKS;
use usage::outputs::Output;
use usage::{Export, ImageForm, TagPlace};

use crate::board::Board;
use crate::host::{Host, Retry};
use crate::platter::{Platter, PlatterFile};
use crate::progress::Progress;
use crate::rescue::{self, Spares};
use crate::{files, show, table_files};

pub use forms::{no_platter, pointed, unknown, LENGTH};

/// An export rereads much and moves nothing.
const PATIENT: Retry = Retry {
    retries: 100,
    threshold: 255,
};

/// Says what was imported, in lines, and which checksums were wrong.
#[derive(Clone, Debug, PartialEq, Eq)]
pub struct Imported {
    pub lines: Vec<String>,
    pub wrong: Vec<String>,
}

/// Writes an image onto a new platter with an empty table. One with a wrong checksum is
/// taken only if it is wanted all the same.
pub fn import(
    image: &Path,
    platter: &Path,
    tags: Option<TagPlace>,
    keep_going: bool,
) -> Result<Imported, String> {
    let bytes = files::read(image)?;
    let found = forms::importable(image, &bytes)?;
    let what = format!("{}: {}", image.display(), found.words());
    if let (forms::Image::Raw532(_), Some(_)) = (found, tags) {
        return Err(format!(
            "{what}, which come as they stand: --tags goes with blocks of 512 bytes"
        ));
    }
    let wrong = found.wrong_sums();
    if !wrong.is_empty() && !keep_going {
        let wrong = wrong.join(", and ");
        return Err(format!(
            "{what}; {wrong}; with --keep-going it is imported all the same"
        ));
    }
    let place = tags.unwrap_or_default();
    write_all(&found.whole_blocks(place), platter)?;
    let came = came(&found, place);
    let (image, platter) = (image.display(), platter.display());
    let wrong = wrong.iter().map(|fault| format!("{image}: {fault}"));
    let wrong = wrong.collect();
    let blocks = show::count(found.blocks() as u64, "block", "blocks");
    let done = format!("{platter}: the {blocks} of {image}, {came}with an empty table");
    let lines = vec![what, done];
    Ok(Imported { lines, wrong })
}

/// Says where the tags of an image came to stand, and which blocks it has not.
fn came(image: &forms::Image, place: TagPlace) -> String {
    let place = match place {
        TagPlace::First => "before",
        TagPlace::Last => "behind",
    };
    let what = match image {
        forms::Image::Raw532(_) => None,
        forms::Image::DiskCopy(found) if !found.tags.is_empty() => Some("the tags"),
        forms::Image::Raw512(_) | forms::Image::DiskCopy(_) => Some("20 zeros"),
    };
    let tags = what.map_or(String::new(), |what| {
        format!("{what} {place} the 512 bytes of each, ")
    });
    let missing: Vec<u32> = (image.blocks() as u32..BLOCKS).collect();
    match missing[..] {
        [] => tags,
        _ => format!("{tags}zeros in blocks {}, ", show::ranges(&missing)),
    }
}

/// Writes blocks of 532 bytes onto a blank platter in a file.
fn write_all(blocks: &[u8], platter: &Path) -> Result<(), String> {
    let mut file = PlatterFile::new(platter)?;
    let mut host = Host::new(Board::new(Platter::blank()));
    host.start();
    let progress = Progress::new();
    for (number, block) in (0..BLOCKS).zip(blocks.chunks_exact(SECTOR_BYTES)) {
        let report = host.write(number, false, block);
        assert!(report.good(), "a write without faults is good");
        progress.tick("import", number as usize, BLOCKS as usize);
    }
    progress.end(BLOCKS as usize);
    file.save(host.board.platter_mut())
}

/// Says what was exported: the blocks that could not be read, those whose tags were not
/// zero and are not in the image, and without a table the spares.
#[derive(Clone, Debug, Default, PartialEq, Eq)]
pub struct Exported {
    pub lost: Vec<u32>,
    pub dropped: Vec<u32>,
    pub spares: Spares,
}

/// Reads all blocks of a platter into an image, and leaves the platter. If some could not
/// be read, the image is written only if it is wanted all the same, with zeros for them.
pub fn export(platter: &Path, image: &Path, how: Export) -> Result<Exported, String> {
    let mut source = Platter::load(platter)?;
    let mut spares = Spares::default();
    if how.without_table {
        spares = Spares::of(&source).0;
        source = rescue::as_if_none_moved(platter, source)?;
    }
    let judged = table_files::held(&source).and_then(|bytes| table_files::judged(&bytes));
    judged.map_err(|fault| rescue::no_table(platter, &fault))?;
    let (blocks, lost) = read_all(source);
    let name = platter.file_stem().unwrap_or_default().to_string_lossy();
    let written = forms::written(blocks, how.form, how.tags, &name);
    if lost.is_empty() || how.keep_going {
        files::write(&Output::to_new(image, "the image"), &written.bytes)?;
    }
    Ok(Exported {
        lost,
        dropped: written.dropped,
        spares,
    })
}

/// Reads all blocks of a platter that has a table, those that cannot be read as zeros.
/// Returns them with the numbers of the latter.
fn read_all(platter: Platter) -> (Vec<u8>, Vec<u32>) {
    let mut host = Host::new(Board::new(platter));
    host.start();
    assert!(host.board.table().is_some(), "a good table is found");
    let progress = Progress::new();
    let mut bytes = Vec::with_capacity(LENGTH);
    let mut lost = vec![];
    for number in 0..BLOCKS {
        if host.read(number, PATIENT).good() {
            bytes.extend_from_slice(host.board.data());
        } else {
            bytes.extend_from_slice(&[0; SECTOR_BYTES]);
            lost.push(number);
        }
        progress.tick("export", number as usize, BLOCKS as usize);
    }
    progress.end(BLOCKS as usize);
    (bytes, lost)
}

impl Exported {
    /// Says what an image has that was written.
    pub fn line(&self, platter: &Path, image: &Path, how: Export) -> String {
        let form = match how.form {
            ImageForm::Raw532 => "",
            ImageForm::Raw512 => ", the 512 data bytes of each",
            ImageForm::DiskCopy => ", as a DiskCopy 4.2 image with tags of 20",
        };
        let (platter, image) = (platter.display(), image.display());
        let blocks = match self.lost.len() as u32 {
            0 => String::new(),
            lost => format!("{} of ", BLOCKS - lost),
        };
        format!("{image}: {blocks}the {BLOCKS} blocks of {platter}{form}")
    }

    /// Says what the image has not, or not for certain.
    pub fn notes(&self, platter: &Path, how: Export) -> Vec<String> {
        let mut notes = vec![];
        if how.without_table {
            notes.push(String::from(
                "  each block is as it is in its home sector: one that moved comes with old \
                 bytes or none, and nobody knows which moved",
            ));
            notes.extend(self.spares.notes(platter));
        }
        if !self.dropped.is_empty() {
            let blocks = show::ranges(&self.dropped);
            let (place, other) = match how.tags {
                TagPlace::First => ("first", "last"),
                TagPlace::Last => ("last", "first"),
            };
            notes.push(format!(
                "  the tags, the {place} 20 bytes of a block, were left out; they are not zero in \
                 blocks {blocks}"
            ));
            notes.push(format!(
                "  (--form diskcopy keeps them; --tags {other} if they are the {other} 20 bytes)"
            ));
        }
        notes
    }
}

#[cfg(test)]
mod tests {
    use super::*;
    use crate::faults::{Effect, Fault, Kind};
    use crate::files::test_folder;
    use reference::geometry::Sector;
    use reference::image::Form;
    use std::fs;

    fn usual() -> Export {
        Export::default()
    }

    /// An image whose blocks all differ.
    fn image() -> Vec<u8> {
        let mut rng = reference::rng::Rng::new(5);
        (0..LENGTH).map(|_| rng.byte()).collect()
    }

    /// Lets a write/verify of a block fail at these sectors.
    fn write_badly(path: &Path, sectors: &[u32], number: u32, data: &[u8]) {
        let mut host = Host::new(Board::new(Platter::load(path).expect("a platter")));
        for &number in sectors {
            let sector = Sector::new(number).expect("a sector");
            let fault = Fault::All(Effect::Unreadable);
            host.board.faults.add(sector, Kind::Writes, fault);
        }
        host.start();
        host.write(number, true, data);
        // The table goes to the platter.
        host.raise();
        host.board.platter_mut().save(path).expect("saved");
    }

    #[test]
    fn round_trip_with_moved_blocks() {
        let folder = test_folder("round");
        let (first, platter, second) = (folder.join("a"), folder.join("p"), folder.join("b"));
        let mut bytes = image();
        fs::write(&first, &bytes).expect("written");
        import(&first, &platter, None, false).expect("imported");

        // Block 17 moves to spare 1 and 5000 to spare 2, with other bytes.
        write_badly(&platter, &[17, 4928], 17, &[1; 532]);
        write_badly(&platter, &[5064], 5000, &[2; 532]);
        bytes[17 * 532..18 * 532].fill(1);
        bytes[5000 * 532..5001 * 532].fill(2);
        let before = fs::read(&platter).expect("a platter");
        assert_eq!(export(&platter, &second, usual()), Ok(Exported::default()));
        assert!(fs::read(&second).expect("an image") == bytes);
        assert!(fs::read(&platter).expect("a platter") == before);
        let stored = Platter::load(&platter).expect("a platter").table();
        let (form, table) = stored.expect("a table");
        assert_eq!((form, table.spares().len()), (Form::B, 3));
        fs::remove_dir_all(folder).expect("removed");
    }

    #[test]
    fn unreadable_blocks_are_named() {
        let folder = test_folder("lost");
        let (first, platter, second) = (folder.join("a"), folder.join("p"), folder.join("b"));
        let mut bytes = image();
        fs::write(&first, &bytes).expect("written");
        import(&first, &platter, None, false).expect("imported");
        fs::write(folder.join("p.unreadable"), "300\n4992\n").expect("written");
        let lost = Exported {
            lost: vec![300, 4928],
            ..Exported::default()
        };
        assert_eq!(export(&platter, &second, usual()), Ok(lost.clone()));
        assert!(!second.exists());
        let keep_going = Export {
            keep_going: true,
            ..usual()
        };
        assert_eq!(export(&platter, &second, keep_going), Ok(lost));
        bytes[300 * 532..301 * 532].fill(0);
        bytes[4928 * 532..4929 * 532].fill(0);
        assert!(fs::read(&second).expect("an image") == bytes);
        fs::remove_dir_all(folder).expect("removed");
    }

    #[test]
    fn refusals() {
        let folder = test_folder("refused");
        let (image, platter) = (folder.join("a"), folder.join("p"));
        fs::write(&image, vec![0; LENGTH - 1]).expect("written");
        let message = import(&image, &platter, None, false).expect_err("another size");
        assert!(message.contains("has 5175295 bytes and is no image"));
        assert!(!platter.exists());
        fs::write(&platter, vec![0; crate::platter::LENGTH]).expect("written");
        let message = export(&platter, &folder.join("b"), usual()).expect_err("no table");
        assert!(message.contains("has no good table"));
        fs::remove_dir_all(folder).expect("removed");
    }

    /// Makes a DiskCopy 4.2 image of so many blocks, all different.
    fn diskcopy_image(blocks: usize) -> Vec<u8> {
        let bytes = image();
        let (data, tags) = bytes.split_at(BLOCKS as usize * 512);
        diskcopy::write("Shop", &data[..blocks * 512], &tags[..blocks * 20])
    }

    #[test]
    fn a_diskcopy_image_there_and_back() {
        let folder = test_folder("diskcopy");
        let (first, platter, second) = (folder.join("a"), folder.join("p.x"), folder.join("b"));
        let bytes = diskcopy_image(800);
        fs::write(&first, &bytes).expect("written");
        let done = import(&first, &platter, None, false).expect("imported");
        let folder_name = format!("{}/", folder.display());
        let lines = done.lines.iter().map(|line| line.replace(&folder_name, ""));
        let lines: Vec<String> = lines.collect();
        assert_eq!(
            lines,
            [
                "a: a DiskCopy 4.2 image \"Shop\" of 800 blocks of 512 bytes with tags of 20",
                "p.x: the 800 blocks of a, the tags before the 512 bytes of each, zeros in blocks \
                 800..9727, with an empty table",
            ]
        );
        assert_eq!(done.wrong, [""; 0]);
        let how = Export {
            form: ImageForm::DiskCopy,
            ..usual()
        };
        assert_eq!(export(&platter, &second, how), Ok(Exported::default()));
        let back = fs::read(&second).expect("an image");
        assert_eq!(back[..3], [1, b'p', 0], "the platter's name");
        assert!(back[84..84 + 800 * 512] == bytes[84..84 + 800 * 512]);
        let tags = 84 + 9728 * 512;
        assert!(back[tags..tags + 800 * 20] == bytes[84 + 800 * 512..]);
        assert!(back[84 + 800 * 512..tags].iter().all(|&byte| byte == 0));
        fs::remove_dir_all(folder).expect("removed");
    }

    #[test]
    fn a_wrong_checksum_is_taken_if_that_is_said() {
        let folder = test_folder("sums");
        let (path, platter) = (folder.join("a"), folder.join("p"));
        let mut bytes = diskcopy_image(2);
        // A byte of the name is in no checksum.
        bytes[1] = b'F';
        bytes[84] ^= 1;
        fs::write(&path, &bytes).expect("written");
        let message = import(&path, &platter, None, false).expect_err("a wrong checksum");
        assert!(message.contains("image \"Fhop\" of 2 blocks"), "{message}");
        assert!(message.contains(" for its data, which have "), "{message}");
        assert!(!platter.exists());
        let done = import(&path, &platter, None, true).expect("imported");
        assert_eq!(done.wrong.len(), 1);
        let start = format!("{}: the header has ", path.display());
        assert!(done.wrong[0].starts_with(&start), "{done:?}");
        let held = fs::read(&platter).expect("a platter");
        assert_eq!(held[20..20 + 512], bytes[84..84 + 512]);
        fs::remove_dir_all(folder).expect("removed");
    }

    #[test]
    fn blocks_of_512_bytes_there_and_back() {
        let folder = test_folder("raw512");
        let (first, platter, second) = (folder.join("a"), folder.join("p"), folder.join("b"));
        let bytes = image()[..BLOCKS as usize * 512].to_vec();
        fs::write(&first, &bytes).expect("written");
        let done = import(&first, &platter, Some(TagPlace::Last), false).expect("imported");
        let words = "20 zeros behind the 512 bytes of each, with an empty table";
        assert!(done.lines[1].ends_with(words), "{done:?}");
        let held = fs::read(&platter).expect("a platter");
        assert!(held[532..532 + 512] == bytes[512..1024]);
        assert!(held[532 + 512..2 * 532].iter().all(|&byte| byte == 0));
        let how = Export {
            form: ImageForm::Raw512,
            tags: TagPlace::Last,
            ..usual()
        };
        assert_eq!(export(&platter, &second, how), Ok(Exported::default()));
        assert!(fs::read(&second).expect("an image") == bytes);
        fs::write(&first, image()).expect("written");
        let message = import(&first, &folder.join("q"), Some(TagPlace::Last), false);
        let message = message.expect_err("nothing to place");
        assert!(
            message.contains("--tags goes with blocks of 512"),
            "{message}"
        );
        fs::remove_dir_all(folder).expect("removed");
    }
}
