//! Tables that are taken off a platter and put on it, and platters whose table is gone.
//! The blocks of such a platter can be read in their home sectors, as if none had moved;
//! `spares` has what did.

mod spares;

use std::collections::BTreeSet;
use std::path::{Path, PathBuf};

use reference::geometry::{SECTOR_BYTES, TABLE};
use reference::image::{Spare, Table};
use reference::surface::{Access, Left};
use usage::outputs::{followed, Output};

use crate::files::{self, Beside};
use crate::platter::{self, Platter, PlatterFile};
use crate::show;
use crate::table_files::{self, held, judged, no_image, summary, Source};

pub use spares::Spares;

/// Says why a platter has no good table, and what can be had all the same.
pub fn no_table(path: &Path, fault: &str) -> String {
    let name = path.display();
    format!(
        "{name} has no good table, {fault}; nobody knows which of its blocks moved
  what can be had:
  workbench export --without-table {name} IMAGE
    each block as it is in its home sector; one that moved comes with old bytes or none
    (with --keep-going, and zeros for those that cannot be read)
  workbench export --spares {name} FILE
    the 32 spares, sectors 4928..4959, with the newest bytes of the blocks that moved; of
    which blocks, only the bytes can tell. Take them first: a drive in use writes there
  workbench put-table FILE {name}
    a table that was taken off earlier; a block that moved since is then read from its old
    sector, and the old bytes there look good
  workbench put-table --empty {name}
    an empty table, so that the drive can be used again; a block that moved is then read
    from its home sector, and the old bytes there look good"
    )
}

/// Says what was taken off a platter, and what is wrong with it, if something is.
#[derive(Clone, Debug, PartialEq, Eq)]
pub struct Taken {
    pub line: String,
    pub fault: Option<String>,
}

/// Takes the bytes of a platter's table off to a new file, those of a bad one too.
pub fn take(path: &Path, to: &Path) -> Result<Taken, String> {
    let (name, file) = (path.display(), to.display());
    let Source::Platter(platter) = Source::read(path)? else {
        return Err(format!("{name} is no platter: it has 532 bytes already"));
    };
    let bytes = held(&platter).map_err(|fault| no_table(path, &fault))?;
    files::write(&Output::to_new(to, "the table"), &bytes)?;
    Ok(match judged(&bytes) {
        Ok((form, table)) => Taken {
            line: format!("{file}: the table of {name}, {}", summary(form, &table)),
            fault: None,
        },
        Err(fault) => Taken {
            line: format!("{file}: the bytes of sector 4960 of {name} as they stand"),
            fault: Some(no_table(path, &fault)),
        },
    })
}

/// Puts a table's image on a platter, or an empty table. Its sector becomes readable, and
/// what it had is kept in another file. Nobody else uses the platter meanwhile. Says what
/// was done.
pub fn put(image: Option<&Path>, path: &Path, replace: bool) -> Result<Vec<String>, String> {
    let new = match image {
        Some(file) => New::read(file)?,
        None => New::empty(),
    };
    let (mut on, mut platter) = PlatterFile::open_old(path)?;
    let name = path.display();
    let old = good_table(&platter);
    if let (Some((words, _)), false) = (&old, replace) {
        return Err(format!(
            "{name} has a good table, {words}; --replace puts another in its place"
        ));
    }
    let kept = keep(path, &platter)?;
    let left = Left::Held(new.bytes.to_vec());
    platter.leave(Access::Write(TABLE), &new.bytes, &left);
    on.save(&mut platter)?;
    let warning = match old {
        Some((_, old)) => other_places(&old, &new.table),
        None => new.warning,
    };
    Ok(vec![format!("{name}: {}", new.words), kept, warning])
}

/// Holds a table that is to be put on a platter.
struct New {
    bytes: [u8; SECTOR_BYTES],
    table: Table,
    words: String,
    warning: String,
}

impl New {
    /// Reads a table's image.
    fn read(file: &Path) -> Result<New, String> {
        let name = file.display();
        let bytes = platter::Source::open(file)?.bytes()?;
        if platter::is_one(&bytes) {
            return Err(format!(
                "{name} is a platter; workbench table {name} --to FILE takes its table off"
            ));
        }
        let (form, table) = judged(&bytes).map_err(|fault| no_image(file, &fault))?;
        Ok(New {
            words: format!("the table of {name}, {}", summary(form, &table)),
            bytes: bytes.try_into().expect("an image has 532 bytes"),
            table,
            warning: String::from(
                "  a block that moved since this table was stored is now read from its old \
                 sector, and the old bytes there look good",
            ),
        })
    }

    /// Makes an empty table.
    fn empty() -> New {
        let bytes = platter::empty_table();
        let (form, table) = judged(&bytes).expect("an empty table is one");
        New {
            words: format!("an empty table, {}", summary(form, &table)),
            bytes,
            table,
            warning: String::from(
                "  a block that moved is now read from its home sector, and the old bytes there \
                 look good",
            ),
        }
    }
}

/// Returns the table of a platter with its words, if it has a good one.
fn good_table(platter: &Platter) -> Option<(String, Table)> {
    let (form, table) = judged(&held(platter).ok()?).ok()?;
    Some((summary(form, &table), table))
}

/// Keeps the bytes of the table's sector in a file beside the platter that was not there.
/// Says where they are.
fn keep(path: &Path, platter: &Platter) -> Result<String, String> {
    let file = kept_in(path, &platter.bytes(TABLE))?;
    let file = file.display();
    Ok(match table_files::held(platter) {
        Ok(_) => format!("  the 532 bytes that stood there are in {file}"),
        Err(_) => format!("  sector 4960 was unreadable; what was last sent to it is in {file}"),
    })
}

/// Writes bytes beside a platter itself, in a file of its owner and mode, under the first
/// name that is free. Returns the file.
fn kept_in(path: &Path, bytes: &[u8]) -> Result<PathBuf, String> {
    let path = followed(path).map_err(|error| files::unread(path, error))?;
    let mut ending = String::from(".old-table");
    let mut number = 1;
    loop {
        let mut name = path.clone().into_os_string();
        name.push(&ending);
        let file = PathBuf::from(name);
        if !files::is_taken(&file) && Beside::write(&file, Some(&path), bytes)?.put_if_free()? {
            return Ok(file);
        }
        number += 1;
        ending = format!(".old-table.{number}");
    }
}

/// Says which blocks live elsewhere by a new table than by the old one.
fn other_places(old: &Table, new: &Table) -> String {
    let (old, new) = (moves(old), moves(new));
    let blocks: BTreeSet<u32> = old.symmetric_difference(&new).map(|one| one.0).collect();
    let blocks: Vec<u32> = blocks.into_iter().collect();
    match blocks[..] {
        [] => String::from("  every block is read from the sector that it was read from before"),
        _ => format!(
            "  blocks that are now read from other sectors, where other bytes look good: {}",
            show::ranges(&blocks)
        ),
    }
}

/// Lists the blocks that moved, each with its spare.
fn moves(table: &Table) -> BTreeSet<(u32, usize)> {
    let spares = table.spares().iter().enumerate();
    let moved = spares.filter_map(|(k, entry)| match entry.spare {
        Spare::Moved(block) => Some((block.number(), k)),
        Spare::Dead => None,
    });
    moved.collect()
}

/// Gives a platter without a good table an empty one, in memory, so that each block is at
/// its home. One with a good table is refused.
pub fn as_if_none_moved(path: &Path, mut platter: Platter) -> Result<Platter, String> {
    if let Some((words, _)) = good_table(&platter) {
        let name = path.display();
        return Err(format!(
            "{name} has a good table, {words}; without --without-table each block is read where \
             it lives"
        ));
    }
    let empty = platter::empty_table();
    platter.leave(Access::Write(TABLE), &empty, &Left::Held(empty.to_vec()));
    Ok(platter)
}

#[cfg(test)]
mod tests {
    use super::*;
    use crate::files::test_folder;
    use reference::geometry::Block;
    use reference::image::{self, Cause, Entry, Form};
    use std::fs::{self, Permissions};
    use std::os::unix::fs::PermissionsExt;

    /// Makes the image of a table with these blocks in the first spares.
    fn table(form: Form, run: u32, blocks: &[u32]) -> Vec<u8> {
        let spares = blocks.iter().map(|&number| Entry {
            spare: Spare::Moved(Block::new(number).expect("a block")),
            cause: Cause::Unknown,
        });
        let table = Table::new(run, spares.collect(), vec![]).expect("a table");
        image::write(form, &table).to_vec()
    }

    /// Saves a platter whose table's sector was left so.
    fn platter(path: &Path, sent: &[u8], left: &Left) {
        let mut platter = Platter::blank();
        platter.leave(Access::Write(TABLE), sent, left);
        platter.save(path).expect("saved");
    }

    fn good(path: &Path, bytes: &[u8]) {
        platter(path, bytes, &Left::Held(bytes.to_vec()));
    }

    /// Returns what the table's sector of a platter file holds.
    fn stored(path: &Path) -> Option<Vec<u8>> {
        let platter = Platter::load(path).expect("a platter");
        platter.held(TABLE).map(|bytes| bytes.to_vec())
    }

    fn names(folder: &Path) -> Vec<String> {
        let entries = fs::read_dir(folder).expect("a folder");
        let names = entries.map(|entry| entry.expect("an entry").file_name());
        let mut names: Vec<String> = names.filter_map(|name| name.into_string().ok()).collect();
        names.sort();
        names
    }

    #[test]
    fn taken_off_and_put_back() {
        let folder = test_folder("taken");
        let (path, file) = (folder.join("p"), folder.join("t"));
        for form in [Form::A, Form::B] {
            let bytes = table(form, 0, &[17]);
            good(&path, &bytes);
            let taken = take(&path, &file).expect("taken");
            assert_eq!(taken.fault, None);
            assert!(taken.line.contains("1 of 32 spares used"), "{taken:?}");
            assert_eq!(fs::read(&file).expect("a table"), bytes);

            platter(&path, &[7; 532], &Left::Spoiled);
            let lines = put(Some(&file), &path, false).expect("put");
            assert!(lines[0].contains("/p: the table of "), "{lines:?}");
            assert!(lines[1].starts_with("  sector 4960 was unreadable; "));
            assert!(lines[2].contains("is now read from its old sector"));
            assert_eq!(stored(&path), Some(bytes));
            let kept = fs::read(folder.join("p.old-table")).expect("the old bytes");
            assert_eq!(kept, [7; 532]);
            assert_eq!(names(&folder), ["p", "p.old-table", "t"]);
            for name in ["p.old-table", "t"] {
                fs::remove_file(folder.join(name)).expect("removed");
            }
        }
        fs::remove_dir_all(folder).expect("removed");
    }

    #[test]
    fn a_bad_table_is_taken_as_it_stands_and_an_unreadable_one_is_not() {
        let folder = test_folder("bad-taken");
        let (path, file) = (folder.join("p"), folder.join("t"));
        let mut bytes = table(Form::B, 3, &[17]);
        bytes[531] ^= 1;
        good(&path, &bytes);
        let taken = take(&path, &file).expect("taken");
        let fault = taken.fault.expect("a fault");
        assert!(
            fault.contains("code 7: the sum of form B is wrong"),
            "{fault}"
        );
        assert_eq!(fs::read(&file).expect("the bytes"), bytes);
        fs::remove_file(&file).expect("removed");
        platter(&path, &bytes, &Left::Spoiled);
        let message = take(&path, &file).expect_err("unreadable");
        assert!(
            message.contains("since sector 4960 is unreadable"),
            "{message}"
        );
        assert!(!file.exists());
        fs::write(&path, &bytes).expect("written");
        let message = take(&path, &file).expect_err("an image");
        assert!(message.ends_with("is no platter: it has 532 bytes already"));
        fs::remove_dir_all(folder).expect("removed");
    }

    #[test]
    fn a_good_table_is_replaced_if_that_is_said() {
        let folder = test_folder("replaced");
        let (path, file) = (folder.join("p"), folder.join("t"));
        let (old, new) = (table(Form::B, 9, &[17, 300]), table(Form::B, 2, &[17]));
        good(&path, &old);
        fs::write(&file, &new).expect("written");
        for image in [Some(file.as_path()), None] {
            let message = put(image, &path, false).expect_err("a good table");
            let words =
                "has a good table, form B, run number 9, 2 of 32 spares used, no bad block; \
                         --replace puts another in its place";
            assert!(message.ends_with(words), "{message}");
            assert_eq!(stored(&path).as_deref(), Some(&old[..]));
            assert_eq!(names(&folder), ["p", "t"]);
        }
        let lines = put(Some(&file), &path, true).expect("put");
        assert!(lines[1].ends_with("/p.old-table"), "{lines:?}");
        assert!(
            lines[2].ends_with("where other bytes look good: 300"),
            "{lines:?}"
        );
        assert_eq!(stored(&path), Some(new.clone()));
        let lines = put(None, &path, true).expect("put");
        assert!(lines[1].ends_with("/p.old-table.2"), "{lines:?}");
        assert!(
            lines[2].ends_with("where other bytes look good: 17"),
            "{lines:?}"
        );
        assert_eq!(stored(&path).as_deref(), Some(&platter::empty_table()[..]));
        let lines = put(None, &path, true).expect("put");
        assert!(
            lines[2].contains("every block is read from the sector"),
            "{lines:?}"
        );
        let kept = ["p.old-table", "p.old-table.2", "p.old-table.3"];
        let kept = kept.map(|name| fs::read(folder.join(name)).expect("old bytes"));
        assert_eq!(kept, [old, new, platter::empty_table().to_vec()]);
        fs::remove_dir_all(folder).expect("removed");
    }

    #[test]
    fn blocks_that_change_their_spare_live_elsewhere() {
        let read = |bytes: Vec<u8>| image::read(&bytes).expect("a table").1;
        let places = |old: &[u32], new: &[u32]| {
            let (old, new) = (table(Form::B, 1, old), table(Form::B, 1, new));
            other_places(&read(old), &read(new))
        };
        assert!(places(&[17, 300], &[300, 17]).ends_with(": 17, 300"));
        assert!(places(&[5, 6], &[5, 6, 7]).ends_with(": 7"));
        assert!(places(&[5], &[5]).starts_with("  every block is read from "));
    }

    #[test]
    fn what_is_no_table_is_not_put() {
        let folder = test_folder("not-put");
        let (path, file) = (folder.join("p"), folder.join("t"));
        let good_one = table(Form::B, 2, &[17]);
        let mut wrong_sum = good_one.clone();
        wrong_sum[530] ^= 1;
        platter(&path, &[7; 532], &Left::Spoiled);
        for (bytes, words) in [
            (good_one[..531].to_vec(), "is no table's image, code 2: "),
            (vec![0; 532], "is no table's image, code 6: "),
            (wrong_sum, "is no table's image, code 7: "),
            (vec![0; platter::LENGTH], "--to FILE takes its table off"),
        ] {
            fs::write(&file, bytes).expect("written");
            let message = put(Some(&file), &path, true).expect_err("no table");
            assert!(message.contains(words), "{message}");
            assert_eq!(stored(&path), None);
            assert_eq!(names(&folder), ["p", "p.unreadable", "t"]);
        }
        fs::write(&file, good_one).expect("written");
        fs::write(&path, vec![0; 5_175_296]).expect("written");
        let message = put(Some(&file), &path, true).expect_err("no platter");
        assert!(
            message.ends_with("workbench import makes one of it"),
            "{message}"
        );
        fs::remove_dir_all(folder).expect("removed");
    }

    #[test]
    fn no_other_sector_changes_and_a_save_that_fails_changes_none() {
        let folder = test_folder("one-sector");
        let path = folder.join("p");
        good(&path, &[7; 532]);
        let before = fs::read(&path).expect("a platter");
        // The name that comes first is taken, by a folder.
        fs::create_dir(folder.join("p.old-table")).expect("a folder");
        let mode = |mode| fs::set_permissions(&path, Permissions::from_mode(mode));
        mode(0o440).expect("a mode");
        let message = put(None, &path, false).expect_err("it is protected");
        assert!(message.contains("/p cannot be written: "), "{message}");
        assert!(fs::read(&path).expect("a platter") == before);
        assert_eq!(
            fs::read(folder.join("p.old-table.2")).expect("old bytes"),
            [7; 532]
        );
        mode(0o640).expect("a mode");
        let lines = put(None, &path, false).expect("put");
        assert!(lines[1].ends_with("/p.old-table.3"), "{lines:?}");
        for name in ["p", "p.old-table.3"] {
            let file = fs::metadata(folder.join(name)).expect("a file");
            assert_eq!(file.permissions().mode() & 0o777, 0o640, "{name}");
        }
        let mut after = fs::read(&path).expect("a platter");
        let sector = TABLE.number() as usize * SECTOR_BYTES;
        after[sector..sector + SECTOR_BYTES].fill(7);
        assert!(after == before);
        fs::remove_dir_all(folder).expect("removed");
    }

    #[test]
    fn a_platter_in_use_is_left() {
        let folder = test_folder("put-in-use");
        let (path, file) = (folder.join("p"), folder.join("t"));
        good(&path, &platter::empty_table());
        let before = fs::read(&path).expect("a platter");
        let words = "/p is in use by another workbench: nothing is done";
        let reader = platter::Source::open(&path).expect("a reader");
        // Others may read it meanwhile.
        take(&path, &file).expect("taken");
        let message = put(None, &path, true).expect_err("in use");
        assert!(message.ends_with(words), "{message}");
        drop(reader);
        let writer = PlatterFile::open_old(&path).expect("a writer");
        for message in [
            put(None, &path, true).err(),
            take(&path, &folder.join("u")).err(),
        ] {
            let message = message.expect("in use");
            assert!(message.ends_with(words), "{message}");
        }
        drop(writer);
        assert!(fs::read(&path).expect("a platter") == before);
        assert_eq!(names(&folder), ["p", "t"]);
        let message = put(None, &folder.join("none"), true).expect_err("no platter");
        assert!(message.contains("/none cannot be read: "), "{message}");
        fs::remove_dir_all(folder).expect("removed");
    }

    #[test]
    fn without_a_table_every_block_is_at_home() {
        let path = Path::new("p");
        let mut platter = Platter::blank();
        let message = as_if_none_moved(path, platter.clone()).expect_err("a good table");
        assert!(
            message.starts_with("p has a good table, form B, "),
            "{message}"
        );
        for left in [Left::Spoiled, Left::Held(vec![0; 532])] {
            platter.leave(Access::Write(TABLE), &[0; 532], &left);
            let emptied = as_if_none_moved(path, platter.clone()).expect("emptied");
            let (_, table) = emptied.table().expect("a table");
            assert!(table.spares().is_empty() && table.bads().is_empty());
        }
    }
}
