//! The platter in a file: its sectors one after another, an unreadable one with its
//! last bytes. Which are unreadable is listed in a text beside it, `NAME.unreadable`,
//! which is there only if there is such a sector.
//!
//! A save changes both as one. If the list changes, the new platter is written with
//! the new list at its end, and the rename that gives it the file's name is the save.
//! Then the list is put beside the file, and cut off its end. While a list stands at
//! the end, the one beside the file does not count.

use std::fs::{self, File, Metadata};
use std::io::{self, Read};
use std::os::unix::fs::MetadataExt;
use std::path::{Path, PathBuf};

use reference::geometry::Sector;
use usage::outputs::{self, followed, Identity, Output, LIST_AT_END};

use super::lock::{self, Locked, Use};
use super::{Platter, LENGTH};
use crate::files::{self, Beside};
use crate::image_files::no_platter;

/// What stands behind the list at a platter's end.
const BEHIND: &str = "end\n";

impl Platter {
    /// The platter of a file, which no workbench may be changing meanwhile.
    pub fn load(path: &Path) -> Result<Platter, String> {
        let mut source = Source::open(path)?;
        let bytes = source.bytes()?;
        source.platter(&bytes)
    }

    /// Reads a platter from the bytes of its file, which has this name in messages.
    fn of(name: &Path, path: &Path, bytes: &[u8]) -> Result<Platter, String> {
        let refused = || no_platter(name, bytes);
        let (held, end) = bytes.split_at_checked(LENGTH).ok_or_else(refused)?;
        let unreadable = match end {
            [] => list_beside(path)?,
            end => list_at_end(end).ok_or_else(refused)?,
        };
        let mut platter = Platter::holding(held);
        for sector in unreadable {
            platter.make_unreadable(sector, &platter.bytes(sector));
        }
        Ok(platter)
    }

    /// Lists the unreadable sectors, one a line.
    fn list(&self) -> String {
        let sectors = self.remains.keys();
        sectors
            .map(|sector| format!("{}\n", sector.number()))
            .collect()
    }

    /// Saves the platter in a file that no other test uses.
    #[cfg(test)]
    pub fn save(&mut self, path: &Path) -> Result<(), String> {
        let (mut file, _) = PlatterFile::open(path)?;
        file.save(self)
    }
}

/// Holds a file that is only read: a platter, or what else has a table.
pub struct Source {
    name: PathBuf,
    locked: Locked,
}

impl Source {
    /// Opens a file. No workbench changes it until it is closed.
    pub fn open(name: &Path) -> Result<Source, String> {
        match Locked::open(name, Use::Shared)? {
            Some(locked) => Ok(Source {
                name: name.to_path_buf(),
                locked,
            }),
            None => Err(not_there(name)),
        }
    }

    /// Reads its bytes.
    pub fn bytes(&mut self) -> Result<Vec<u8>, String> {
        all_of(&mut self.locked.file).map_err(|error| files::unread(&self.name, error))
    }

    /// Reads the platter that it is if it has these bytes.
    pub fn platter(&self, bytes: &[u8]) -> Result<Platter, String> {
        Platter::of(&self.name, &self.locked.path, bytes)
    }
}

/// Says that a file cannot be read, since it is not there.
fn not_there(name: &Path) -> String {
    let error = fs::metadata(name).err();
    files::unread(name, error.unwrap_or(io::ErrorKind::NotFound.into()))
}

fn all_of(file: &mut File) -> io::Result<Vec<u8>> {
    let mut bytes = vec![];
    file.read_to_end(&mut bytes)?;
    Ok(bytes)
}

/// Says whether a file with these bytes is a platter: by its length, or by the list at its
/// end.
pub fn is_one(bytes: &[u8]) -> bool {
    let end = bytes.get(LENGTH..);
    end.is_some_and(|end| end.is_empty() || end.starts_with(LIST_AT_END.as_bytes()))
}

/// The file that lists a platter's unreadable sectors. It stands beside the platter itself,
/// and not beside a link to it.
pub fn unreadable_file(path: &Path) -> Result<PathBuf, String> {
    outputs::list_of(path).map_err(|error| files::unread(path, error))
}

/// Reads the list beside a platter.
fn list_beside(path: &Path) -> Result<Vec<Sector>, String> {
    let path = unreadable_file(path)?;
    let bytes = files::read_if_there(&path)?.unwrap_or_default();
    let listed = sectors(&String::from_utf8_lossy(&bytes));
    listed.map_err(|fault| format!("{}:{fault}", path.display()))
}

/// Reads the list at a platter's end, if it is one.
fn list_at_end(end: &[u8]) -> Option<Vec<Sector>> {
    let text = std::str::from_utf8(end).ok()?;
    let list = text.strip_prefix(LIST_AT_END)?.strip_suffix(BEHIND)?;
    sectors(list).ok()
}

/// Reads the lines of a list.
fn sectors(list: &str) -> Result<Vec<Sector>, String> {
    let sector = |line: &str| line.trim().parse().ok().and_then(Sector::new);
    let lines = (1..).zip(list.lines());
    lines
        .map(|(number, line)| sector(line).ok_or(format!("{number}: {line:?} is no sector")))
        .collect()
}

/// Holds the file of a platter that may change. No other workbench uses it meanwhile.
#[derive(Debug)]
pub struct PlatterFile {
    /// The file as messages call it.
    name: PathBuf,
    path: PathBuf,
    /// The file as it was opened or saved last; none if it is still to be made.
    held: Option<(Locked, Stamp)>,
}

/// Tells a file from others and from itself after a change.
#[derive(Debug, PartialEq, Eq)]
struct Stamp {
    identity: Identity,
    length: u64,
    changed: (i64, i64),
}

impl From<&Metadata> for Stamp {
    fn from(file: &Metadata) -> Stamp {
        Stamp {
            identity: file.into(),
            length: file.len(),
            changed: (file.mtime(), file.mtime_nsec()),
        }
    }
}

impl PlatterFile {
    /// Opens the file of a platter, and returns the platter too: a blank one if there is no
    /// such file.
    pub fn open(name: &Path) -> Result<(PlatterFile, Platter), String> {
        match PlatterFile::open_if_there(name)? {
            Some(opened) => Ok(opened),
            None => Ok((PlatterFile::new(name)?, Platter::blank())),
        }
    }

    /// Opens the file of a platter that must be there, and returns the platter too.
    pub fn open_old(name: &Path) -> Result<(PlatterFile, Platter), String> {
        PlatterFile::open_if_there(name)?.ok_or_else(|| not_there(name))
    }

    fn open_if_there(name: &Path) -> Result<Option<(PlatterFile, Platter)>, String> {
        let Some(mut locked) = Locked::open(name, Use::Alone)? else {
            return Ok(None);
        };
        let fault = |error| files::unread(name, error);
        let bytes = all_of(&mut locked.file).map_err(fault)?;
        let platter = Platter::of(name, &locked.path, &bytes)?;
        let path = locked.path.clone();
        if !locked.unlocked {
            files::tidy(&path);
            files::tidy(&unreadable_file(&path)?);
        }
        let mut file = PlatterFile::named(name, path);
        file.hold(locked).map_err(fault)?;
        Ok(Some((file, platter)))
    }

    /// Names the file of a new platter. There must be no such file when it is saved, and no
    /// list that would be taken for its own.
    pub fn new(name: &Path) -> Result<PlatterFile, String> {
        let path = followed(name).map_err(|error| files::unread(name, error))?;
        Output::to_new(&path, "the platter").check()?;
        let list = unreadable_file(&path)?;
        if fs::symlink_metadata(&list).is_ok() {
            return Err(format!(
                "{} lists the unreadable sectors of a platter that is not there: no platter {} is \
                 made; move or remove the list first",
                list.display(),
                name.display()
            ));
        }
        Ok(PlatterFile::named(name, path))
    }

    fn named(name: &Path, path: PathBuf) -> PlatterFile {
        PlatterFile {
            name: name.to_path_buf(),
            path,
            held: None,
        }
    }

    /// Keeps a file that is locked, as it is now.
    fn hold(&mut self, locked: Locked) -> io::Result<()> {
        let stamp = Stamp::from(&locked.file.metadata()?);
        self.held = Some((locked, stamp));
        Ok(())
    }

    /// Saves the platter with its list: a save that breaks off leaves the old ones or
    /// the new ones.
    pub fn save(&mut self, platter: &mut Platter) -> Result<(), String> {
        let mut save = Save::begin(platter, self)?;
        save.commit(self)?;
        platter.changed = false;
        let settled = save.settle();
        settled.and_then(|()| self.see_again()).map_err(|fault| {
            let name = self.name.display();
            format!("{name} is saved with the list of unreadable sectors at its end: {fault}")
        })
    }

    /// Keeps the file that a save made.
    fn hold_saved(&mut self, save: &Save) -> Result<(), String> {
        let file = save.platter.file().try_clone();
        let held = file.and_then(|file| {
            self.hold(Locked {
                path: self.path.clone(),
                file,
                unlocked: save.unlocked,
            })
        });
        held.map_err(|error| files::unread(&self.name, error))
    }

    /// Sees how the file is now that its save is over.
    fn see_again(&mut self) -> Result<(), String> {
        if let Some((locked, stamp)) = &mut self.held {
            let found = locked.file.metadata();
            let found = found.map_err(|error| files::unread(&self.name, error))?;
            *stamp = Stamp::from(&found);
        }
        Ok(())
    }

    /// Looks whether the file is still as it was opened or saved last.
    fn is_as_it_was(&self) -> Result<(), String> {
        let found = fs::metadata(&self.path);
        match (&self.held, found) {
            (None, _) => Ok(()),
            (Some((_, stamp)), Ok(found)) if *stamp == Stamp::from(&found) => Ok(()),
            _ => Err(format!(
                "{} was changed, moved or removed by another program: it is not saved",
                self.name.display()
            )),
        }
    }
}

/// Saves a platter, step by step.
struct Save {
    platter: Beside,
    list: NewList,
    /// The file system has no locks.
    unlocked: bool,
}

/// Says what a save does to the list beside the platter.
enum NewList {
    Same,
    Written(Beside),
    Removed(PathBuf),
}

impl Save {
    /// Writes all that is new beside the files, which stay as they are.
    fn begin(platter: &Platter, to: &PlatterFile) -> Result<Save, String> {
        to.is_as_it_was()?;
        let text = platter.list();
        let mut bytes = platter.all_bytes();
        let list = NewList::begin(&to.path, &text)?;
        if !matches!(list, NewList::Same) {
            bytes.extend_from_slice([LIST_AT_END, &text, BEHIND].concat().as_bytes());
        }
        let platter = Beside::write(&to.path, None, &bytes)?;
        // Whoever opens the platter once this has its name finds it locked.
        let locked = match &to.held {
            Some((held, _)) if held.unlocked => false,
            _ => lock::lock(&to.name, platter.file(), Use::Alone)?,
        };
        Ok(Save {
            platter,
            list,
            unlocked: !locked,
        })
    }

    /// Makes the new platter count, with its list.
    fn commit(&mut self, to: &mut PlatterFile) -> Result<(), String> {
        to.is_as_it_was()?;
        match to.held {
            Some(_) => self.platter.put()?,
            None => self.platter.put_new()?,
        }
        to.hold_saved(self)
    }

    /// Brings the list from the platter's end to its place beside the platter.
    fn settle(&mut self) -> Result<(), String> {
        self.list.put()?;
        self.cut_end()
    }

    fn cut_end(&mut self) -> Result<(), String> {
        match self.list {
            NewList::Same => Ok(()),
            _ => self.platter.cut(LENGTH as u64),
        }
    }
}

impl NewList {
    /// Writes the new list of a platter beside the old one, if it is another and not empty.
    fn begin(platter: &Path, text: &str) -> Result<NewList, String> {
        let path = unreadable_file(platter)?;
        let old = files::read_if_there(&path)?.unwrap_or_default();
        match text {
            text if old == text.as_bytes() => Ok(NewList::Same),
            "" => Ok(NewList::Removed(path)),
            text => {
                let list = Beside::write(&path, Some(platter), text.as_bytes())?;
                Ok(NewList::Written(list))
            }
        }
    }

    fn put(&mut self) -> Result<(), String> {
        match self {
            NewList::Same => Ok(()),
            NewList::Written(list) => list.put(),
            NewList::Removed(path) => files::remove(path),
        }
    }
}

#[cfg(test)]
mod tests {
    use super::*;
    use reference::surface::{Access, Left};
    use std::fs::Permissions;
    use std::mem;
    use std::os::unix::fs::{symlink, PermissionsExt};

    fn sector(number: u32) -> Sector {
        Sector::new(number).expect("a sector")
    }

    /// Makes a platter whose sectors 3 to 5 hold this byte, some of them unreadably.
    fn platter(byte: u8, unreadable: &[u32]) -> Platter {
        let mut platter = Platter::blank();
        for number in 3..=5 {
            let left = match unreadable.contains(&number) {
                true => Left::Spoiled,
                false => Left::Held(vec![byte; 532]),
            };
            platter.leave(Access::Write(sector(number)), &[byte; 532], &left);
        }
        platter
    }

    /// Checks that the file has this platter.
    fn holds(path: &Path, platter: &Platter, when: &str) {
        let loaded = Platter::load(path).expect("a platter");
        assert!(!loaded.changed(), "{when}");
        assert!(loaded.all_bytes() == platter.all_bytes(), "{when}");
        assert_eq!(loaded.unreadable(), platter.unreadable(), "{when}");
    }

    /// Checks that the file has this platter, with its list in its place and no more.
    fn at_rest(path: &Path, platter: &Platter, when: &str) {
        holds(path, platter, when);
        let length = fs::metadata(path).expect("a platter").len();
        assert_eq!(length, LENGTH as u64, "{when}");
        let folder = path.parent().expect("a folder");
        let files = fs::read_dir(folder).expect("a folder").count();
        assert_eq!(
            files,
            if platter.list().is_empty() { 1 } else { 2 },
            "{when}"
        );
    }

    #[test]
    fn saved_and_loaded() {
        let folder = files::test_folder("platter");
        let path = folder.join("a");
        let list = folder.join("a.unreadable");
        platter(7, &[5, 4]).save(&path).expect("saved");
        assert_eq!(fs::read_to_string(&list).expect("a list"), "4\n5\n");

        let mut again = Platter::load(&path).expect("the same");
        assert!(!again.changed());
        assert_eq!(again.unreadable(), [sector(4), sector(5)]);
        assert_eq!(again.held(sector(5)), None);
        assert_eq!(again.bytes(sector(5))[..], [7; 532]);
        for number in 4..=5 {
            let access = Access::Write(sector(number));
            again.leave(access, &[6; 532], &Left::Held(vec![6; 532]));
        }
        assert!(again.changed());
        again.save(&path).expect("saved");
        assert!(!again.changed());
        assert!(!list.exists());
        fs::remove_dir_all(folder).expect("removed");
    }

    /// Lists the steps of a save by their names.
    type Step = (
        &'static str,
        fn(&mut Save, &mut PlatterFile) -> Result<(), String>,
    );
    const STEPS: [Step; 4] = [
        ("begin", |_, _| Ok(())),
        ("commit", |save, to| save.commit(to)),
        ("put the list", |save, _| save.list.put()),
        ("cut the end", |save, _| save.cut_end()),
    ];

    /// Breaks a save off after one of its steps, and saves once more.
    fn break_off(path: &Path, old: &[u32], new: &[u32], last: usize) {
        let when = format!("{old:?} to {new:?}, {}", STEPS[last].0);
        let (mut old, new, mut next) = (platter(1, old), platter(2, new), platter(3, new));
        old.save(path).expect("saved");
        at_rest(path, &old, &when);
        let (mut to, _) = PlatterFile::open(path).expect("a platter");
        let mut save = Save::begin(&new, &to).expect("begun");
        for (_, step) in &STEPS[..=last] {
            step(&mut save, &mut to).expect("a step");
        }
        // A program that is killed holds nothing any more, and tidies nothing up.
        drop(to);
        mem::forget(save);
        holds(path, if last == 0 { &old } else { &new }, &when);
        next.save(path).expect("saved");
        at_rest(path, &next, &when);
    }

    #[test]
    fn a_save_that_breaks_off_leaves_the_old_pair_or_the_new_one() {
        let folder = files::test_folder("steps");
        let path = folder.join("a");
        let lists: [(&[u32], &[u32]); 5] = [
            (&[], &[]),
            (&[], &[4]),
            (&[4], &[4]),
            (&[4, 5], &[3, 5]),
            (&[4], &[]),
        ];
        for (old, new) in lists {
            for last in 0..STEPS.len() {
                break_off(&path, old, new, last);
            }
        }
        fs::remove_dir_all(folder).expect("removed");
    }

    #[test]
    fn a_list_that_cannot_be_put_stays_at_the_end() {
        let folder = files::test_folder("at-the-end");
        let path = folder.join("a");
        for (old, new) in [(&[][..], &[5][..]), (&[4], &[5]), (&[4], &[])] {
            platter(1, old).save(&path).expect("saved");
            let mut new = platter(2, new);
            let (mut to, _) = PlatterFile::open(&path).expect("a platter");
            let mut save = Save::begin(&new, &to).expect("begun");
            save.commit(&mut to).expect("committed");
            let list = unreadable_file(&path).expect("a name");
            files::remove(&list).expect("removed");
            fs::create_dir(&list).expect("a folder in the way");
            assert!(save.settle().is_err());
            drop((save, to));
            holds(&path, &new, "a folder in the way");

            let message = new.save(&path).expect_err("a folder in the way");
            assert!(message.contains("a.unreadable cannot be read"), "{message}");
            assert!(new.changed());
            holds(&path, &new, "a folder in the way");
            fs::remove_dir(&list).expect("removed");
            new.save(&path).expect("saved");
            at_rest(&path, &new, "saved again");
        }
        fs::remove_dir_all(folder).expect("removed");
    }

    #[test]
    fn a_save_that_fails_changes_nothing_and_can_be_made_again() {
        let folder = files::test_folder("fails");
        let path = folder.join("a");
        let mut old = platter(1, &[4]);
        old.save(&path).expect("saved");
        for name in ["a", "a.unreadable"] {
            let protected = folder.join(name);
            fs::set_permissions(&protected, Permissions::from_mode(0o444)).expect("a mode");
            let mut new = platter(2, &[5]);
            let message = new.save(&path).expect_err("protected");
            let words = format!("/{name} cannot be written: it is write-protected");
            assert!(message.ends_with(&words), "{message}");
            assert!(new.changed());
            at_rest(&path, &old, name);
            fs::set_permissions(&protected, Permissions::from_mode(0o644)).expect("a mode");
            new.save(&path).expect("saved");
            assert!(!new.changed());
            at_rest(&path, &new, name);
            old.save(&path).expect("saved");
        }
        fs::remove_dir_all(folder).expect("removed");
    }

    #[test]
    fn another_size_is_refused() {
        let folder = files::test_folder("sizes");
        let path = folder.join("a");
        for (length, words) in [
            (0, "has 0 bytes and is no platter, "),
            (532, "has 532 bytes and is no platter, "),
            (LENGTH - 1, "has 5209343 bytes and is no platter, "),
            (LENGTH + 1, "has 5209345 bytes and is no platter, "),
            (
                5_175_296,
                "is an image of 9728 blocks of 532 bytes and no platter; ",
            ),
        ] {
            fs::write(&path, vec![0; length]).expect("written");
            let message = PlatterFile::open(&path).expect_err("another size");
            assert!(message.contains(words), "{message}");
            assert_eq!(fs::read(&path).expect("as it was").len(), length);
        }
        fs::remove_dir_all(folder).expect("removed");
    }

    #[test]
    fn another_end_is_refused() {
        let folder = files::test_folder("ends");
        let path = folder.join("a");
        let bytes = Platter::blank().all_bytes();
        for end in [
            "unreadable sectors:\n17\n",
            "17\nend\n",
            "unreadable sectors:\nend\n ",
            "unreadable sectors:\n9792\nend\n",
        ] {
            let length = LENGTH + end.len();
            fs::write(&path, [&bytes, end.as_bytes()].concat()).expect("written");
            let message = Platter::load(&path).expect_err("another end");
            assert!(message.contains(&format!("has {length} bytes and is no platter")));
        }
        let end = b"unreadable sectors:\n17\nend\n";
        fs::write(&path, [&bytes, &end[..]].concat()).expect("written");
        fs::write(folder.join("a.unreadable"), "no list").expect("written");
        let loaded = Platter::load(&path).expect("a platter");
        assert_eq!(loaded.unreadable(), [sector(17)]);
        fs::remove_dir_all(folder).expect("removed");
    }

    #[test]
    fn a_list_of_no_sectors_is_refused() {
        let folder = files::test_folder("lists");
        let path = folder.join("a");
        Platter::blank().save(&path).expect("saved");
        for (text, line) in [("9792\n", 1), ("17\nx\n", 2), ("\n", 1)] {
            fs::write(folder.join("a.unreadable"), text).expect("written");
            let message = PlatterFile::open(&path).expect_err("no sector");
            assert!(
                message.contains(&format!("a.unreadable:{line}: ")),
                "{message}"
            );
        }
        fs::remove_dir_all(folder).expect("removed");
    }

    #[test]
    fn one_workbench_at_a_time_but_readers_share() {
        let folder = files::test_folder("locks");
        let (path, link) = (folder.join("a"), folder.join("link"));
        symlink("a", &link).expect("a link");
        platter(1, &[4]).save(&path).expect("saved");
        let in_use = |name: &Path| {
            let words = "is in use by another workbench: nothing is done";
            Some(format!("{} {words}", name.display()))
        };
        let (mut file, _) = PlatterFile::open(&path).expect("a platter");
        // The lock goes with the name from save to save.
        for byte in 2..5 {
            for name in [&path, &link] {
                assert_eq!(PlatterFile::open(name).err(), in_use(name));
                assert_eq!(Platter::load(name).err(), in_use(name));
            }
            file.save(&mut platter(byte, &[4, 5])).expect("saved");
        }
        drop(file);
        let readers = [&path, &link].map(|name| Source::open(name).expect("a platter"));
        assert_eq!(PlatterFile::open(&path).err(), in_use(&path));
        drop(readers);
        PlatterFile::open(&path).expect("a platter");
        holds(&path, &platter(4, &[4, 5]), "at the end");
        fs::remove_dir_all(folder).expect("removed");
    }

    #[test]
    fn what_another_program_did_to_the_file_stays() {
        let folder = files::test_folder("others");
        let (path, other) = (folder.join("a"), folder.join("b"));
        let changes: [fn(&Path, &Path); 3] = [
            |path, other| fs::rename(other, path).expect("replaced"),
            |path, other| assert!(fs::copy(other, path).is_ok_and(|count| count > 0)),
            |path, other| fs::rename(path, other).expect("moved"),
        ];
        for change in changes {
            platter(1, &[]).save(&path).expect("saved");
            platter(9, &[]).save(&other).expect("saved");
            let (mut file, _) = PlatterFile::open(&path).expect("a platter");
            let mut new = platter(2, &[]);
            file.save(&mut new).expect("saved");
            change(&path, &other);
            let before = fs::read(&path).ok();
            let message = file.save(&mut new).expect_err("another program's file");
            let words = "/a was changed, moved or removed by another program: it is not saved";
            assert!(message.ends_with(words), "{message}");
            assert!(fs::read(&path).ok() == before);
        }
        fs::remove_dir_all(folder).expect("removed");
    }

    #[test]
    fn a_link_that_leads_elsewhere_by_now_is_left() {
        let folder = files::test_folder("elsewhere");
        let [one, two, link] = ["one", "two", "link"].map(|name| folder.join(name));
        platter(1, &[]).save(&one).expect("saved");
        platter(2, &[]).save(&two).expect("saved");
        symlink("one", &link).expect("a link");
        let (mut file, _) = PlatterFile::open(&link).expect("a platter");
        fs::remove_file(&link).expect("removed");
        symlink("two", &link).expect("a link");
        file.save(&mut platter(3, &[])).expect("saved");
        drop(file);
        holds(&one, &platter(3, &[]), "the platter that was opened");
        holds(&two, &platter(2, &[]), "the other one");
        fs::remove_dir_all(folder).expect("removed");
    }

    #[test]
    fn a_new_platter_replaces_nothing_and_takes_no_list() {
        let folder = files::test_folder("made");
        let [path, list, of_list] = ["a", "a.unreadable", "a.unreadable.unreadable"];
        let [path, list, of_list] = [path, list, of_list].map(|name| folder.join(name));
        fs::write(&list, "17\n").expect("written");
        for made in [
            PlatterFile::open(&path).err(),
            PlatterFile::new(&path).err(),
        ] {
            let message = made.expect("a list without its platter");
            assert!(message.contains("/a.unreadable lists the unreadable sectors of a platter"));
            assert_eq!(fs::read(&list).expect("as it was"), b"17\n");
        }
        fs::remove_file(&list).expect("removed");

        let (mut file, mut blank) = PlatterFile::open(&path).expect("a new one");
        let (mut late, mut other) = PlatterFile::open(&path).expect("a new one");
        file.save(&mut blank).expect("saved");
        let message = late.save(&mut other).expect_err("it is there");
        assert!(message.contains("/a is there already: it was made meanwhile"));
        assert!(other.changed());
        drop(file);
        at_rest(&path, &blank, "the first one");
        let message = PlatterFile::open(&list).expect_err("a list");
        assert!(message.contains(" is the list of unreadable sectors of "));
        assert!(!of_list.exists());
        fs::remove_dir_all(folder).expect("removed");
    }

    #[test]
    fn the_list_of_a_linked_platter_stands_beside_the_platter() {
        let folder = files::test_folder("linked");
        fs::create_dir(folder.join("far")).expect("a folder");
        let (link, far) = (folder.join("a"), folder.join("far/b"));
        symlink("far/b", &link).expect("a link");
        for unreadable in [&[4][..], &[4, 5], &[]] {
            let mut new = platter(3, unreadable);
            new.save(&link).expect("saved");
            assert!(link.is_symlink());
            at_rest(&far, &new, "far");
            holds(&link, &new, "by the link");
            assert_eq!(fs::read_dir(&folder).expect("a folder").count(), 2);
        }
        fs::remove_dir_all(folder).expect("removed");
    }

    #[test]
    fn modes_stay_and_a_new_list_has_the_platters() {
        let folder = files::test_folder("rights");
        let [path, list] = ["a", "a.unreadable"].map(|name| folder.join(name));
        let mode = |path: &Path| fs::metadata(path).expect("a file").mode() & 0o7777;
        platter(1, &[]).save(&path).expect("saved");
        fs::set_permissions(&path, Permissions::from_mode(0o640)).expect("a mode");
        platter(2, &[4]).save(&path).expect("saved");
        assert_eq!((mode(&path), mode(&list)), (0o640, 0o640));
        fs::set_permissions(&list, Permissions::from_mode(0o600)).expect("a mode");
        platter(2, &[5]).save(&path).expect("saved");
        assert_eq!((mode(&path), mode(&list)), (0o640, 0o600));
        fs::remove_dir_all(folder).expect("removed");
    }

    #[test]
    fn the_command_line_knows_the_same_lengths() {
        assert_eq!(outputs::PLATTER_LENGTH, LENGTH as u64);
        assert_eq!(outputs::IMAGE_LENGTH, crate::image_files::LENGTH as u64);
    }
}
