//! Keeps what a run would have written that writes no files, so that its later lines read
//! what those of a run that writes them would read.

use std::collections::BTreeMap;
use std::path::{Path, PathBuf};
use std::rc::Rc;
use std::{fs, io};

use usage::outputs::followed;

use crate::{files, image_files};

/// Bounds what a run keeps, by the blocks of six drives.
const ROOM: usize = 6 * image_files::LENGTH;

/// Holds files in memory, by where they would be.
#[derive(Clone, Debug, Default)]
pub struct Unwritten {
    /// Has no bytes for a file that there was no room for.
    files: BTreeMap<PathBuf, Option<Rc<[u8]>>>,
    /// Counts the bytes of all.
    used: usize,
}

impl Unwritten {
    /// Keeps the bytes of a file, if there is room.
    pub fn keep(&mut self, path: &Path, bytes: &[u8]) -> Result<(), String> {
        let place = place(path).map_err(|error| files::unwritten(path, error))?;
        // A pipe or a terminal keeps nothing.
        if fs::metadata(&place).is_ok_and(|found| !found.is_file()) {
            return Ok(());
        }
        let old = self.files.remove(&place).flatten();
        self.used -= old.map_or(0, |old| old.len());
        let kept = (self.used + bytes.len() <= ROOM).then(|| Rc::from(bytes));
        self.used += kept.as_ref().map_or(0, |kept: &Rc<[u8]>| kept.len());
        self.files.insert(place, kept);
        Ok(())
    }

    /// Returns the bytes of a file: those that are kept, or else those on the disk.
    pub fn read(&self, path: &Path) -> Result<Vec<u8>, String> {
        match self.kept(path) {
            Some(Some(bytes)) => Ok(bytes.to_vec()),
            Some(None) => Err(format!(
                "{} cannot be read: a run that writes no files keeps {ROOM} bytes of them at most",
                path.display()
            )),
            None => files::read(path),
        }
    }

    /// Finds a file that would have been written.
    fn kept(&self, path: &Path) -> Option<&Option<Rc<[u8]>>> {
        match self.files.is_empty() {
            true => None,
            false => self.files.get(&place(path).ok()?),
        }
    }
}

/// Finds where a file is, through links to it and to its folder, be it there or not.
fn place(path: &Path) -> io::Result<PathBuf> {
    let path = followed(path)?;
    let folder = files::folder(&path).canonicalize()?;
    Ok(folder.join(path.file_name().unwrap_or_default()))
}

#[cfg(test)]
mod tests {
    use super::*;
    use crate::files::test_folder;
    use std::os::unix::fs::symlink;

    #[test]
    fn a_file_is_kept_under_all_its_names() {
        let here = test_folder("unwritten");
        let [old, new, link, far] = ["old", "new", "link", "far"].map(|name| here.join(name));
        fs::write(&old, "on the disk").expect("written");
        symlink("new", &link).expect("a link");
        symlink(".", &far).expect("a link");
        let mut files = Unwritten::default();
        assert_eq!(files.read(&old), Ok(b"on the disk".to_vec()));
        assert_eq!(files.read(&new), files::read(&new));
        files.keep(&link, b"one").expect("kept");
        files.keep(&far.join("old"), b"two").expect("kept");
        for path in [&new, &link, &far.join("new"), &here.join("./far/link")] {
            assert_eq!(files.read(path), Ok(b"one".to_vec()), "{path:?}");
        }
        assert_eq!(files.read(&old), Ok(b"two".to_vec()));
        assert_eq!(files::read(&old), Ok(b"on the disk".to_vec()));
        assert!(!new.exists() && link.is_symlink());
        fs::remove_dir_all(here).expect("removed");
    }

    #[test]
    fn a_second_name_keeps_the_old_file_and_a_device_keeps_nothing() {
        let here = test_folder("unwritten-names");
        let [first, second] = ["first", "second"].map(|name| here.join(name));
        fs::write(&first, "on the disk").expect("written");
        fs::hard_link(&first, &second).expect("a second name");
        let mut files = Unwritten::default();
        files.keep(&first, b"new").expect("kept");
        assert_eq!(files.read(&second), Ok(b"on the disk".to_vec()));
        let null = Path::new("/dev/null");
        files.keep(null, b"new").expect("taken");
        assert_eq!(files.read(null), Ok(vec![]));
        let nowhere = here.join("none/a");
        let message = files.keep(&nowhere, b"new").expect_err("no folder");
        let words = "cannot be written: No such file or directory (os error 2)";
        assert_eq!(message, format!("{} {words}", nowhere.display()));
        fs::remove_dir_all(here).expect("removed");
    }

    #[test]
    fn what_is_kept_is_bounded() {
        let here = test_folder("unwritten-room");
        let drive = vec![7; image_files::LENGTH];
        let mut files = Unwritten::default();
        let path = |number: usize| here.join(number.to_string());
        for number in 0..7 {
            files.keep(&path(number), &drive).expect("taken");
        }
        assert_eq!(files.used, ROOM);
        assert!(files.read(&path(5)) == Ok(drive.clone()));
        let message = files.read(&path(6)).expect_err("no room");
        let words = "cannot be read: a run that writes no files keeps 31051776 bytes of them at \
                     most";
        assert_eq!(message, format!("{} {words}", path(6).display()));
        // What is replaced makes room.
        files.keep(&path(0), b"less").expect("kept");
        files.keep(&path(6), b"little").expect("kept");
        assert_eq!(files.read(&path(6)), Ok(b"little".to_vec()));
        assert_eq!(files.used, ROOM - image_files::LENGTH + 10);
        fs::remove_dir_all(here).expect("removed");
    }
}
