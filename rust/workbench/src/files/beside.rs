//! New content beside a file, which takes the file's place at once.

use std::ffi::OsString;
use std::fs::{self, File, Metadata, Permissions};
use std::io::{self, Write};
use std::os::unix::fs::{fchown, MetadataExt, OpenOptionsExt, PermissionsExt};
use std::path::{Path, PathBuf};
use std::process;
use std::sync::atomic::{AtomicU32, Ordering};

use usage::outputs::followed;

use super::{folder, open_folder, unwritten};

/// Stands in the names of files beside others, before the numbers of process and file.
const MARK: &str = ".workbench-";

/// Holds the new content of a file, on the disk in another file beside it, which is
/// removed unless it gets the file's name. It has a name that no file had,
/// `NAME.workbench-PROCESS-COUNT`. Links are followed: the file that they name gets the
/// content.
pub struct Beside {
    /// The file as messages call it.
    name: PathBuf,
    path: PathBuf,
    beside: PathBuf,
    file: File,
    folder: File,
    put: bool,
}

impl Beside {
    /// Writes the content beside the file, through to the disk. It has the mode and the
    /// owner of the old file or, if there is none, those of the file that it belongs to.
    pub fn write(name: &Path, belongs: Option<&Path>, bytes: &[u8]) -> Result<Beside, String> {
        let fault = |error| unwritten(name, error);
        let mut new = Beside::begin(name, belongs).map_err(fault)?;
        let written = new.file.write_all(bytes);
        let written = written.and_then(|()| new.file.sync_all());
        written.map_err(fault)?;
        Ok(new)
    }

    /// Makes the file beside the other one, empty.
    fn begin(name: &Path, belongs: Option<&Path>) -> io::Result<Beside> {
        let path = followed(name)?;
        let old = fs::metadata(&path).ok();
        if let Some(old) = &old {
            may_be_written(&path, old)?;
        }
        let like = old.or_else(|| fs::metadata(belongs?).ok());
        let folder = open_folder(&path)?;
        let (beside, file) = make_beside(&path, like.as_ref())?;
        let new = Beside {
            name: name.to_path_buf(),
            path,
            beside,
            file,
            folder,
            put: false,
        };
        if let Some(like) = &like {
            make_like(&new.file, like)?;
        }
        Ok(new)
    }

    /// Returns the file with the new content.
    pub fn file(&self) -> &File {
        &self.file
    }

    /// Gives the content the file's name: from here on the file is the new one.
    pub fn put(&mut self) -> Result<(), String> {
        let renamed = fs::rename(&self.beside, &self.path);
        renamed.map_err(|error| unwritten(&self.name, error))?;
        self.put = true;
        self.sync_folder()
    }

    /// Gives the content the file's name, which no file must have.
    pub fn put_new(&mut self) -> Result<(), String> {
        match self.put_if_free()? {
            true => Ok(()),
            false => Err(format!(
                "{} is there already: it was made meanwhile, and is not replaced",
                self.name.display()
            )),
        }
    }

    /// Gives the content the file's name, if no file has it. Says whether it got the name.
    pub fn put_if_free(&mut self) -> Result<bool, String> {
        let placed = match fs::hard_link(&self.beside, &self.path) {
            Ok(()) => fs::remove_file(&self.beside),
            Err(error) if error.kind() == io::ErrorKind::AlreadyExists => Err(error),
            // Where files have one name only, an empty file keeps the name for this one.
            Err(_) => {
                File::create_new(&self.path).and_then(|_| fs::rename(&self.beside, &self.path))
            }
        };
        match placed {
            Ok(()) => {
                self.put = true;
                self.sync_folder().map(|()| true)
            }
            Err(error) if error.kind() == io::ErrorKind::AlreadyExists => Ok(false),
            Err(error) => Err(unwritten(&self.name, error)),
        }
    }

    fn sync_folder(&self) -> Result<(), String> {
        let synced = self.folder.sync_all();
        synced.map_err(|error| unwritten(&self.name, error))
    }

    /// Cuts the file off at this length.
    pub fn cut(&mut self, length: u64) -> Result<(), String> {
        let cut = self.file.set_len(length);
        let cut = cut.and_then(|()| self.file.sync_all());
        cut.map_err(|error| unwritten(&self.name, error))
    }
}

impl Drop for Beside {
    fn drop(&mut self) {
        if !self.put {
            // Nothing is lost with a file that did not get the name.
            let _ = fs::remove_file(&self.beside);
        }
    }
}

/// Looks whether a file that is there may be written. A new file could take its name in any
/// case, but a file that is protected is not to be replaced.
fn may_be_written(path: &Path, old: &Metadata) -> io::Result<()> {
    if old.is_file() && old.mode() & 0o222 == 0 {
        return Err(io::Error::other("it is write-protected"));
    }
    File::options().write(true).open(path).map(drop)
}

/// Makes a file beside another one, with a name that no file has.
fn make_beside(path: &Path, like: Option<&Metadata>) -> io::Result<(PathBuf, File)> {
    static COUNT: AtomicU32 = AtomicU32::new(0);
    let mode = like.map_or(0o666, |like| like.mode() & 0o777);
    loop {
        let count = COUNT.fetch_add(1, Ordering::Relaxed);
        let mut name = mark(path);
        name.push(format!("{}-{count}", process::id()));
        let beside = path.with_file_name(name);
        let mut options = File::options();
        match options
            .write(true)
            .create_new(true)
            .mode(mode)
            .open(&beside)
        {
            Ok(file) => return Ok((beside, file)),
            Err(error) if error.kind() == io::ErrorKind::AlreadyExists => {}
            Err(error) => {
                let message = format!("{}: {error}", beside.display());
                return Err(io::Error::new(error.kind(), message));
            }
        }
    }
}

/// Begins the name of a file beside another one.
fn mark(path: &Path) -> OsString {
    let mut name = path.file_name().unwrap_or_default().to_os_string();
    name.push(MARK);
    name
}

/// Gives a new file the owner and the mode of another one. If it may not have the owner, it
/// has none of the rights that go with it.
fn make_like(file: &File, like: &Metadata) -> io::Result<()> {
    let made = file.metadata()?;
    let (user, group) = (like.uid(), like.gid());
    let kept =
        (made.uid(), made.gid()) == (user, group) || fchown(file, Some(user), Some(group)).is_ok();
    if !kept {
        // The group alone may be given without the rights of root.
        let _ = fchown(file, None, Some(group));
    }
    let mode = like.mode() & if kept { 0o7777 } else { 0o777 };
    match file.metadata()?.mode() & 0o7777 == mode {
        true => Ok(()),
        false => file.set_permissions(Permissions::from_mode(mode)),
    }
}

/// Removes what killed programs left beside a file. Nobody else may be writing it.
pub fn tidy(path: &Path) {
    let mark = mark(path);
    let Ok(entries) = fs::read_dir(folder(path)) else {
        return;
    };
    for entry in entries.flatten() {
        let name = entry.file_name();
        let rest = name.as_encoded_bytes();
        let rest = rest.strip_prefix(mark.as_encoded_bytes());
        if rest.is_some_and(is_numbers) {
            // A file that stays counts for nothing.
            let _ = fs::remove_file(entry.path());
        }
    }
}

/// Says whether these are the two numbers of a file beside another one.
fn is_numbers(text: &[u8]) -> bool {
    let is_number = |part: &[u8]| !part.is_empty() && part.iter().all(u8::is_ascii_digit);
    let mut parts = text.split(|byte| *byte == b'-');
    let two = [parts.next(), parts.next()];
    two.iter().all(|part| part.is_some_and(is_number)) && parts.next().is_none()
}

#[cfg(test)]
mod tests {
    use super::*;
    use crate::files::{read, test_folder};

    /// Names the files of a folder in their order.
    fn names(folder: &Path) -> Vec<String> {
        let entries = fs::read_dir(folder).expect("a folder");
        let name = |entry: io::Result<fs::DirEntry>| entry.expect("an entry").file_name();
        let mut names: Vec<String> = entries
            .map(|entry| name(entry).into_string().expect("text"))
            .collect();
        names.sort();
        names
    }

    #[test]
    fn what_is_beside_a_file_is_not_the_file() {
        let folder = test_folder("beside");
        let path = folder.join("a");
        fs::write(&path, "one").expect("written");
        let new = Beside::write(&path, None, b"two").expect("written beside it");
        assert_eq!(read(&path), Ok(b"one".to_vec()));
        assert_eq!(read(&new.beside), Ok(b"two".to_vec()));
        let numbers = format!("a.workbench-{}-", process::id());
        assert!(names(&folder)[1].starts_with(&numbers));
        drop(new);
        assert_eq!(names(&folder), ["a"]);

        let mut new = Beside::write(&path, None, b"three").expect("written beside it");
        new.put().expect("put");
        new.cut(2).expect("cut off");
        drop(new);
        assert_eq!(read(&path), Ok(b"th".to_vec()));
        assert_eq!(names(&folder), ["a"]);
        fs::remove_dir_all(folder).expect("removed");
    }

    #[test]
    fn names_that_are_taken_are_left_alone() {
        let folder = test_folder("taken");
        let path = folder.join("a");
        let mut first = Beside::write(&path, None, b"").expect("written");
        let name = first.beside.to_string_lossy().into_owned();
        let (start, number) = name.rsplit_once('-').expect("a number");
        let number: u32 = number.parse().expect("a number");
        first.put().expect("put");
        // Other tests of this program count too.
        let taken: Vec<String> = (number..number + 50)
            .map(|n| format!("{start}-{n}"))
            .collect();
        for name in &taken {
            fs::write(name, "mine").expect("written");
        }
        fs::write(folder.join("a.new"), "mine").expect("written");
        let mut new = Beside::write(&path, None, b"two").expect("written");
        new.put().expect("put");
        assert!(taken
            .iter()
            .all(|name| fs::read(name).is_ok_and(|bytes| bytes == b"mine")));
        assert_eq!(read(&folder.join("a.new")), Ok(b"mine".to_vec()));
        assert_eq!(names(&folder).len(), 52);
        fs::remove_dir_all(folder).expect("removed");
    }

    #[test]
    fn the_mode_stays() {
        let folder = test_folder("modes");
        let (path, list) = (folder.join("a"), folder.join("list"));
        fs::write(&path, "one").expect("written");
        let mode = |path: &Path| fs::metadata(path).expect("a file").mode() & 0o7777;
        for kept in [0o600, 0o664, 0o640, 0o606, 0o2660] {
            fs::set_permissions(&path, Permissions::from_mode(kept)).expect("a mode");
            let mut new = Beside::write(&path, None, b"two").expect("written");
            assert_eq!(mode(&new.beside), kept);
            new.put().expect("put");
            assert_eq!(mode(&path), kept);
            let mut new = Beside::write(&list, Some(&path), b"two").expect("written");
            new.put_new().expect("put");
            assert_eq!(mode(&list), kept);
            fs::remove_file(&list).expect("removed");
        }
        fs::remove_dir_all(folder).expect("removed");
    }

    #[test]
    fn the_owner_stays_if_he_may() {
        let folder = test_folder("owners");
        let path = folder.join("a");
        fs::write(&path, "one").expect("written");
        let own = fs::metadata(&path).expect("a file").uid();
        // Only root may give a file away.
        let given = std::os::unix::fs::chown(&path, Some(65534), Some(65534)).is_ok();
        Beside::write(&path, None, b"two")
            .and_then(|mut new| new.put())
            .expect("put");
        let owner = fs::metadata(&path).expect("a file").uid();
        assert_eq!(owner, if given { 65534 } else { own });
        fs::remove_dir_all(folder).expect("removed");
    }

    #[test]
    fn a_protected_file_is_not_replaced() {
        let folder = test_folder("protected");
        let path = folder.join("a");
        fs::write(&path, "one").expect("written");
        fs::set_permissions(&path, Permissions::from_mode(0o444)).expect("a mode");
        let refused = Beside::write(&path, None, b"two").err().expect("a refusal");
        assert!(refused.ends_with("/a cannot be written: it is write-protected"));
        assert_eq!(names(&folder), ["a"]);
        fs::remove_dir_all(folder).expect("removed");
    }

    #[test]
    fn a_file_that_was_made_meanwhile_stays() {
        let folder = test_folder("meanwhile");
        let path = folder.join("a");
        let mut new = Beside::write(&path, None, b"two").expect("written");
        fs::write(&path, "one").expect("written");
        let message = new.put_new().expect_err("it is there");
        assert!(
            message.ends_with("/a is there already: it was made meanwhile, and is not replaced")
        );
        drop(new);
        assert_eq!(read(&path), Ok(b"one".to_vec()));
        assert_eq!(names(&folder), ["a"]);
        fs::remove_dir_all(folder).expect("removed");
    }

    #[test]
    fn only_what_killed_programs_left_is_tidied() {
        let folder = test_folder("tidied");
        let (stay, go) = (
            [
                "a",
                "a.new",
                "a.workbench-1",
                "a.workbench-1-2-3",
                "a.workbench-1-",
                "aa.workbench-1-2",
            ],
            ["a.workbench-1-2", "a.workbench-77-0"],
        );
        for name in stay.iter().chain(&go) {
            fs::write(folder.join(name), "").expect("written");
        }
        tidy(&folder.join("a"));
        let mut stay = stay.map(String::from);
        stay.sort();
        assert_eq!(names(&folder), stay);
        fs::remove_dir_all(folder).expect("removed");
    }
}
