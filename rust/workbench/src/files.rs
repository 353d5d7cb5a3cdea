//! Files read and written whole, with messages that name them.

mod beside;

use std::fs::{self, File};
use std::io::{self, Write};
use std::path::Path;

use usage::outputs::{followed, Output, Over};

pub use beside::{tidy, Beside};

/// The bytes of a file.
pub fn read(path: &Path) -> Result<Vec<u8>, String> {
    fs::read(path).map_err(|error| unread(path, error))
}

/// Reads a file, if it is there.
pub fn read_if_there(path: &Path) -> Result<Option<Vec<u8>>, String> {
    match fs::read(path) {
        Ok(bytes) => Ok(Some(bytes)),
        Err(error) if error.kind() == io::ErrorKind::NotFound => Ok(None),
        Err(error) => Err(unread(path, error)),
    }
}

/// Says that a file cannot be read.
pub fn unread(path: &Path, error: io::Error) -> String {
    format!("{} cannot be read: {error}", path.display())
}

/// Writes an output whole, if it may go where it is to go. Whatever breaks it off leaves the
/// old file or the new one.
pub fn write(output: &Output, bytes: &[u8]) -> Result<(), String> {
    output.check()?;
    let to = &output.to;
    match fs::metadata(to) {
        Ok(found) if !found.is_file() => send(to, bytes),
        _ if output.over == Over::Nothing => Beside::write(to, None, bytes)?.put_new(),
        _ => Beside::write(to, None, bytes)?.put(),
    }
}

/// Writes bytes into a pipe, a terminal or the like, of which nothing can be replaced.
fn send(to: &Path, bytes: &[u8]) -> Result<(), String> {
    let opened = File::options().write(true).open(to);
    let sent = opened.and_then(|mut file| file.write_all(bytes));
    sent.map_err(|error| unwritten(to, error))
}

/// Says that a file cannot be written.
pub fn unwritten(path: &Path, error: io::Error) -> String {
    format!("{} cannot be written: {error}", path.display())
}

/// Removes a file, if it is there. A link to it stays.
pub fn remove(path: &Path) -> Result<(), String> {
    let removed = followed(path).and_then(|path| {
        fs::remove_file(&path)?;
        open_folder(&path)?.sync_all()
    });
    match removed {
        Err(error) if error.kind() != io::ErrorKind::NotFound => {
            Err(format!("{} cannot be removed: {error}", path.display()))
        }
        _ => Ok(()),
    }
}

/// Says whether a name is a file's, a folder's or a link's.
pub fn is_taken(path: &Path) -> bool {
    fs::symlink_metadata(path).is_ok()
}

/// Opens the folder of a file. To sync it brings its names to the disk.
fn open_folder(path: &Path) -> io::Result<File> {
    File::open(folder(path))
}

/// Finds the folder of a file.
pub fn folder(path: &Path) -> &Path {
    match path.parent() {
        Some(folder) if folder.as_os_str().is_empty() => Path::new("."),
        Some(folder) => folder,
        None => path,
    }
}

/// A folder for one test, empty.
#[cfg(test)]
pub fn test_folder(name: &str) -> std::path::PathBuf {
    let folder = std::env::temp_dir().join(format!("workbench-{}-{name}", std::process::id()));
    let _ = fs::remove_dir_all(&folder);
    fs::create_dir_all(&folder).expect("a folder");
    folder
}

#[cfg(test)]
mod tests {
    use super::*;
    use std::io::Read;
    use std::os::unix::fs::{symlink, FileTypeExt};
    use std::process::Command;
    use std::thread;

    /// Writes bytes to a file, over whatever bytes there are.
    fn put(path: &Path, bytes: &[u8]) -> Result<(), String> {
        let over = Over::Bytes(bytes.len());
        write(&Output::new(path, over, "all", vec![]), bytes)
    }

    #[test]
    fn written_whole_or_not_at_all() {
        let folder = test_folder("files");
        let path = folder.join("a.dat");
        put(&path, b"one").expect("written");
        let mut old = fs::File::open(&path).expect("the first file");
        put(&path, b"two").expect("written");
        assert_eq!(read(&path), Ok(b"two".to_vec()));
        // The first file was not touched: another one took its name.
        let mut bytes = vec![];
        old.read_to_end(&mut bytes).expect("its bytes");
        assert_eq!(bytes, b"one");
        assert_eq!(fs::read_dir(&folder).expect("a folder").count(), 1);
        assert!(put(&folder.join("none/a"), b"").is_err());
        remove(&path).expect("removed");
        remove(&path).expect("nothing to remove");
        assert!(read(&path).is_err());
        assert_eq!(read_if_there(&path), Ok(None));
        fs::remove_dir_all(folder).expect("removed");
    }

    #[test]
    fn a_link_stays_and_its_file_is_written_and_removed() {
        let folder = test_folder("links");
        fs::create_dir(folder.join("far")).expect("a folder");
        let (link, file) = (folder.join("a"), folder.join("far/b"));
        symlink("far/b", &link).expect("a link");
        for bytes in [b"one", b"two"] {
            put(&link, bytes).expect("written");
            assert_eq!(read(&file), Ok(bytes.to_vec()));
            assert!(link.is_symlink() && !file.is_symlink());
        }
        remove(&link).expect("removed");
        assert!(link.is_symlink() && !file.exists());
        assert_eq!(read_if_there(&link), Ok(None));
        fs::remove_dir_all(folder).expect("removed");
    }

    #[test]
    fn what_must_be_new_replaces_nothing() {
        let folder = test_folder("new");
        let path = folder.join("a");
        let output = Output::to_new(&path, "the image");
        write(&output, b"one").expect("written");
        let message = write(&output, b"two").expect_err("it is there");
        assert!(message.contains("/a is there already"), "{message}");
        assert_eq!(read(&path), Ok(b"one".to_vec()));
        assert_eq!(fs::read_dir(&folder).expect("a folder").count(), 1);
        fs::remove_dir_all(folder).expect("removed");
    }

    #[test]
    fn a_pipe_gets_the_bytes_and_stays() {
        let folder = test_folder("pipe");
        let [pipe, link] = ["pipe", "link"].map(|name| folder.join(name));
        let made = Command::new("mkfifo").arg(&pipe).status();
        assert!(made.expect("a command").success());
        symlink("pipe", &link).expect("a link");
        for to in [&pipe, &link] {
            let reader = thread::spawn({
                let pipe = pipe.clone();
                move || fs::read(pipe)
            });
            put(to, b"one").expect("written");
            assert!(fs::metadata(&pipe).expect("a pipe").file_type().is_fifo());
            let read = reader.join().expect("a reader");
            assert_eq!(read.expect("its bytes"), b"one");
        }
        assert!(link.is_symlink());
        assert_eq!(fs::read_dir(&folder).expect("a folder").count(), 2);
        fs::remove_dir_all(folder).expect("removed");
    }
}
