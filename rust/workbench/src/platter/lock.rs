//! The lock of a platter's file, so that two workbenches do not work on one platter.
//!
//! The file itself is locked, and no other is made for it. A save gives the platter's name
//! to another file, which is locked before that. So whoever gets the lock of a file looks
//! whether the name is still that file's.

use std::fs::{self, File, TryLockError};
use std::io::{self, ErrorKind};
use std::path::{Path, PathBuf};

use usage::outputs::{followed, Identity};

use crate::files;

/// Says how a platter's file is used.
#[derive(Clone, Copy, Debug, PartialEq, Eq)]
pub enum Use {
    /// By one workbench, which may change it.
    Alone,
    /// By workbenches that only read it.
    Shared,
}

/// Holds a platter's file that is locked.
#[derive(Debug)]
pub struct Locked {
    /// The name of the file itself, where a link was named.
    pub path: PathBuf,
    pub file: File,
    /// The file system has no locks.
    pub unlocked: bool,
}

impl Locked {
    /// Opens a file and locks it, if it is there. What is no plain file, as a pipe, can be
    /// read, and has no lock.
    pub fn open(name: &Path, used: Use) -> Result<Option<Locked>, String> {
        let fault = |error| files::unread(name, error);
        let path = itself(name).map_err(fault)?;
        loop {
            let plain = match fs::metadata(&path) {
                Ok(found) => found.is_file(),
                Err(error) if error.kind() == ErrorKind::NotFound => return Ok(None),
                Err(error) => return Err(fault(error)),
            };
            if !plain && used == Use::Alone {
                let name = name.display();
                return Err(format!("{name} is no plain file: nothing is done"));
            }
            let file = open(&path, used).map_err(fault)?;
            let unlocked = !plain || !lock(name, &file, used)?;
            let found = file.metadata().map_err(fault)?;
            if !plain || Identity::of(&path) == Some(Identity::from(&found)) {
                return Ok(Some(Locked {
                    path,
                    file,
                    unlocked,
                }));
            }
        }
    }
}

impl Drop for Locked {
    fn drop(&mut self) {
        // The lock would stay while a process that was just begun has the file too.
        let _ = self.file.unlock();
    }
}

/// Names the file itself where a link is named. A pipe may have links to it and no name.
fn itself(name: &Path) -> io::Result<PathBuf> {
    match fs::metadata(name) {
        Ok(found) if !found.is_file() => Ok(name.to_path_buf()),
        _ => followed(name),
    }
}

/// Opens a file. One that may not be changed can still be read alone.
fn open(path: &Path, used: Use) -> io::Result<File> {
    if used == Use::Shared {
        return File::open(path);
    }
    match File::options().read(true).write(true).open(path) {
        Err(error) if is_protection(error.kind()) => File::open(path),
        opened => opened,
    }
}

fn is_protection(kind: ErrorKind) -> bool {
    matches!(
        kind,
        ErrorKind::PermissionDenied | ErrorKind::ReadOnlyFilesystem
    )
}

/// Locks a file. Says whether it could: where files have no locks there is a warning.
pub fn lock(name: &Path, file: &File, used: Use) -> Result<bool, String> {
    let locked = match used {
        Use::Alone => file.try_lock(),
        Use::Shared => file.try_lock_shared(),
    };
    let name = name.display();
    match locked {
        Ok(()) => Ok(true),
        Err(TryLockError::WouldBlock) => Err(format!(
            "{name} is in use by another workbench: nothing is done"
        )),
        Err(TryLockError::Error(error)) => {
            usage::tell(&format!(
                "{name} cannot be locked, so use it once at a time: {error}"
            ));
            Ok(false)
        }
    }
}
