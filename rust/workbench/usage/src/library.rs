//! The library that the workbench is linked with, as its file stands now.

use std::fs;
use std::io::ErrorKind::NotFound;
use std::path::Path;

/// Tells of the library of a folder, with the two numbers of the command cksum.
pub fn name(folder: &Path) -> String {
    let path = folder.join("libbumivondra.a");
    let state = match fs::read(&path) {
        Ok(bytes) => format!("cksum {} {}", cksum(&bytes), bytes.len()),
        Err(error) if error.kind() == NotFound => String::from("not built yet"),
        Err(error) => format!("cannot be read: {error}"),
    };
    format!("library {}: {state}", path.display())
}

/// Computes the checksum of POSIX's cksum.
fn cksum(bytes: &[u8]) -> u32 {
    let length = bytes.len().to_le_bytes();
    let significant = length.iter().rposition(|&byte| byte != 0);
    let length = &length[..significant.map_or(0, |place| place + 1)];
    !bytes.iter().chain(length).fold(0, |sum, byte| {
        let sum = sum ^ u32::from(*byte) << 24;
        (0..8).fold(sum, |sum, _| match sum >> 31 {
            0 => sum << 1,
            _ => sum << 1 ^ 0x04C1_1DB7,
        })
    })
}

#[cfg(test)]
mod tests {
    use super::*;
    use std::env;

    #[test]
    fn the_library_is_told_by_its_cksum() {
        let folder = env::temp_dir().join(format!("workbench-{}-library", std::process::id()));
        let _ = fs::remove_dir_all(&folder);
        fs::create_dir(&folder).expect("a folder");
        let path = folder.join("libbumivondra.a");
        let named = |state: &str| format!("library {}: {state}", path.display());
        assert_eq!(name(&folder), named("not built yet"));
        // What the command says of these bytes.
        fs::write(&path, "123456789").expect("written");
        assert_eq!(name(&folder), named("cksum 930766865 9"));
        fs::write(&path, [0; 300]).expect("written");
        assert_eq!(name(&folder), named("cksum 351385237 300"));
        fs::write(&path, "").expect("written");
        assert_eq!(name(&folder), named("cksum 4294967295 0"));
        fs::remove_dir_all(folder).expect("removed");
    }
}
