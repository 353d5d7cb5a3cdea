//! What the script that starts the workbench says at each start: where the repository is,
//! since a path kept from the build would lead a copied checkout back to the first one, and
//! the name that the script was called by.

use std::env;
use std::path::PathBuf;

/// The variable that names the repository's folder.
pub const ROOT: &str = "WORKBENCH_ROOT";

/// The variable that has the name which the workbench was called by.
const NAME: &str = "WORKBENCH_NAME";

/// Returns the name that the workbench was called by, for a command that can be typed.
pub fn called() -> String {
    let name = env::var(NAME).ok().filter(|name| !name.is_empty());
    name.unwrap_or_else(|| String::from("workbench"))
}

/// Finds the folder of the repository's plans.
pub fn plans() -> Option<PathBuf> {
    root().map(|root| root.join("plans"))
}

/// Finds the folder that the library is linked from: the one that BUMIVONDRA_LIB names,
/// or else target/staticlib of the repository.
pub fn library() -> Option<PathBuf> {
    match env::var_os("BUMIVONDRA_LIB") {
        Some(folder) => Some(PathBuf::from(folder)),
        None => root().map(|root| root.join("target/staticlib")),
    }
}

fn root() -> Option<PathBuf> {
    env::var_os(ROOT).map(PathBuf::from)
}
