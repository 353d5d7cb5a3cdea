//! Links libbumivondra.a, from the folder that BUMIVONDRA_LIB names, or else from
//! target/staticlib of the repository.
//!
//! No path is kept that would lead a copied checkout back to the first one: the
//! repository is found from this package, in whose folder cargo runs this, and what
//! is linked is a copy among cargo's own files.

use std::path::{Path, PathBuf};
use std::{env, fs};

const FOLDER: &str = "../../target/staticlib";
const NAME: &str = "libbumivondra.a";

fn main() {
    println!("cargo::rerun-if-env-changed=BUMIVONDRA_LIB");
    // The tools give the library's sum, so that other bytes are linked whatever
    // their date.
    println!("cargo::rerun-if-env-changed=BUMIVONDRA_SUM");
    let folder = env::var_os("BUMIVONDRA_LIB").map_or(PathBuf::from(FOLDER), PathBuf::from);
    let library = folder.join(NAME);
    println!("cargo::rerun-if-changed={}", library.display());
    let made = env::var_os("OUT_DIR").expect("cargo sets OUT_DIR");
    let made = Path::new(&made);
    let copied = fs::read(&library).and_then(|bytes| fs::write(made.join(NAME), bytes));
    if let Err(error) = copied {
        panic!(
            "{}: {error}; prove and build it first: tools/library",
            library.display()
        );
    }
    println!("cargo::rustc-link-search=native={}", made.display());
    println!("cargo::rustc-link-lib=static=bumivondra");
}
