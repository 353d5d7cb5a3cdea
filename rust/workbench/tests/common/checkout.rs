//! A copy of the checkout in which the prover is a stand-in that tells what was asked of it,
//! and so are cargo and the programs where they are slow.

use std::fs::{self, Permissions};
use std::os::unix::fs::PermissionsExt;
use std::path::{Path, PathBuf};
use std::process::Command;

use super::{ended, folder, root};

/// Copies a folder, without what was built, version control's own and call scripts.
fn copy(from: &Path, to: &Path) {
    fs::create_dir(to).expect("a new folder");
    for entry in fs::read_dir(from).expect("a folder") {
        let entry = entry.expect("an entry");
        let (name, path) = (entry.file_name(), entry.path());
        if ["target", "out", ".git", "scripts"]
            .iter()
            .any(|left| name == *left)
        {
            continue;
        }
        match path.is_dir() {
            true => copy(&path, &to.join(name)),
            false => drop(fs::copy(&path, to.join(name)).expect("copied")),
        }
    }
}

/// Holds a copy of the checkout with nothing built, and stand-ins on the path.
pub struct Checkout {
    /// Where `checkout`, the folder `path` and the record `proofs` are.
    pub room: PathBuf,
}

/// Stands in for the prover: makes a library, unless there is a file `wrong` or `empty`.
pub const PROVER: &str = r#"
if [ "$*" = version ]; then cat "$room/kit"; exit; fi
[ "$*" = "lib --cpu x86-64" ] && [ "$PWD" = "$room/checkout/crates/bumivondra" ] || exit 9
echo proved >>"$room/proofs"
[ ! -e "$room/wrong" ] || exit 1
[ ! -e "$room/empty" ] || exit 0
mkdir -p out
cp "$room/proofs" out/libbumivondra.a
"#;

/// Stands in for cargo: with the library's sum there must be no other folder of it.
const CARGO: &str = r#"
[ -z "${BUMIVONDRA_SUM-}" ] || [ -z "${BUMIVONDRA_LIB-}" ] || exit 9
[ "$1" != run ] || echo "built with the sum $BUMIVONDRA_SUM"
"#;

/// The folder of the programs in a checkout.
const PROGRAMS: &str = "rust/workbench/target/release";

impl Checkout {
    /// Makes a copy whose prover this stands in for.
    pub fn new(name: &str, prover: &str) -> Checkout {
        let room = folder(name).canonicalize().expect("a folder");
        copy(&root(), &room.join("checkout"));
        fs::create_dir(room.join("path")).expect("a folder");
        fs::write(room.join("kit"), "kit 1\n").expect("written");
        let checkout = Checkout { room };
        checkout.stand_in("path/rt", prover);
        checkout
    }

    /// Makes a copy that never builds a program, since stand-ins are there for all.
    pub fn built(name: &str) -> Checkout {
        let checkout = Checkout::new(name, PROVER);
        checkout.stand_in("path/cargo", CARGO);
        fs::create_dir_all(checkout.file(PROGRAMS)).expect("a folder");
        for (program, lines) in [("usage", "exit 10\n"), ("workbench", "echo \"ran $*\"\n")] {
            checkout.stand_in(&format!("checkout/{PROGRAMS}/{program}"), lines);
        }
        checkout
    }

    pub fn stand_in(&self, name: &str, lines: &str) {
        let path = self.room.join(name);
        let room = self.room.display();
        fs::write(&path, format!("#!/bin/sh\nroom=\"{room}\"\n{lines}")).expect("written");
        fs::set_permissions(&path, Permissions::from_mode(0o755)).expect("a program");
    }

    pub fn file(&self, name: &str) -> PathBuf {
        self.room.join("checkout").join(name)
    }

    /// Runs the script. Says its exit status, its output and its messages.
    pub fn run(&self, arguments: &[&str]) -> (Option<i32>, String, String) {
        self.run_script("workbench", arguments)
    }

    /// Calls a script of the checkout, with another folder named for the library.
    pub fn command(&self, script: &str) -> Command {
        let mut command = Command::new(self.file(script));
        self.on_path(&mut command);
        command
    }

    /// Gives a command the stand-ins on its path.
    pub fn on_path<'a>(&self, command: &'a mut Command) -> &'a mut Command {
        let path = std::env::var("PATH").expect("a path");
        let path = format!("{}:{path}", self.room.join("path").display());
        command.env("PATH", path).env_remove("BUMIVONDRA_SUM");
        command.env("BUMIVONDRA_LIB", self.room.join("elsewhere"))
    }

    /// Runs a script of the checkout. Says its exit status, its output and its messages.
    pub fn run_script(&self, script: &str, arguments: &[&str]) -> (Option<i32>, String, String) {
        let mut command = self.command(script);
        let output = ended(command.args(arguments), &self.room, "");
        let text = |bytes| String::from_utf8(bytes).expect("text");
        let status = output.status.code();
        (status, text(output.stdout), text(output.stderr))
    }

    /// Counts how often something was proved.
    pub fn proofs(&self) -> usize {
        let proofs = fs::read_to_string(self.room.join("proofs"));
        proofs.map_or(0, |lines| lines.lines().count())
    }

    /// Runs the script, which goes well. Says whether it proved the library first.
    pub fn proves(&self) -> bool {
        let before = self.proofs();
        let (status, out, message) = self.run(&["run", "x"]);
        assert_eq!(
            (status, out.as_str()),
            (Some(0), "ran run x\n"),
            "{message}"
        );
        self.proofs() > before
    }

    /// Says whether the script proves the library now, and then no more.
    pub fn proves_once(&self) -> bool {
        self.proves() && !self.proves()
    }

    /// Writes a line of spaces behind a file.
    pub fn append(&self, name: &str) {
        let path = self.file(name);
        let old = fs::read_to_string(&path).expect("a file");
        fs::write(&path, old + " \n").expect("written");
    }
}

impl Drop for Checkout {
    fn drop(&mut self) {
        // A folder that stays hurts nobody.
        let _ = fs::remove_dir_all(&self.room);
    }
}
