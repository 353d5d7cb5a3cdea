//! The script `workbench`, in a copy of the checkout: what it answers before a proof,
//! when it proves, and what it does if that fails. Beside it a tool that links the
//! library. The prover is a stand-in that tells what was asked of it, and so are cargo
//! and the programs where they are slow.

mod common;

use std::fs::{self, File};
use std::os::unix::fs::symlink;
use std::process::{Command, Stdio};
use std::time::{Duration, Instant, SystemTime};

use common::checkout::{Checkout, PROVER};
use common::ended;

/// Stands in for a prover that is not to be asked.
const NO_PROVER: &str = "echo asked >>\"$room/proofs\"\nexit 1\n";

/// Lists arguments, the exit status that they lead to without a proof, and what is said:
/// in the output if they are right, and else in the message.
const ANSWERS: [(&str, i32, &str); 11] = [
    ("--help", 0, "\n  workbench week "),
    ("--version", 0, "libbumivondra.a: not built yet\n"),
    (
        "--version",
        0,
        concat!("workbench ", env!("CARGO_PKG_VERSION")),
    ),
    ("", 2, "workbench: what is to be done?"),
    ("ran", 2, "workbench: \"ran\" is no command"),
    ("run --fast", 2, "workbench: \"--fast\" is no option"),
    ("run --platter", 2, "workbench: --platter needs a file"),
    ("run none.plan", 2, "workbench: none.plan cannot be read"),
    ("import none", 2, "workbench: the usage is "),
    ("export none image", 2, "workbench: none cannot be read"),
    ("timeline week", 2, "workbench: the usage is "),
];

#[test]
fn help_version_and_wrong_arguments_are_answered_before_a_proof() {
    let checkout = Checkout::new("answers", NO_PROVER);
    // The first answer is built from nothing, and it is said.
    let mut limit = Duration::from_secs(10);
    let mut said_first = "workbench: building the program that reads the arguments\n";
    for (arguments, wanted, said) in ANSWERS {
        let words: Vec<&str> = arguments.split_whitespace().collect();
        let began = Instant::now();
        let (status, out, message) = checkout.run(&words);
        let took = began.elapsed();
        assert!(took < limit, "{arguments}: {took:?}");
        assert_eq!(status, Some(wanted), "{arguments}: {message}");
        let (text, silent) = match wanted {
            0 => (out, message),
            _ => (message, out),
        };
        assert!(text.contains(said), "{arguments}: {text}");
        assert_eq!(silent, said_first, "{arguments}");
        limit = Duration::from_secs(2);
        said_first = "";
    }
    assert_eq!(checkout.proofs(), 0);
    assert!(!checkout.file("target").exists());

    let (status, out, _) = checkout.run(&["run", "first"]);
    assert_eq!((status, out.as_str()), (Some(3), ""));
    assert_ne!(checkout.proofs(), 0, "right arguments lead to the prover");
}

const SOURCE: &str = "crates/geometry/src/lib.rt";
const DEFINITION: &str = "crates/geometry/specs/Geometry.antt";
const PROOF: &str = "crates/bumivondra/proofs/Lib.antt";
const LIBRARY: &str = "target/staticlib/libbumivondra.a";
const STAMP: &str = "target/staticlib/libbumivondra.sum";

#[test]
fn the_library_is_proved_when_what_it_is_made_from_has_changed() {
    let checkout = Checkout::built("changes");
    assert!(!checkout.file("target").exists());
    assert!(checkout.proves_once(), "a fresh checkout");
    edits_are_proved(&checkout);
    files_more_or_less_are_proved(&checkout);
    another_kit_or_library_is_proved(&checkout);
    other_edits_cost_no_proof(&checkout);
}

fn edits_are_proved(checkout: &Checkout) {
    for name in [SOURCE, DEFINITION, PROOF, "crates.txt"] {
        checkout.append(name);
        assert!(checkout.proves_once(), "{name}");
    }
    checkout.append(DEFINITION);
    let edited = File::options().append(true).open(checkout.file(DEFINITION));
    let aged = edited.and_then(|file| file.set_modified(SystemTime::UNIX_EPOCH));
    aged.expect("an old time");
    assert!(checkout.proves_once(), "an edit with an old time");

    checkout.append(SOURCE);
    let late =
        format!("[ -e \"$room/late\" ] || echo >>\"$room/checkout/{SOURCE}\"\n: >\"$room/late\"\n");
    checkout.stand_in("path/rt", &[PROVER, &late].concat());
    assert!(checkout.proves(), "an edit");
    assert!(checkout.proves_once(), "another edit during the proof");
}

fn files_more_or_less_are_proved(checkout: &Checkout) {
    let [more, other] =
        ["More", "Other"].map(|name| checkout.file(&format!("crates/geometry/specs/{name}.antt")));
    fs::write(&more, "").expect("written");
    assert!(checkout.proves_once(), "a file more");
    fs::rename(&more, &other).expect("renamed");
    assert!(checkout.proves_once(), "another name");
    fs::remove_file(&other).expect("removed");
    assert!(checkout.proves_once(), "a file less");
}

fn another_kit_or_library_is_proved(checkout: &Checkout) {
    fs::write(checkout.room.join("kit"), "kit 2\n").expect("written");
    assert!(checkout.proves_once(), "another kit");
    fs::write(checkout.file(LIBRARY), "of elsewhere").expect("written");
    assert!(checkout.proves_once(), "another library");
    fs::remove_file(checkout.file(LIBRARY)).expect("removed");
    assert!(checkout.proves_once(), "no library");
    fs::remove_dir_all(checkout.file("target")).expect("removed");
    assert!(checkout.proves_once(), "nothing that was built");
}

fn other_edits_cost_no_proof(checkout: &Checkout) {
    for name in [
        "crates/geometry/must-fail/block_9728.edit",
        "crates/test_replay/src/main.rt",
        "rust/workbench/src/lib.rs",
        "README.md",
    ] {
        checkout.append(name);
        assert!(!checkout.proves(), "{name}");
    }
    let source = fs::read(checkout.file(SOURCE)).expect("a source");
    fs::write(checkout.file(SOURCE), source).expect("the same with a new time");
    assert!(!checkout.proves(), "a new time");
}

#[test]
fn nothing_is_run_that_is_not_proved_and_built() {
    let checkout = Checkout::built("failures");
    let wrong = checkout.room.join("wrong");
    assert!(checkout.proves_once(), "a fresh checkout");
    let library = fs::read(checkout.file(LIBRARY)).expect("a library");
    fs::write(&wrong, "").expect("written");
    checkout.append(PROOF);
    for _ in 0..2 {
        let before = checkout.proofs();
        stops(&checkout, "the controller is not proved");
        assert_eq!(checkout.proofs(), before + 1);
    }
    // The old library was there all the time.
    assert!(fs::read(checkout.file(LIBRARY)).expect("a library") == library);
    fs::remove_file(&wrong).expect("removed");
    assert!(checkout.proves_once(), "a proof that is right again");

    checkout.stand_in("path/cargo", "exit 101\n");
    stops(&checkout, "the program is not built");
}

/// Stands in for cargo that finds something changed: it compiles until the script has told
/// of it, and a while at most.
const COMPILES: &str = r#"
case $* in *"--package usage"*) exit ;; esac
echo "   Compiling reference v0.1.0" >&2
for _ in 1 2 3 4 5 6 7 8 9 10 11 12 13 14 15 16 17 18 19 20; do
    if grep -q building "$room/told"; then
        echo "   Compiling workbench v0.1.0" >&2
        exit
    fi
    sleep 0.25
done
exit 9
"#;

/// Runs the script with its messages in a file. Says its exit status, and the messages.
fn told(checkout: &Checkout) -> (Option<i32>, String) {
    let path = checkout.room.join("told");
    let file = File::create(&path).expect("a file");
    let mut command = checkout.command("workbench");
    command
        .args(["run", "x"])
        .stdout(Stdio::null())
        .stderr(file);
    let status = command.status();
    let message = fs::read_to_string(path).expect("messages");
    (status.expect("the script").code(), message)
}

#[test]
fn a_build_is_told_while_it_is_made_and_what_is_built_is_not() {
    let checkout = Checkout::built("builds");
    library_is_made(&checkout);
    assert_eq!(told(&checkout), (Some(0), String::new()));
    checkout.stand_in("path/cargo", COMPILES);
    let building = "workbench: building the program\n";
    assert_eq!(told(&checkout), (Some(0), String::from(building)));
    // A note that compiles nothing is hidden, and shown with all others if the build fails.
    let notes = "echo ' Finished' >&2\n";
    checkout.stand_in("path/cargo", notes);
    assert_eq!(told(&checkout), (Some(0), String::new()));
    let failure = "echo ' Compiling usage' >&2\necho 'error: no' >&2\nexit 101\n";
    checkout.stand_in("path/cargo", failure);
    let message = "workbench: building the program that reads the arguments\n \
                   Compiling usage\nerror: no\n\
                   workbench: the program is not built, so nothing is run\n";
    assert_eq!(told(&checkout), (Some(3), String::from(message)));
}

/// Checks that the script says why it runs nothing.
fn stops(checkout: &Checkout, why: &str) {
    let (status, out, message) = checkout.run(&["week"]);
    assert_eq!((status, out.as_str()), (Some(3), ""));
    let why = format!("workbench: {why}, so nothing is run\n");
    assert!(message.ends_with(&why), "{message}");
}

#[test]
fn the_program_is_told_the_name_that_the_script_was_called_by() {
    let checkout = Checkout::built("names");
    library_is_made(&checkout);
    let program = "echo \"called $WORKBENCH_NAME, $*\"\n";
    checkout.stand_in("checkout/rust/workbench/target/release/workbench", program);
    // A release has another script, and its program beside it.
    fs::create_dir_all(checkout.room.join("a release/bin")).expect("a folder");
    let script = checkout.room.join("a release/bin/workbench");
    fs::copy(checkout.file("release/workbench"), &script).expect("copied");
    checkout.stand_in("a release/bin/workbench-x86_64-linux-gnu", program);
    for script in [checkout.file("workbench"), script] {
        let link = checkout.room.join("bench");
        let _ = fs::remove_file(&link);
        symlink(&script, &link).expect("a link");
        for called in [&script, &link] {
            let mut command = Command::new(called);
            let output = ended(
                checkout.on_path(&mut command).arg("week"),
                &checkout.room,
                "",
            );
            let out = String::from_utf8(output.stdout).expect("text");
            assert_eq!(out, format!("called {}, week\n", called.display()));
        }
    }
}

#[test]
fn a_tool_links_only_a_library_of_the_present_files() {
    let checkout = Checkout::built("linked");
    is_not_linked(&checkout, "a fresh checkout");
    library_is_made(&checkout);
    is_linked(&checkout);
    for name in [SOURCE, DEFINITION, PROOF, "crates.txt"] {
        checkout.append(name);
        is_not_linked(&checkout, name);
        library_is_made(&checkout);
        is_linked(&checkout);
    }
    checkout.append("README.md");
    is_linked(&checkout);

    fs::write(checkout.file(LIBRARY), "of elsewhere").expect("written");
    is_not_linked(&checkout, "another library");
    library_is_made(&checkout);
    fs::remove_file(checkout.file(LIBRARY)).expect("removed");
    is_not_linked(&checkout, "no library");
    library_is_made(&checkout);
    fs::remove_file(checkout.file(STAMP)).expect("removed");
    is_not_linked(&checkout, "a library of which nothing is known");
}

#[test]
fn a_tool_links_no_library_after_a_failed_proof() {
    for name in ["wrong", "empty"] {
        let checkout = Checkout::built(name);
        library_is_made(&checkout);
        checkout.append(PROOF);
        fs::write(checkout.room.join(name), "").expect("written");
        if name == "empty" {
            fs::remove_file(checkout.file(LIBRARY)).expect("removed");
        }
        for proofs in 2..4 {
            let (status, out, message) = checkout.run_script("tools/library", &[]);
            assert_eq!((status, out.as_str()), (Some(1), ""), "{message}");
            assert_eq!(checkout.proofs(), proofs, "{name}");
            is_not_linked(&checkout, name);
        }
    }
}

#[test]
fn a_wrong_word_proves_nothing() {
    let checkout = Checkout::built("word");
    let (status, out, message) = checkout.run_script("tools/library", &["chekc"]);
    assert_eq!((status, out.as_str()), (Some(2), ""));
    assert_eq!(message, "usage: tools/library [check]\n");
    assert_eq!(checkout.proofs(), 0);
}

/// Proves the library and writes of what it was made.
fn library_is_made(checkout: &Checkout) {
    let (status, _, message) = checkout.run_script("tools/library", &[]);
    assert_eq!(status, Some(0), "{message}");
}

/// Checks that a tool goes on to cargo and proves nothing.
fn is_linked(checkout: &Checkout) {
    let before = checkout.proofs();
    let checked = checkout.run_script("tools/library", &["check"]);
    assert_eq!(checked, (Some(0), String::new(), String::new()));
    let (status, out, message) = checkout.run_script("tools/fuzz", &[]);
    assert_eq!(status, Some(0), "{message}");
    assert!(out.starts_with("built with the sum "), "{out}");
    assert_eq!(checkout.proofs(), before);
}

/// Checks that a tool says why it stops before cargo, and proves nothing.
fn is_not_linked(checkout: &Checkout, why: &str) {
    let before = checkout.proofs();
    let wanted = format!(
        "tools/library: {LIBRARY} is missing or not made from the present files; \
         prove and build it first: tools/library\n"
    );
    for (script, arguments, failed) in
        [("tools/library", &["check"][..], 1), ("tools/fuzz", &[], 2)]
    {
        let (status, out, message) = checkout.run_script(script, arguments);
        assert_eq!((status, out.as_str()), (Some(failed), ""), "{why}");
        assert_eq!(message, wanted, "{why}");
    }
    assert_eq!(checkout.proofs(), before, "{why}");
}
