//! What is shown while the library is proved, on a pipe and on a terminal, and what if that
//! fails. The prover is a stand-in that says what the kit's own says.

mod common;

use std::fs;
use std::io::{BufRead, BufReader};
use std::os::unix::fs::symlink;
use std::process::{Command, Stdio};

use common::checkout::Checkout;

/// Lists four crates of the library, and one that it does not depend on.
const CRATES: &str = "logic:\ngeometry:\nboard: geometry\nbuffer: logic # bytes\n\
                      bumivondra staticlib: logic buffer geometry\n";

/// Begins a stand-in for the prover, which tells of a crate before notes about it.
const BEGIN: &str = r#"
if [ "$*" = version ]; then echo kit; exit; fi
[ "$*" = "lib --cpu x86-64" ] || exit 9
crate() {
    echo "rt: chose --jobs 2 for $1"
    echo "note: $1 is looked at"
    echo "logic=$2"
}
library() {
    crate bumivondra 'proved functions=9'
    mkdir -p out
    echo archive >out/libbumivondra.a
}
"#;

/// Tells of crates that are proved one after another.
const GOES_WELL: &str = "crate logic 'proved functions=3'\ncrate buffer 'proved functions=2'\n\
                         crate geometry 'proved functions=1'\nlibrary\n";

/// Says what is shown on the way.
const SHOWN: [&str; 4] = [
    "proving 1 of 4: logic",
    "proving 2 of 4: buffer",
    "proving 3 of 4: geometry",
    "proving 4 of 4: bumivondra",
];

/// Makes a checkout of few crates whose prover does this.
fn checkout(name: &str, lines: &str) -> Checkout {
    let checkout = Checkout::built(name);
    fs::write(checkout.file("crates.txt"), CRATES).expect("written");
    checkout.stand_in("path/rt", &[BEGIN, lines].concat());
    checkout
}

/// Returns what a run says of the crates on the way, and what else it says.
fn parted(message: &str) -> (Vec<&str>, Vec<&str>) {
    message
        .lines()
        .partition(|line| line.starts_with("proving "))
}

/// Reads what the prover said.
fn log(checkout: &Checkout) -> String {
    fs::read_to_string(checkout.file("target/library.log")).expect("a log")
}

#[test]
fn on_a_pipe_each_crate_has_a_line_and_notes_are_kept() {
    let checkout = checkout("proving-pipe", GOES_WELL);
    let (status, out, message) = checkout.run_script("tools/library", &[]);
    assert_eq!((status, out.as_str()), (Some(0), ""), "{message}");
    let (shown, rest) = parted(&message);
    assert_eq!(shown, SHOWN);
    assert!(
        rest.iter().all(|line| line.starts_with("tools/library: ")),
        "{message}"
    );
    assert!(!message.contains(['\r', '\x1b']), "{message:?}");
    let log = log(&checkout);
    assert_eq!(log.lines().count(), 12, "{log}");
    assert!(log.contains("note: geometry is looked at\nlogic=proved functions=1\n"));
    // What was proved is not proved again, and nothing is said.
    let again = checkout.run_script("tools/library", &[]);
    assert_eq!(again, (Some(0), String::new(), String::new()));
}

#[test]
fn crates_that_were_proved_before_count() {
    // Of such a crate nothing is told, or that its checks begin with what was kept.
    let lines = "echo 'rt: buffer: begins with what a check kept in elsewhere'\n\
                 crate io 'proved functions=9'\ncrate geometry 'proved functions=1'\nlibrary\n";
    let checkout = checkout("proving-before", lines);
    let (status, out, message) = checkout.run(&["week"]);
    assert_eq!((status, out.as_str()), (Some(0), "ran week\n"), "{message}");
    assert_eq!(parted(&message).0, SHOWN[2..]);
}

#[test]
fn a_prover_of_another_order_is_followed() {
    let lines = "crate geometry 'proved functions=1'\ncrate logic 'proved functions=3'\nlibrary\n";
    let checkout = checkout("proving-order", lines);
    let (_, _, message) = checkout.run_script("tools/library", &[]);
    let shown = [SHOWN[2], SHOWN[0], SHOWN[3]];
    assert_eq!(parted(&message).0, shown);
}

#[test]
fn a_crate_is_shown_while_it_is_proved() {
    let waits = "crate logic 'proved functions=3'\necho 'rt: chose --jobs 2 for buffer'\n\
                 for n in $(seq 500); do [ -e \"$room/go\" ] || sleep 0.02; done\nlibrary\n";
    let checkout = checkout("proving-now", waits);
    let mut child = checkout
        .command("tools/library")
        .stderr(Stdio::piped())
        .spawn()
        .expect("the command");
    let message = BufReader::new(child.stderr.take().expect("a pipe"));
    let mut lines = message.lines().map(|line| line.expect("a line"));
    assert!(lines.any(|line| line == SHOWN[1]));
    // The prover is at it still.
    assert!(child.try_wait().expect("a state").is_none());
    fs::write(checkout.room.join("go"), "").expect("written");
    assert_eq!(lines.collect::<Vec<_>>(), SHOWN[3..]);
    assert!(child.wait().expect("its end").success());
}

/// Compiles by the clang of the kit that it is part of, as the kit's prover does.
const COMPILES: &str = r#"
if [ "$*" = doc ]; then echo "$room/home/START-HERE.md"; exit; fi
kit=$(dirname "$(dirname "$(readlink -f "$0")")")
[ "$*" = version ] || "$kit/toolchain/bin/clang" -O1 ../../crates.txt.bc
"#;

#[test]
fn the_module_is_kept_of_a_kit_that_is_known() {
    let checkout = checkout("proving-module", GOES_WELL);
    for folder in ["home/bin", "home/toolchain/bin", "home/rlibs"] {
        fs::create_dir_all(checkout.room.join(folder)).expect("a folder");
    }
    fs::remove_file(checkout.room.join("path/rt")).expect("removed");
    checkout.stand_in("home/bin/rt", &[COMPILES, BEGIN, GOES_WELL].concat());
    symlink(
        checkout.room.join("home/bin/rt"),
        checkout.room.join("path/rt"),
    )
    .expect("a link");
    fs::write(checkout.room.join("home/bin/rtlib.py"), "").expect("written");
    checkout.stand_in("home/toolchain/bin/clang", "echo \"compiled $*\"\n");
    fs::write(checkout.file("crates.txt.bc"), "a module").expect("written");
    let (status, _, message) = checkout.run_script("tools/library", &[]);
    assert_eq!(status, Some(0), "{message}");
    assert_eq!(parted(&message).0, SHOWN);
    let read = |name: &str| fs::read_to_string(checkout.file(name)).expect("a file");
    assert_eq!(read("target/module/module.bc"), "a module");
    assert_eq!(read("target/module/words"), "-O1\n../../crates.txt.bc\n");
    // It is built twice: by the kit, and by one whose compiler keeps the module.
    assert_eq!(
        read("target/library.log").matches("compiled -O1").count(),
        2
    );
    assert!(!checkout.file("target/module/kit").exists());
    assert!(read("target/staticlib/libbumivondra.sum").contains("target/module/module.bc"));
}

/// Runs a script of the checkout on a terminal. Returns its status and all that is seen.
fn on_a_terminal(checkout: &Checkout, script: &str, kind: &str) -> (Option<i32>, String) {
    let mut command = Command::new("script");
    command.args(["-qec", &format!("{script} 2>&1 >/dev/null"), "/dev/null"]);
    command.current_dir(checkout.room.join("checkout"));
    let output = checkout
        .on_path(&mut command)
        .env("TERM", kind)
        .stdin(Stdio::null())
        .output();
    let output = output.expect("the command script, of util-linux");
    let seen = String::from_utf8(output.stdout).expect("text");
    (output.status.code(), seen)
}

#[test]
fn on_a_terminal_a_line_is_rewritten() {
    let checkout = checkout("proving-terminal", GOES_WELL);
    let (status, seen) = on_a_terminal(&checkout, "tools/library", "xterm");
    assert_eq!(status, Some(0), "{seen}");
    let line: String = SHOWN.map(|text| format!("\r\x1b[K{text}")).concat();
    assert!(seen.ends_with(&format!("{line}\r\x1b[K")), "{seen:?}");
    assert!(!seen.contains("note:"), "{seen:?}");

    // A terminal that knows no such thing has plain lines.
    fs::remove_dir_all(checkout.file("target")).expect("removed");
    let (status, seen) = on_a_terminal(&checkout, "tools/library", "dumb");
    assert_eq!(status, Some(0), "{seen}");
    assert!(
        seen.ends_with(&format!("{}\r\n", SHOWN.join("\r\n"))),
        "{seen:?}"
    );
}

/// Fails at a crate, and then looks at the library without a proof as the kit's prover does.
const FAILS: &str = "crate logic 'proved functions=3'\necho 'rt: chose --jobs 2 for buffer'\n\
                     for n in $(seq 50); do echo \"error $n of buffer\"; done\n\
                     echo logic=not-proved\n\
                     for n in $(seq 60); do echo \"note $n of bumivondra\"; done\n\
                     echo only=0 proved=0\n\
                     echo 'rt: the library buffer did not build'\nexit 2\n";

/// Says what is seen of its log: the crate that failed and the end, forty lines of each.
fn part_of_failure() -> Vec<String> {
    let errors = (12..=50).map(|n| format!("error {n} of buffer"));
    let notes = (23..=60).map(|n| format!("note {n} of bumivondra"));
    errors
        .chain(["logic=not-proved", "..."].map(String::from))
        .chain(notes)
        .chain(["only=0 proved=0", "rt: the library buffer did not build"].map(String::from))
        .collect()
}

#[test]
fn a_failure_shows_the_end_of_the_log_and_keeps_the_status() {
    let checkout = checkout("proving-fails", FAILS);
    let (status, out, message) = checkout.run_script("tools/library", &[]);
    assert_eq!((status, out.as_str()), (Some(2), ""), "{message}");
    let (shown, rest) = parted(&message);
    assert_eq!(shown, SHOWN[..2]);
    let why = "tools/library: the library is not built, since rt lib ended with status 2. It said \
               last:";
    let at = rest.iter().position(|line| *line == why).expect("a reason");
    let (last, part) = rest[at + 1..].split_last().expect("lines");
    assert_eq!(part, part_of_failure());
    assert_eq!(
        *last,
        "tools/library: all of it, 117 lines, is in target/library.log"
    );
    let log = log(&checkout);
    assert_eq!(log.lines().count(), 117);
    assert!(log.contains("\nerror 1 of buffer\n") && log.contains("\nnote 1 of bumivondra\n"));
    assert!(!checkout.file("target/staticlib/libbumivondra.sum").exists());

    let (status, _, message) = checkout.run(&["week"]);
    assert_eq!(status, Some(3));
    assert!(message.ends_with(
        "target/library.log\nworkbench: the controller is not proved, so nothing is run\n"
    ));
    let (status, seen) = on_a_terminal(&checkout, "tools/library", "xterm");
    assert_eq!(status, Some(2));
    assert!(
        seen.contains("\r\x1b[Ktools/library: the library is not built"),
        "{seen}"
    );
}

#[test]
fn a_short_failure_is_shown_once_and_whole() {
    let lines = "crate logic not-proved\nexit 1\n";
    let checkout = checkout("proving-short", lines);
    let (status, _, message) = checkout.run_script("tools/library", &[]);
    assert_eq!(status, Some(1));
    let end = "It said last:\nrt: chose --jobs 2 for logic\nnote: logic is looked at\n\
               logic=not-proved\n\
               tools/library: all of it, 3 lines, is in target/library.log\n";
    assert!(message.ends_with(end), "{message}");
}
