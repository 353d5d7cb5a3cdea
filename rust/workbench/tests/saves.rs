//! Saves that fail or are killed: the platter and its list are the old ones or the new
//! ones.

mod common;

use std::collections::BTreeMap;
use std::fs::{self, Permissions};
use std::io::{BufRead, BufReader, Read};
use std::os::unix::fs::PermissionsExt;
use std::os::unix::process::{CommandExt, ExitStatusExt};
use std::path::{Path, PathBuf};
use std::process::{Child, Command, Output, Stdio};
use std::thread;
use std::time::{Duration, Instant};

use common::{ended, folder, program};
use reference::geometry::Sector;
use reference::rng::Rng;
use workbench::data::{Blocks, Data};
use workbench::platter::{Platter, LENGTH};

/// Writes blocks 17 and 18, and leaves sector 17 unreadable.
const OLD: &str = "fault sector 17 writes all unreadable\nstart\nwrite 17..18 \"old\"\n";
/// Writes them anew, and leaves sector 18 unreadable.
const NEW: &str = "fault sector 18 writes all unreadable\nstart\nwrite 17..18 \"new\"\n";

/// Says what blocks 17 and 18 hold, and which sectors are unreadable.
type State = (Vec<Vec<u8>>, Vec<u32>);

fn state(text: &str, unreadable: &[u32]) -> State {
    let blocks = Blocks {
        first: 17,
        last: 18,
    };
    let data = Data::Text(text.to_string()).load(blocks, |_| Ok(vec![]));
    (data.expect("no file is needed"), unreadable.to_vec())
}

/// Loads the platter in a folder.
fn loaded(here: &Path) -> State {
    let platter = Platter::load(&here.join("p")).expect("a platter");
    let bytes = |number| platter.bytes(Sector::new(number).expect("a sector"));
    let unreadable = platter.unreadable().iter().map(|s| s.number()).collect();
    ((17..=18).map(|n| bytes(n).to_vec()).collect(), unreadable)
}

/// Reads the files of a folder.
fn files(here: &Path) -> BTreeMap<String, Vec<u8>> {
    let entries = fs::read_dir(here).expect("a folder");
    let named = entries.map(|entry| {
        let path = entry.expect("an entry").path();
        let name = path.file_name().expect("a name").to_string_lossy();
        (name.into_owned(), fs::read(&path).expect("a file"))
    });
    named.collect()
}

/// Names the files of a folder, in their order.
fn names(here: &Path) -> Vec<String> {
    let entries = fs::read_dir(here).expect("a folder").flatten();
    let mut names: Vec<String> = entries
        .map(|entry| entry.file_name().to_string_lossy().into_owned())
        .collect();
    names.sort();
    names
}

/// Runs a plan on the platter of a folder, by this command.
fn play(command: &mut Command, here: &Path, plan: &str) -> Output {
    ended(command.args(["run", "--platter", "p"]), here, plan)
}

/// Makes a folder with the old platter.
fn with_old(name: &str) -> PathBuf {
    let here = folder(name);
    let output = play(&mut Command::new(program()), &here, OLD);
    assert!(output.status.success());
    assert_eq!(loaded(&here), state("old", &[17]));
    here
}

/// Checks that the run says why the save failed.
fn refused(output: &Output, reason: &str) {
    assert_eq!(output.status.code(), Some(2));
    let message = String::from_utf8_lossy(&output.stderr);
    let start = "workbench: standard input:3: ";
    assert!(message.starts_with(start), "{message}");
    assert!(message.contains(reason), "{message}");
}

/// Checks that the new platter is saved now that nothing hinders it.
fn goes_well(here: &Path) {
    let output = play(&mut Command::new(program()), here, NEW);
    assert!(output.status.success());
    assert_eq!(loaded(here), state("new", &[18]));
    assert_eq!(files(here).len(), 2);
    assert_eq!(files(here)["p"].len(), LENGTH);
}

#[test]
fn names_that_are_taken() {
    let here = with_old("taken");
    let names = ["p.new", "p.unreadable.new"];
    for name in names {
        fs::write(here.join(name), "mine").expect("written");
    }
    let output = play(&mut Command::new(program()), &here, NEW);
    assert!(output.status.success());
    assert_eq!(loaded(&here), state("new", &[18]));
    for name in names {
        assert_eq!(files(&here)[name], b"mine");
        fs::remove_file(here.join(name)).expect("removed");
    }
    goes_well(&here);
    fs::remove_dir_all(here).expect("removed");
}

#[test]
fn a_name_of_the_programs_own_that_is_taken() {
    let here = folder("own-name");
    // The program has the shell's number.
    let line = "echo mine >p.workbench-$$-0; ln -s /dev/full p.workbench-$$-1; \
                exec \"$0\" run --platter p";
    let mut command = Command::new("sh");
    command.args(["-c", line]).arg(program());
    let output = ended(&mut command, &here, "start\nwrite 17 \"one\"\n");
    assert!(output.status.success());
    let names: Vec<String> = names(&here);
    assert_eq!(names.len(), 3, "{names:?}");
    assert_eq!(fs::read(here.join(&names[1])).expect("a file"), b"mine\n");
    assert!(here.join(&names[2]).is_symlink());
    fs::remove_dir_all(here).expect("removed");
}

/// Makes writes into files fail whose names begin so, as on a full disk.
const FULL: &str = r#"
#define _GNU_SOURCE
#include <dlfcn.h>
#include <errno.h>
#include <stdio.h>
#include <stdlib.h>
#include <string.h>
#include <unistd.h>

ssize_t write(int file, const void *bytes, size_t count) {
    ssize_t (*real)(int, const void *, size_t) = dlsym(RTLD_NEXT, "write");
    char link[64], name[4096];
    snprintf(link, sizeof link, "/proc/self/fd/%d", file);
    ssize_t length = readlink(link, name, sizeof name - 1);
    name[length < 0 ? 0 : length] = 0;
    char *last = strrchr(name, '/');
    char *full = getenv("FULL");
    if (last && !strncmp(last + 1, full, strlen(full))) {
        errno = ENOSPC;
        return -1;
    }
    return real(file, bytes, count);
}
"#;

/// Compiles it in this folder.
fn full_disk(room: &Path) -> PathBuf {
    let (source, made) = (room.join("full.c"), room.join("full.so"));
    fs::write(&source, FULL).expect("written");
    let mut compiler = Command::new("cc");
    compiler.args(["-shared", "-fPIC", "-o"]).arg(&made);
    let compiled = compiler.arg(&source).arg("-ldl").status();
    assert!(compiled.expect("a compiler").success());
    made
}

#[test]
fn a_full_disk() {
    let room = folder("full");
    let full = full_disk(&room);
    for name in ["p", "p.unreadable"] {
        let here = with_old(&format!("full-{name}"));
        let before = files(&here);
        let mut command = Command::new(program());
        command.env("LD_PRELOAD", &full);
        command.env("FULL", format!("{name}.workbench-"));
        let output = play(&mut command, &here, NEW);
        refused(&output, "cannot be written: No space left on device");
        assert!(files(&here) == before, "{name}");
        goes_well(&here);
        fs::remove_dir_all(here).expect("removed");
    }
    fs::remove_dir_all(room).expect("removed");
}

#[test]
fn a_read_only_folder() {
    let (here, room) = (with_old("read-only"), folder("program"));
    let before = files(&here);
    fs::set_permissions(&here, Permissions::from_mode(0o555)).expect("read-only");
    let output = play(&mut without_rights(&here, &room), &here, NEW);
    refused(&output, "Permission denied");
    fs::set_permissions(&here, Permissions::from_mode(0o755)).expect("as before");
    assert!(files(&here) == before);
    goes_well(&here);
    for folder in [here, room] {
        fs::remove_dir_all(folder).expect("removed");
    }
}

/// Calls the program as a user who may not write into this read-only folder. Root may,
/// and becomes nobody, with a copy of the program in a room that others can enter.
fn without_rights(read_only: &Path, room: &Path) -> Command {
    let probe = read_only.join("probe");
    if fs::write(&probe, "").is_err() {
        return Command::new(program());
    }
    fs::remove_file(&probe).expect("removed");
    let other = room.join("workbench");
    // A file that this process had written itself could still be busy in another child.
    let copied = Command::new("cp").arg(program()).arg(&other).status();
    assert!(copied.expect("a copy").success());
    let mut command = Command::new(other);
    command.uid(65534).gid(65534);
    command
}

/// Calls the program so that it cannot make a file of more than 4000 of the shell's
/// blocks.
fn limited(before: &str) -> Command {
    let mut command = Command::new("sh");
    let line = format!("{before} ulimit -c 0; ulimit -f 4000; exec \"$0\" \"$@\"");
    command.args(["-c", &line]).arg(program());
    command
}

#[test]
fn a_limit_of_the_file_size() {
    let here = with_old("limit");
    let before = files(&here);
    let output = play(&mut limited("trap '' XFSZ;"), &here, NEW);
    refused(&output, "p cannot be written: File too large");
    assert!(files(&here) == before);

    // Without the trap the limit kills the program in the middle of the platter.
    let output = play(&mut limited(""), &here, NEW);
    assert_eq!(output.status.signal(), Some(25));
    let mut left = files(&here);
    left.retain(|name, _| !before.contains_key(name));
    let [(list_name, list), (name, part)] = left.iter().collect::<Vec<_>>()[..] else {
        panic!("{:?}", left.keys());
    };
    assert!(name.starts_with("p.workbench-") && part.len() < LENGTH);
    assert!(list_name.starts_with("p.unreadable.workbench-"));
    assert_eq!(list, b"18\n");
    assert!(before
        .iter()
        .all(|(name, bytes)| files(&here)[name] == *bytes));
    goes_well(&here);
    fs::remove_dir_all(here).expect("removed");
}

/// Counts the runs that are killed, and the saves that each could make.
const RUNS: u32 = 40;
const SAVES: u32 = 1000;

/// Writes a plan of many saves, each with another list, that says the number of each
/// save once it is made.
fn saves(run: u32) -> String {
    let faults = "fault sector 17 writes every 2 unreadable\n\
                  fault sector 18 writes every 3 unreadable\n";
    let save = |n| format!("write 17..18 \"run {run}, save {n}\"\nsay {n}\n");
    let lines: String = (1..=SAVES).map(save).collect();
    format!("{faults}start\nsay 0\n{lines}")
}

/// Says the state that a save of such a plan saves.
fn saved(run: u32, save: u32) -> State {
    let text = format!("run {run}, save {save}");
    let faults = [(17, 2), (18, 3)].into_iter();
    let unreadable = faults.filter(|(_, every)| save.is_multiple_of(*every));
    let unreadable: Vec<u32> = unreadable.map(|(sector, _)| sector).collect();
    state(&text, &unreadable)
}

/// Waits for a moment of a save: any, or one that the files show.
fn wait_for_a_moment(here: &Path, rng: &mut Rng) {
    let length = |name| fs::metadata(here.join(name)).map_or(0, |file| file.len());
    let is_begun = |name| names(here).iter().any(|found| found.starts_with(name));
    let chosen = rng.below(4);
    let limit = Instant::now() + Duration::from_millis(100);
    while Instant::now() < limit {
        match chosen {
            0 => return thread::sleep(Duration::from_micros(rng.below(50_000).into())),
            1 if is_begun("p.workbench-") => return,
            2 if is_begun("p.unreadable.workbench-") => return,
            3 if length("p") > LENGTH as u64 => return,
            _ => {}
        }
    }
}

/// Kills a run in the middle. Says the number of the last save that it told of.
fn kill(mut child: Child, here: &Path, rng: &mut Rng) -> u32 {
    let mut out = BufReader::new(child.stdout.take().expect("a pipe"));
    let some = format!("\n{}\n", rng.below(4));
    let mut lines = String::new();
    while !lines.ends_with(&some) {
        assert_ne!(out.read_line(&mut lines).expect("a line"), 0, "{lines}");
    }
    wait_for_a_moment(here, rng);
    child.kill().expect("killed");
    assert_eq!(child.wait().expect("its end").signal(), Some(9));
    out.read_to_string(&mut lines).expect("its output");
    let mut numbers = lines.lines().filter_map(|line| line.parse().ok());
    numbers.next_back().expect("the number of a save")
}

#[test]
fn a_killed_run_leaves_the_last_save_or_the_next() {
    let here = with_old("killed");
    let mut rng = Rng::new(8);
    let mut before = loaded(&here);
    for run in 0..RUNS {
        fs::write(here.join("my.plan"), saves(run)).expect("written");
        let child = Command::new(program())
            .args(["run", "--platter", "p", "my.plan"])
            .current_dir(&here)
            .stdout(Stdio::piped())
            .spawn()
            .expect("the command");
        let told = kill(child, &here, &mut rng);
        let now = loaded(&here);
        let last = if told == 0 { before } else { saved(run, told) };
        assert!(
            now == last || now == saved(run, told + 1),
            "run {run}: {told} saves"
        );
        before = now;
    }
    fs::remove_file(here.join("my.plan")).expect("removed");
    goes_well(&here);
    fs::remove_dir_all(here).expect("removed");
}
