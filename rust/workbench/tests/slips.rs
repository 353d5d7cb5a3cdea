//! Slips of the pen: no output replaces what a command reads, a platter or its list; links
//! and modes stay; and two workbenches do not work on one platter.

mod common;

use std::collections::BTreeMap;
use std::fs::{self, Permissions};
use std::io::{BufRead, BufReader, Write};
use std::os::unix::fs::{symlink, MetadataExt, PermissionsExt};
use std::path::{Path, PathBuf};
use std::process::{Child, Command, Stdio};

use common::{done, ended, folder, program, workbench};

/// Reads all files of a folder; of a link, where it leads.
fn all(here: &Path) -> BTreeMap<PathBuf, Vec<u8>> {
    let entries = fs::read_dir(here).expect("a folder").flatten();
    let held = entries.map(|entry| {
        let path = entry.path();
        let bytes = match fs::read_link(&path) {
            Ok(to) => to.into_os_string().into_encoded_bytes(),
            Err(_) => fs::read(&path).expect("a file"),
        };
        (path, bytes)
    });
    held.collect()
}

/// Makes a folder with a platter `p`, whose sector 17 is unreadable, other names of it, a
/// table's image and plans.
fn shop(name: &str) -> PathBuf {
    let here = folder(name);
    let plan = "fault sector 17 writes all unreadable\nstart\nwrite 17..18 \"one\"\n";
    let (status, _, message) = workbench(&here, &["run", "--platter", "p"], plan);
    assert_eq!((status, message.as_str()), (0, ""));
    let platter = fs::read(here.join("p")).expect("a platter");
    fs::write(here.join("table"), &platter[4960 * 532..][..532]).expect("written");
    fs::write(here.join("a.image"), &platter[..9728 * 532]).expect("written");
    fs::copy(here.join("p"), here.join("other")).expect("another platter");
    fs::hard_link(here.join("p"), here.join("hard")).expect("a link");
    symlink("p", here.join("soft")).expect("a link");
    symlink("p.unreadable", here.join("soft-list")).expect("a link");
    fs::write(here.join("my.plan"), "start\nread 5\n").expect("written");
    fs::write(here.join("b.plan"), "start\n").expect("written");
    let like_a_picture = "<svg: the data of a plan, <!-- drawn by the workbench -->";
    fs::write(here.join("<svg.dat"), like_a_picture).expect("written");
    here
}

/// Checks that a command is refused with these words and changes no file.
fn refused(here: &Path, arguments: &[&str], input: &str, words: &str) {
    let before = all(here);
    let (status, _, message) = workbench(here, arguments, input);
    assert_eq!(status, 2, "{arguments:?} {input}: {message}");
    assert_eq!(
        message,
        format!("workbench: {words}\n"),
        "{arguments:?} {input}"
    );
    assert!(all(here) == before, "{arguments:?} {input}");
}

#[test]
fn a_run_that_is_only_shown_writes_no_file_of_its_plan() {
    let here = shop("only-shown");
    fs::write(here.join("back.dat"), "what was saved").expect("written");
    fs::write(here.join("r.plan"), "start\nread 0 to back.dat\n").expect("written");
    for (command, to) in [("timeline", "r.svg"), ("report", "r.html")] {
        let (status, _, message) = workbench(&here, &[command, "r.plan", to], "");
        assert_eq!((status, message.as_str()), (0, ""), "{command}");
        let kept = fs::read_to_string(here.join("back.dat")).expect("a file");
        assert_eq!(kept, "what was saved", "{command}");
    }
    let page = fs::read_to_string(here.join("r.html")).expect("a page");
    assert!(page.contains("532 bytes for back.dat, which this run does not write"));
    fs::remove_dir_all(here).expect("removed");
}

/// Shows a plan in each way that writes no file of it, and wants this status and message of
/// all.
fn shown_like_run(here: &Path, status: i32, message: &str) {
    for words in [
        "timeline r.plan r.svg",
        "report r.plan r.html",
        "odds r.plan --seed 1 --rate 0/1",
        "odds r.plan --seeds 2 --rate 0/1",
        "run r.plan",
    ] {
        let arguments: Vec<&str> = words.split(' ').collect();
        let (ended, _, said) = workbench(here, &arguments, "");
        assert_eq!((ended, said.as_str()), (status, message), "{words}");
    }
}

#[test]
fn a_run_that_is_only_shown_reads_what_it_would_have_written() {
    let here = shop("shown-reads");
    let plan = "start\nwrite 5 \"NEW\"\nread 5 to back.dat\ncompare 5 with file ./back.dat\n";
    let again = "write 6 file link\ncuts from here\nwrite 6 00\nwrite 6 file back.dat\n\
                 compare 6 with file link\ncuts to here\ncompare 6 with 4e 45 57\n";
    fs::write(here.join("r.plan"), format!("{plan}{again}")).expect("written");
    symlink("back.dat", here.join("link")).expect("a link");
    // The file is not there, and then an older one of other bytes is.
    shown_like_run(&here, 0, "");
    fs::write(here.join("back.dat"), [7; 532]).expect("written");
    shown_like_run(&here, 0, "");
    fs::write(here.join("r.plan"), "start\nread 5 to none/a\n").expect("written");
    let words = "none/a cannot be written: No such file or directory (os error 2)";
    shown_like_run(&here, 2, &format!("workbench: r.plan:2: {words}\n"));
    fs::remove_dir_all(here).expect("removed");
}

#[test]
fn what_is_read_replaces_no_table_no_picture_and_no_page() {
    let here = shop("read-over");
    fs::write(here.join("p.old-table"), "kept").expect("written");
    fs::write(here.join("a.svg"), "<svg>").expect("written");
    let page = "<!DOCTYPE html>\n<title>The run of x</title>\n";
    fs::write(here.join("a.html"), page).expect("written");
    fs::write(here.join("a.json"), "{\n  \"plan\": \"x\"}").expect("written");
    for (to, what) in [
        ("table", "a table's image"),
        ("p.old-table", "a table's image"),
        ("a.svg", "a picture"),
        ("a.html", "a page of a run"),
        ("a.json", "a JSON of odds"),
    ] {
        let words =
            format!("standard input:2: ./{to} is {what}: what is read is not written there");
        let input = format!("start\nread 0 to ./{to}\n");
        refused(&here, &["run"], &input, &words);
    }
    fs::remove_dir_all(here).expect("removed");
}

#[test]
fn a_picture_replaces_no_input_no_platter_and_no_list() {
    let here = shop("pictures-over");
    let lists = "the list of what is drawn";
    let other = "there already, and no picture";
    for (from, to, what) in [
        ("p", "p", "what is drawn"),
        ("p", "hard", "what is drawn"),
        ("p", "soft", "what is drawn"),
        ("hard", "p", "what is drawn"),
        ("p", "p.unreadable", lists),
        ("soft", "p.unreadable", lists),
        ("p", "soft-list", lists),
        ("p", "other", "a platter"),
        (
            "p",
            "other.unreadable",
            "the list of unreadable sectors of other",
        ),
        ("table", "table", "what is drawn"),
        ("table", "p", "a platter"),
        ("table", "p.unreadable", other),
        ("p", "a.image", other),
        ("p", "my.plan", other),
        ("p", ".", "a folder"),
    ] {
        let words = format!("{to} is {what}: the picture is not written there");
        refused(&here, &["picture", from, to], "", &words);
    }
    fs::remove_dir_all(here).expect("removed");
}

#[test]
fn a_timeline_replaces_no_plan_no_data_and_no_platter() {
    let here = shop("timelines-over");
    symlink("my.plan", here.join("plan-link")).expect("a link");
    let data = "start\nwrite 3 file <svg.dat\n";
    fs::write(here.join("data.plan"), data).expect("written");
    for (plan, to, what) in [
        ("my.plan", "my.plan", "the plan that is drawn"),
        ("my.plan", "plan-link", "the plan that is drawn"),
        ("my.plan", "b.plan", "there already, and no picture"),
        ("my.plan", "p", "a platter"),
        ("my.plan", "hard", "a platter"),
        ("data.plan", "<svg.dat", "a file that the plan reads"),
    ] {
        let words = format!("{to} is {what}: the picture is not written there");
        refused(&here, &["timeline", plan, to], "", &words);
    }
    fs::remove_dir_all(here).expect("removed");
}

#[test]
fn pictures_are_drawn_anew_over_those_of_the_workbench_alone() {
    let here = shop("pictures-anew");
    let words = "b.svg is a picture without the workbench's mark (remove it, or name another \
                 file): the picture is not written there";
    for command in [
        vec!["picture", "p"],
        vec!["timeline", "my.plan"],
        odds("my.plan", "--picture"),
    ] {
        for _ in 0..2 {
            workbench(&here, &[&command[..], &["a.svg"]].concat(), "");
        }
        let drawn = fs::read_to_string(here.join("a.svg")).expect("a picture");
        // As it was drawn before pictures had the mark.
        let old = drawn.replacen("<!-- drawn by the workbench -->\n", "", 1);
        assert_ne!(old, drawn);
        for other in [
            old,
            drawn.replacen("<svg", "<?xml version=\"1.0\"?>\n<svg", 1),
        ] {
            fs::write(here.join("b.svg"), other).expect("written");
            refused(&here, &[&command[..], &["b.svg"]].concat(), "", words);
        }
        let (status, _, message) = workbench(&here, &[&command[..], &["a.svg"]].concat(), "");
        assert_eq!((status, message.as_str()), (0, ""), "{command:?}");
    }
    fs::remove_dir_all(here).expect("removed");
}

/// The options of odds, before the name of a file.
fn odds<'a>(plan: &'a str, option: &'a str) -> Vec<&'a str> {
    vec!["odds", plan, "--seeds", "2", "--rate", "1/50", option]
}

#[test]
fn odds_and_pages_replace_no_plan_and_no_platter() {
    let here = shop("odds-over");
    symlink("my.plan", here.join("plan-link")).expect("a link");
    fs::hard_link(here.join("my.plan"), here.join("plan-hard")).expect("a link");
    let plan = "the plan that is run";
    let list = "the list of unreadable sectors of other";
    for (command, what, other) in [
        (
            odds("my.plan", "--json"),
            "the JSON of the odds",
            "JSON of odds",
        ),
        (odds("my.plan", "--picture"), "the picture", "picture"),
        (vec!["report", "my.plan"], "the page", "page of a run"),
    ] {
        let other = format!("there already, and no {other}");
        for (to, why) in [
            ("my.plan", plan),
            ("plan-link", plan),
            ("plan-hard", plan),
            ("b.plan", &other),
            ("a.image", &other),
            ("p.unreadable", &other),
            ("p", "a platter"),
            ("soft", "a platter"),
            ("other.unreadable", list),
            (".", "a folder"),
        ] {
            let words = format!("{to} is {why}: {what} is not written there");
            refused(&here, &[&command[..], &[to]].concat(), "", &words);
        }
    }
    symlink("o", here.join("o-link")).expect("a link");
    for (json, picture) in [("o", "o"), ("o", "./o"), ("o", "o-link"), ("o-link", "./o")] {
        let files = vec![json, "--picture", picture];
        // So many runs would take hours.
        let plan = [
            "odds", "week", "--seeds", "999999", "--rate", "1/50", "--json",
        ];
        let words = [&plan[..], &files].concat();
        refused(&here, &words, "", "--json and --picture go to two files");
    }
    fs::remove_dir_all(here).expect("removed");
}

#[test]
fn odds_and_pages_replace_no_data() {
    let here = shop("odds-data");
    let data = "start\nwrite 3 file odds.dat\nwrite 4 file page.dat\nwrite 5 file <svg.dat\n";
    fs::write(here.join("data.plan"), data).expect("written");
    fs::write(here.join("odds.dat"), "{\n  \"plan\": 1").expect("written");
    let page = "<!DOCTYPE html>\n<title>The run of ";
    fs::write(here.join("page.dat"), page).expect("written");
    for (command, to, what) in [
        (
            odds("data.plan", "--json"),
            "odds.dat",
            "the JSON of the odds",
        ),
        (odds("data.plan", "--picture"), "<svg.dat", "the picture"),
        (vec!["report", "data.plan"], "page.dat", "the page"),
    ] {
        let words = format!("{to} is a file that the plan reads: {what} is not written there");
        refused(&here, &[&command[..], &[to]].concat(), "", &words);
    }
    // A line of the plan does not write over the plan either.
    let plan = "start\nread 5 to my.plan\n";
    fs::write(here.join("my.plan"), plan).expect("written");
    let words = "my.plan is the plan that is run: what is read is not written there";
    let line = format!("my.plan:2: {words}");
    refused(&here, &["report", "my.plan", "o"], "", &line);
    refused(
        &here,
        &[odds("my.plan", "--json"), vec!["o"]].concat(),
        "",
        &line,
    );
    fs::remove_dir_all(here).expect("removed");
}

#[test]
fn odds_and_pages_are_written_anew_through_links() {
    let here = shop("odds-anew");
    fs::create_dir(here.join("far")).expect("a folder");
    let names = ["a.json", "a.svg", "a.html"];
    for name in names {
        symlink(format!("far/{name}"), here.join(name)).expect("a link");
    }
    for _ in 0..2 {
        let files = vec!["a.json", "--picture", "a.svg"];
        done(&here, &[odds("my.plan", "--json"), files].concat(), "");
        done(&here, &["report", "my.plan", "a.html"], "");
        for name in names {
            assert!(here.join(name).is_symlink(), "{name}");
            let far = here.join("far").join(name);
            assert!(fs::metadata(&far).expect("a file").len() > 100, "{name}");
            fs::set_permissions(&far, Permissions::from_mode(0o660)).expect("a mode");
        }
    }
    done(&here, &["report", "my.plan", "a.html"], "");
    assert_eq!(mode(&here.join("far/a.html")), 0o660);
    assert_eq!(fs::read_dir(here.join("far")).expect("a folder").count(), 3);
    fs::remove_dir_all(here).expect("removed");
}

/// Makes a DiskCopy 4.2 image of so many blocks, without tags.
fn diskcopy(blocks: usize) -> Vec<u8> {
    let mut bytes = vec![0; 84 + blocks * 512];
    bytes[64..68].copy_from_slice(&(blocks as u32 * 512).to_be_bytes());
    bytes[82] = 1;
    bytes
}

#[test]
fn a_read_replaces_no_platter_no_list_no_plan_and_no_data() {
    let here = shop("reads-over");
    fs::write(here.join("a.512"), vec![0; 9728 * 512]).expect("written");
    fs::write(here.join("a.dc42"), diskcopy(2)).expect("written");
    let on = ["run", "--platter", "p"];
    let mine = "the platter in use";
    for (to, what) in [
        ("p", mine),
        ("soft", mine),
        ("hard", mine),
        ("other", "a platter"),
        ("p.unreadable", "the list of the platter in use"),
        ("soft-list", "the list of the platter in use"),
        (
            "other.unreadable",
            "the list of unreadable sectors of other",
        ),
        ("a.image", "an image of 9728 blocks"),
        ("a.512", "an image of 9728 blocks"),
        ("a.dc42", "a DiskCopy 4.2 image"),
        (".", "a folder"),
    ] {
        let words = format!("standard input:2: {to} is {what}: what is read is not written there");
        refused(&here, &on, &format!("start\nread 5 to {to}\n"), &words);
    }
    let words = "standard input:2: p is a platter: what is read is not written there";
    refused(&here, &["run"], "start\nread 5 to p\n", words);
    fs::write(here.join("my.plan"), "start\nread 5 to my.plan\n").expect("written");
    let words = "my.plan:2: my.plan is the plan that is run: what is read is not written there";
    refused(&here, &["run", "my.plan"], "", words);
    let words = "standard input:3: <svg.dat is a file that the plan reads: what is read is not \
                 written there";
    let plan = "start\nwrite 3 file <svg.dat\nread 3 to <svg.dat\n";
    refused(&here, &["run"], plan, words);
    fs::remove_dir_all(here).expect("removed");
}

#[test]
fn a_read_replaces_what_it_wrote_before() {
    let here = shop("reads-again");
    let on = ["run", "--platter", "p"];
    let plan =
        "start\nwrite 3..4 \"two\"\nread 3..4 to back\nwrite 5..6 file back\nread 3 to back\n\
                compare 3 with file back\nread 3..4 to back\n";
    for _ in 0..2 {
        done(&here, &on, plan);
        assert_eq!(fs::read(here.join("back")).expect("bytes").len(), 1064);
    }
    // A run that begins with another length finds what an earlier one left.
    let words = "standard input:2: back is there already, with 1064 bytes and not 532 (remove it, \
                 or name another file): what is read is not written there";
    refused(
        &here,
        &on,
        "start\nread 3 to back\nread 3..4 to back\n",
        words,
    );
    fs::remove_dir_all(here).expect("removed");
}

#[test]
fn a_read_replaces_nothing_of_another_length() {
    let here = shop("reads-length");
    fs::write(here.join("front.dat"), [7; 5320]).expect("written");
    fs::write(here.join("cut.image"), vec![7; 5_000_000]).expect("written");
    fs::write(here.join("run.sh"), "./workbench week\n").expect("written");
    fs::write(here.join("empty"), "").expect("written");
    symlink("front.dat", here.join("front-link")).expect("a link");
    for (to, length) in [
        ("front.dat", 5320),
        ("front-link", 5320),
        ("cut.image", 5_000_000),
        ("run.sh", 17),
        ("b.plan", 6),
    ] {
        let words = format!(
            "standard input:2: {to} is there already, with {length} bytes and not 2660 (remove \
             it, or name another file): what is read is not written there"
        );
        let plan = format!("start\nread 0..4 to {to}\nwrite 0..9 file front.dat\n");
        refused(&here, &["run"], &plan, &words);
    }
    // What has nothing in it loses nothing.
    let out = done(&here, &["run"], "start\nread 0..4 to empty\n");
    assert!(out.contains("  2660 bytes written to empty\n"), "{out}");
    fs::remove_dir_all(here).expect("removed");
}

#[test]
fn redirected_input_and_output_are_not_replaced() {
    let here = shop("redirected");
    let shell = |line: &str| {
        let mut command = Command::new("sh");
        let output = ended(command.args(["-c", line]).arg(program()), &here, "");
        String::from_utf8(output.stderr).expect("text")
    };
    for (to, what) in [
        ("in.plan", "the plan that is run"),
        ("out", "where the output goes"),
    ] {
        let plan = format!("start\nread 5 to {to}\n");
        fs::write(here.join("in.plan"), &plan).expect("written");
        let message = shell("\"$0\" run <in.plan >out");
        let words = format!("{to} is {what}: what is read is not written there");
        assert_eq!(message, format!("workbench: standard input:2: {words}\n"));
        assert_eq!(
            fs::read_to_string(here.join("in.plan")).expect("text"),
            plan
        );
        let out = fs::read_to_string(here.join("out")).expect("text");
        assert!(out.starts_with("start: "), "{out}");
    }
    let message = shell("\"$0\" report my.plan out >out");
    let words = "out is where the output goes: the page is not written there";
    assert_eq!(message, format!("workbench: {words}\n"));
    fs::remove_dir_all(here).expect("removed");
}

/// No device is named here: a program that went wrong would replace it, if root tests it.
#[test]
fn pipes_are_read_and_written() {
    let here = shop("pipes");
    let shell = |line: &str| {
        let mut command = Command::new("sh");
        let output = ended(command.args(["-c", line]).arg(program()), &here, "");
        assert!(output.status.success(), "{line}: {output:?}");
        String::from_utf8(output.stdout).expect("text")
    };
    symlink("/proc/self/fd/0", here.join("in")).expect("a link");
    symlink("/proc/self/fd/1", here.join("out")).expect("a link");
    for name in ["p", "table"] {
        let shown = shell(&format!("cat {name} | \"$0\" table in"));
        assert!(shown.starts_with("in: form B, run number 0, "));
        let svg = shell(&format!("cat {name} | \"$0\" picture in out | cat"));
        assert!(svg.starts_with("<svg") && svg.ends_with("</svg>\n"));
    }
    shell("mkfifo pipe");
    let read =
        shell("printf 'start\\nread 18 to pipe\\n' | \"$0\" run --platter p >said & cat pipe");
    assert!(read.starts_with("one, block 18. "), "{read}");
    assert!(fs::metadata(here.join("pipe")).is_ok_and(|pipe| !pipe.is_file()));
    for name in ["pipe", "."] {
        let words = format!("workbench: {name} is no plain file: nothing is done\n");
        let refused = workbench(&here, &["run", "--platter", name], "start\n");
        assert_eq!(refused, (2, String::new(), words));
    }
    fs::remove_dir_all(here).expect("removed");
}

#[test]
fn new_files_replace_nothing_and_are_no_lists() {
    let here = shop("new-files");
    let there = "there already (remove it, or name another file)";
    let list = "the list of unreadable sectors of p";
    let platter = "a platter (name another file)";
    let exported = "the platter that is exported (name another file)";
    let taken_off = "the platter whose table is taken off (name another file)";
    for (command, what, p) in [
        (&["export", "p"][..], "the image", exported),
        (
            &["export", "--form", "diskcopy", "hard"],
            "the image",
            exported,
        ),
        (
            &["export", "--form", "raw512", "soft"],
            "the image",
            exported,
        ),
        (&["table", "p", "--to"], "the table", taken_off),
        (&["convert", "table"], "the table", platter),
        (&["import", "a.image"], "the platter", platter),
    ] {
        for (to, why) in [
            ("p", p),
            ("soft", p),
            ("other", platter),
            ("my.plan", there),
            ("p.unreadable", list),
            ("soft-list", list),
        ] {
            let words = format!("{to} is {why}: {what} is not written there");
            refused(&here, &[command, &[to]].concat(), "", &words);
        }
    }
    fs::remove_file(here.join("p.unreadable")).expect("removed");
    let words = format!("soft-list is {list}: the image is not written there");
    refused(&here, &["export", "other", "soft-list"], "", &words);
    fs::remove_dir_all(here).expect("removed");
}

#[test]
fn nobody_is_told_to_remove_what_holds_a_drives_data() {
    let here = shop("must-stay");
    fs::write(here.join("a.dc42"), diskcopy(2)).expect("written");
    symlink("table", here.join("table-link")).expect("a link");
    for (command, why, what) in [
        (["convert", "table", "table"], "what is converted", "table"),
        (
            ["convert", "table", "table-link"],
            "what is converted",
            "table",
        ),
        (["import", "p", "p"], "what is imported", "platter"),
        (
            ["import", "a.image", "a.image"],
            "what is imported",
            "platter",
        ),
        (["import", "a.image", "table"], "a table's image", "platter"),
        (
            ["export", "p", "a.image"],
            "an image of 9728 blocks",
            "image",
        ),
        (["export", "p", "a.dc42"], "a DiskCopy 4.2 image", "image"),
    ] {
        let words = format!(
            "{} is {why} (name another file): the {what} is not written there",
            command[2]
        );
        refused(&here, &command, "", &words);
    }
    fs::remove_dir_all(here).expect("removed");
}

#[test]
fn a_platter_is_made_neither_as_a_list_nor_beside_one() {
    let here = shop("lists-alone");
    fs::remove_file(here.join("p.unreadable")).expect("removed");
    let words = "p.unreadable is the list of unreadable sectors of p: the platter is not written \
                 there";
    refused(
        &here,
        &["run", "--platter", "p.unreadable"],
        "start\n",
        words,
    );
    fs::write(here.join("moved.unreadable"), "17\n").expect("written");
    let words = "moved.unreadable lists the unreadable sectors of a platter that is not there: no \
                 platter moved is made; move or remove the list first";
    for arguments in [
        ["import", "a.image", "moved"],
        ["run", "--platter", "moved"],
    ] {
        refused(&here, &arguments, "start\n", words);
    }
    fs::remove_dir_all(here).expect("removed");
}

fn mode(path: &Path) -> u32 {
    fs::metadata(path).expect("a file").mode() & 0o7777
}

#[test]
fn links_and_modes_stay() {
    let here = shop("stay");
    fs::create_dir(here.join("far")).expect("a folder");
    fs::rename(here.join("p"), here.join("far/p")).expect("moved");
    fs::rename(here.join("p.unreadable"), here.join("far/p.unreadable")).expect("moved");
    for (name, mode) in [("far/p", 0o640), ("far/p.unreadable", 0o600)] {
        fs::set_permissions(here.join(name), Permissions::from_mode(mode)).expect("a mode");
    }
    symlink("far/p", here.join("p")).expect("a link");
    for name in ["a.svg", "a.dat"] {
        symlink(format!("far/{name}"), here.join(name)).expect("a link");
    }
    let plan = "fault sector 19 writes all unreadable\nstart\nwrite 19 \"one\"\nread 5 to a.dat\n";
    for _ in 0..2 {
        let (status, _, message) = workbench(&here, &["run", "--platter", "p"], plan);
        assert_eq!((status, message.as_str()), (0, ""));
        let (status, _, message) = workbench(&here, &["picture", "p", "a.svg"], "");
        assert_eq!((status, message.as_str()), (0, ""));
        for name in ["p", "a.svg", "a.dat"] {
            assert!(here.join(name).is_symlink(), "{name}");
        }
        let list = fs::read_to_string(here.join("far/p.unreadable"));
        assert_eq!(list.expect("a list"), "17\n19\n");
        assert_eq!(mode(&here.join("far/p")), 0o640);
        assert_eq!(mode(&here.join("far/p.unreadable")), 0o600);
        assert_eq!(fs::read_dir(here.join("far")).expect("a folder").count(), 4);
        fs::set_permissions(here.join("far/a.svg"), Permissions::from_mode(0o666)).expect("a mode");
    }
    workbench(&here, &["picture", "p", "a.svg"], "");
    assert_eq!(mode(&here.join("far/a.svg")), 0o666);
    fs::remove_dir_all(here).expect("removed");
}

#[test]
fn a_table_is_put_through_a_link_and_nothing_is_replaced() {
    let here = shop("put-linked");
    fs::set_permissions(here.join("p"), Permissions::from_mode(0o600)).expect("a mode");
    // These names are taken, by a link that leads nowhere and by a file.
    symlink("none", here.join("p.old-table")).expect("a link");
    fs::write(here.join("p.old-table.2"), "mine").expect("written");
    let before = all(&here);
    let out = done(&here, &["put-table", "--replace", "--empty", "soft"], "");
    assert!(out.contains(" are in p.old-table.3\n"), "{out}");
    let mut after = all(&here);
    assert_eq!(
        after.remove(&here.join("p.old-table.3")),
        before.get(&here.join("table")).cloned()
    );
    assert!(after == before, "the empty table was empty before");
    for name in ["p", "p.old-table.3"] {
        assert_eq!(mode(&here.join(name)), 0o600, "{name}");
    }
    assert!(here.join("soft").is_symlink());
    fs::remove_dir_all(here).expect("removed");
}

#[test]
fn what_is_protected_is_not_replaced() {
    let here = shop("protected");
    workbench(&here, &["picture", "p", "a.svg"], "");
    for name in ["p", "a.svg"] {
        fs::set_permissions(here.join(name), Permissions::from_mode(0o444)).expect("a mode");
    }
    let words = "a.svg cannot be written: it is write-protected";
    refused(&here, &["picture", "p", "a.svg"], "", words);
    let words = "standard input:2: p cannot be written: it is write-protected";
    refused(
        &here,
        &["run", "--platter", "p"],
        "start\nwrite 5 00\n",
        words,
    );
    // It can be read.
    let (status, _, message) = workbench(&here, &["run", "--platter", "p"], "start\nread 18\n");
    assert_eq!((status, message.as_str()), (0, ""));
    fs::remove_dir_all(here).expect("removed");
}

/// Begins a run on a platter that waits for lines after its first, which is done.
fn begun(here: &Path, platter: &str) -> (Child, impl Iterator<Item = String>) {
    let mut child = Command::new(program())
        .args(["run", "--platter", platter])
        .current_dir(here)
        .stdin(Stdio::piped())
        .stdout(Stdio::piped())
        .spawn()
        .expect("the command");
    let lines = BufReader::new(child.stdout.take().expect("a pipe")).lines();
    let mut lines = lines.map(|line| line.expect("a line"));
    line(&mut child, "start");
    assert!(lines.next().is_some_and(|line| line.starts_with("start: ")));
    (child, lines)
}

/// Gives a run a line.
fn line(child: &mut Child, text: &str) {
    let pipe = child.stdin.as_mut().expect("a pipe");
    writeln!(pipe, "{text}").expect("a line");
}

#[test]
fn a_platter_in_use_is_left_to_its_run() {
    let here = shop("in-use");
    let (mut child, mut lines) = begun(&here, "soft");
    for save in 0..3 {
        line(&mut child, &format!("write {save} \"mine\""));
        assert!(lines.next().is_some_and(|line| line.starts_with("write ")));
        for name in ["p", "soft"] {
            let words = format!("{name} is in use by another workbench: nothing is done");
            for arguments in [
                &["run", "--platter", name][..],
                &["table", name],
                &["table", name, "--to", "new.table"],
                &["put-table", "--replace", "table", name],
                &["put-table", "--replace", "--empty", name],
                &["export", name, "new.image"],
                &["export", "--form", "diskcopy", name, "new.image"],
                &["picture", name, "new.svg"],
            ] {
                refused(&here, arguments, "start\nwrite 0 \"theirs\"\n", &words);
            }
        }
    }
    drop(child.stdin.take());
    assert!(child.wait().expect("its end").success());
    let plan = "start\ncompare 0..2 with \"mine\"\n";
    let (status, _, message) = workbench(&here, &["run", "--platter", "p"], plan);
    assert_eq!((status, message.as_str()), (0, ""));
    assert!(!here.join("new.image").exists() && !here.join("new.svg").exists());
    fs::remove_dir_all(here).expect("removed");
}

#[test]
fn a_platter_of_a_killed_run_is_free_and_no_lock_stays() {
    let here = shop("killed-lock");
    let before = all(&here).len();
    let (mut child, _) = begun(&here, "p");
    child.kill().expect("killed");
    child.wait().expect("its end");
    assert_eq!(all(&here).len(), before);
    assert_eq!(workbench(&here, &["table", "p"], "").0, 0);
    assert_eq!(workbench(&here, &["run", "--platter", "p"], "start\n").0, 0);
    fs::remove_dir_all(here).expect("removed");
}
