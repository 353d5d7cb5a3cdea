//! Rescue by the command itself: tables taken off and put back, and a platter whose table
//! is gone.

mod common;

use std::fs;
use std::path::PathBuf;

use common::{done, folder, workbench};

const GUIDE: &str = include_str!("../../../docs/WORKBENCH.md");

const ON_P: [&str; 3] = ["run", "--platter", "p"];

/// Makes a platter whose block 17 lives in spare 0, and takes its table off to `t`. Then
/// block 300 moves too, and the power fails during the store.
fn with_lost_table(name: &str) -> PathBuf {
    let here = folder(name);
    let moves = "start\nwrite 0..400 \"old\"\nfault sector 17 writes all unreadable\n\
                 write-verify 17 \"new\"\n";
    done(&here, &ON_P, moves);
    let said = "t: the table of p, form B, run number 1, 1 of 32 spares used, no bad block\n";
    assert_eq!(done(&here, &["table", "p", "--to", "t"], ""), said);
    let cut = "start\nfault sector 300 writes all timeout\n\
               power fails during the store unreadable\nwrite-verify 300 \"new\"\n";
    done(&here, &ON_P, cut);
    here
}

/// Checks that the message says what can be had.
fn helps(message: &str) {
    for words in [
        "workbench: p has no good table, ",
        "\n  workbench export --without-table p IMAGE\n",
        "one that moved comes with old bytes or none\n",
        "\n  workbench export --spares p FILE\n    the 32 spares, sectors 4928..4959, with the newest bytes \
         of the blocks that moved; of\n",
        "\n  workbench put-table FILE p\n",
        "a block that moved since is then read from its old\n    sector, and the old bytes there look good\n",
        "\n  workbench put-table --empty p\n",
    ] {
        assert!(message.contains(words), "{words:?}: {message}");
    }
}

#[test]
fn the_guide_shows_what_can_be_had() {
    let here = with_lost_table("guide");
    fs::rename(here.join("p"), here.join("shop.platter")).expect("renamed");
    let (from, to) = ("p.unreadable", "shop.platter.unreadable");
    fs::rename(here.join(from), here.join(to)).expect("renamed");
    let (_, _, message) = workbench(&here, &["table", "shop.platter"], "");
    let shown: String = message
        .lines()
        .map(|line| format!("    {line}\n"))
        .collect();
    assert!(
        shown.lines().count() > 9 && GUIDE.contains(&shown),
        "{shown}"
    );
    fs::remove_dir_all(here).expect("removed");
}

#[test]
fn a_lost_table_is_not_the_end() {
    let here = with_lost_table("helped");
    for arguments in [
        &["table", "p"][..],
        &["table", "p", "--to", "u"],
        &["export", "p", "u"],
    ] {
        let (status, out, message) = workbench(&here, arguments, "");
        assert_eq!((status, out.as_str()), (2, ""));
        helps(&message);
        assert!(message.contains("since sector 4960 is unreadable"));
        assert!(!here.join("u").exists());
    }
    // A table that can be read and is none is helped in the same way.
    let mut platter = fs::read(here.join("p")).expect("a platter");
    platter[4960 * 532 + 531] ^= 1;
    fs::write(here.join("p"), platter).expect("written");
    fs::write(here.join("p.unreadable"), "17\n").expect("written");
    for arguments in [&["table", "p"][..], &["export", "p", "u"]] {
        let (status, _, message) = workbench(&here, arguments, "");
        assert_eq!(status, 2);
        helps(&message);
        assert!(
            message.contains("code 7: the sum of form B is wrong"),
            "{message}"
        );
    }
    let (status, out, message) = workbench(&here, &["table", "p", "--to", "u"], "");
    let said = "u: the bytes of sector 4960 of p as they stand\n";
    assert_eq!((status, out.as_str()), (1, said));
    helps(&message);
    assert_eq!(fs::read(here.join("u")).expect("bytes").len(), 532);
    fs::remove_dir_all(here).expect("removed");
}

/// Reads a block of an image.
fn block(image: &[u8], number: usize) -> &[u8] {
    &image[number * 532..][..532]
}

#[test]
fn the_blocks_come_from_their_home_sectors() {
    let here = with_lost_table("homes");
    let before = fs::read(here.join("p")).expect("a platter");
    let (status, out, message) = workbench(&here, &["export", "--without-table", "p", "a"], "");
    assert_eq!((status, out.as_str()), (1, ""));
    let said =
        "workbench: p: blocks that cannot be read: 17; a was not written (with --keep-going \
                it has zeros for them)\n";
    assert_eq!(message, said);
    assert!(!here.join("a").exists());
    let words = ["export", "--without-table", "--keep-going", "p", "a"];
    let (status, out, message) = workbench(&here, &words, "");
    let said = "a: 9727 of the 9728 blocks of p\n  each block is as it is in its home sector: \
                one that moved comes with old bytes or none, and nobody knows which moved\n  \
                bytes other than zeros are in spares 0..1 (sectors 4928..4929)\n  \
                (the newest of blocks that moved; workbench export --spares p FILE takes them \
                off)\n";
    assert_eq!((status, out.as_str()), (1, said));
    assert!(
        message.ends_with("cannot be read: 17; a has zeros for them\n"),
        "{message}"
    );
    let image = fs::read(here.join("a")).expect("an image");
    assert_eq!(image.len(), 9728 * 532);
    assert!(block(&image, 16) == block(&before, 16) && block(&image, 17) == [0; 532]);
    // Block 300 moved: these are its old bytes, with its own number in them.
    assert!(block(&image, 300).starts_with(b"old"));
    assert!(fs::read(here.join("p")).expect("a platter") == before);
    fs::remove_dir_all(here).expect("removed");
}

#[test]
fn the_newest_bytes_of_moved_blocks_come_from_the_spares() {
    let here = with_lost_table("spares");
    let before = fs::read(here.join("p")).expect("a platter");
    let take = ["export", "--spares", "p", "spares.dat"];
    let out = done(&here, &take, "");
    let said = "spares.dat: spares 0..31 (sectors 4928..4959) of p\n  \
                bytes other than zeros are in spares 0..1 (sectors 4928..4929)\n";
    assert_eq!(out, said);
    let spares = fs::read(here.join("spares.dat")).expect("spares");
    assert_eq!(spares.len(), 32 * 532);
    assert!(block(&spares, 0).starts_with(b"new, block 17. "));
    assert!(block(&spares, 1).starts_with(b"new, block 300. "));
    assert!(fs::read(here.join("p")).expect("a platter") == before);
    let (status, out, message) = workbench(&here, &take, "");
    assert_eq!((status, out.as_str()), (2, ""));
    let words = "what the spares hold is not written there\n";
    assert!(message.ends_with(words), "{message}");
    // An empty table and two writes bring all back, as the guide says.
    done(&here, &["put-table", "--empty", "p"], "");
    let plan = "start\nwrite 17 file spares.dat\nwrite 300 file spares.dat at 532\n\
                compare 17 with \"new\"\ncompare 300 with \"new\"\n";
    done(&here, &ON_P, plan);
    assert!(GUIDE.contains("\n    write 300 file spares.dat at 532\n"));
    fs::remove_dir_all(here).expect("removed");
}

#[test]
fn a_spare_that_cannot_be_read_comes_as_zeros() {
    let here = with_lost_table("lost-spare");
    fs::write(here.join("p.unreadable"), "4928\n4960\n").expect("written");
    let (status, out, message) = workbench(&here, &["export", "--spares", "p", "s"], "");
    assert_eq!(status, 1);
    let said =
        "s: spares 0..31 (sectors 4928..4959) of p\n  bytes other than zeros are in spare 1 \
                (sector 4929)\n";
    assert_eq!(out, said);
    let said = "workbench: p: what cannot be read: spare 0 (sector 4928); s has zeros there\n";
    assert_eq!(message, said);
    let spares = fs::read(here.join("s")).expect("spares");
    assert!(block(&spares, 0) == [0; 532] && block(&spares, 1).starts_with(b"new"));
    fs::remove_dir_all(here).expect("removed");
}

#[test]
fn a_table_that_was_taken_off_is_put_back() {
    let here = with_lost_table("put-back");
    let out = done(&here, &["put-table", "t", "p"], "");
    let said = "p: the table of t, form B, run number 1, 1 of 32 spares used, no bad block\n  \
                sector 4960 was unreadable; what was last sent to it is in p.old-table\n  \
                a block that moved since this table was stored is now read from its old sector, \
                and the old bytes there look good\n";
    assert_eq!(out, said);
    let list = fs::read_to_string(here.join("p.unreadable")).expect("a list");
    assert_eq!(list, "17\n");
    // Block 17 is where it was, and 300 has its old bytes, as the warning says.
    let read = "start\ncompare 17 with \"new\"\ncompare 300 with \"old\"\nexpect good\n";
    let out = done(&here, &ON_P, read);
    assert!(out.contains("block 17 lives in spare 0"), "{out}");
    let (status, _, message) = workbench(&here, &["put-table", "t", "p"], "");
    assert_eq!(status, 2);
    let said = "workbench: p has a good table, form B, run number 1, 1 of 32 spares used, no bad \
                block; --replace puts another in its place\n";
    assert_eq!(message, said);
    // Here the bytes of the unreadable sector are kept, and have both moves.
    let out = done(&here, &["put-table", "--replace", "p.old-table", "p"], "");
    assert!(
        out.contains("\n  the 532 bytes that stood there are in p.old-table.2\n"),
        "{out}"
    );
    assert!(out.ends_with("where other bytes look good: 300\n"), "{out}");
    done(&here, &ON_P, "start\ncompare 300 with \"new\"\n");
    assert!(fs::read(here.join("p.old-table.2")).ok() == fs::read(here.join("t")).ok());
    fs::remove_dir_all(here).expect("removed");
}

#[test]
fn an_empty_table_makes_the_drive_usable() {
    let here = with_lost_table("emptied");
    let write = "start\nwrite 5 \"again\"\nexpect good\n";
    let (status, out, _) = workbench(&here, &ON_P, write);
    assert_eq!(status, 1, "no table, no good write");
    let words = "\n  no table; workbench table p says what can be had\n";
    assert!(out.contains(words), "{out}");
    let out = done(&here, &["put-table", "--empty", "p"], "");
    assert!(
        out.starts_with("p: an empty table, form B, run number 0, no spare used, no bad block\n")
    );
    assert!(
        out.contains("read from its home sector, and the old bytes there look good"),
        "{out}"
    );
    done(&here, &ON_P, write);
    let (status, _, message) = workbench(&here, &["put-table", "--empty", "p"], "");
    assert_eq!(status, 2);
    assert!(
        message.contains("--replace puts another in its place"),
        "{message}"
    );
    let (status, _, message) = workbench(&here, &["export", "--without-table", "p", "a"], "");
    assert_eq!(status, 2);
    assert!(message.contains("p has a good table, "), "{message}");
    done(&here, &["put-table", "--empty", "--replace", "p"], "");
    assert!(here.join("p.old-table").exists() && here.join("p.old-table.2").exists());
    fs::remove_dir_all(here).expect("removed");
}

#[test]
fn what_is_no_table_is_not_put() {
    let here = with_lost_table("not-put");
    let table = fs::read(here.join("t")).expect("a table");
    let before = fs::read(here.join("p")).expect("a platter");
    let mut wrong = table.clone();
    wrong[531] ^= 1;
    for (bytes, words) in [
        (
            &table[..531],
            "code 2: it has 531 bytes, and an image has 532\n",
        ),
        (&[0; 532], "code 6: "),
        (&wrong, "code 7: the sum of form B is wrong\n"),
    ] {
        fs::write(here.join("x"), bytes).expect("written");
        let (status, out, message) = workbench(&here, &["put-table", "x", "p"], "");
        assert_eq!((status, out.as_str()), (2, ""));
        let words = format!("workbench: x is no table's image, {words}");
        assert!(message.starts_with(&words), "{message}");
        assert!(fs::read(here.join("p")).expect("a platter") == before);
        assert!(!here.join("p.old-table").exists());
    }
    fs::remove_dir_all(here).expect("removed");
}
