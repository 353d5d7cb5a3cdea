//! Images by the command itself: each form there and back, and files that are none or
//! broken.

mod common;

use std::fs;
use std::path::Path;

use common::{done, folder, workbench};

const GUIDE: &str = include_str!("../../../docs/WORKBENCH.md");

const BLOCKS: usize = 9728;

/// Makes the data of all blocks, and the tags of all.
fn parts() -> (Vec<u8>, Vec<u8>) {
    let byte = |at: usize| (at / 7 + at / 512) as u8;
    let data = (0..BLOCKS * 512).map(byte).collect();
    let tags = (0..BLOCKS * 20).map(|at| byte(at * 3) | 1).collect();
    (data, tags)
}

/// Computes a checksum of DiskCopy, bit by bit as its description has it.
fn checksum(bytes: &[u8]) -> u32 {
    let mut sum: u64 = 0;
    for word in bytes.chunks(2) {
        sum = (sum + u64::from(word[0]) * 256 + u64::from(word[1])) % (1 << 32);
        sum = sum / 2 + (sum % 2) * (1 << 31);
    }
    sum as u32
}

/// Makes a DiskCopy 4.2 image.
fn diskcopy(name: &str, data: &[u8], tags: &[u8]) -> Vec<u8> {
    let mut bytes = vec![name.len() as u8];
    bytes.extend_from_slice(name.as_bytes());
    bytes.resize(64, 0);
    let tag_sum = checksum(tags.get(12..).unwrap_or_default());
    let sizes = [data.len() as u32, tags.len() as u32];
    for number in [sizes[0], sizes[1], checksum(data), tag_sum] {
        bytes.extend(number.to_be_bytes());
    }
    bytes.extend([0xFF, 0xFF, 1, 0]);
    [&bytes, data, tags].concat()
}

/// Puts tags before the data of each block.
fn whole(data: &[u8], tags: &[u8]) -> Vec<u8> {
    let blocks = tags.chunks(20).zip(data.chunks(512));
    let blocks = blocks.flat_map(|(tag, data)| [tag, data].concat());
    blocks.collect()
}

/// Checks that the guide shows what is said of an image with a header.
fn is_in_the_guide(said: &str) {
    for line in said.lines() {
        let named = line.replace("a.dc42", "profile.dc42");
        let named = named.replace("Shop.platter", "shop.platter");
        assert!(GUIDE.contains(&format!("    {named}\n")), "{named}");
    }
}

#[test]
fn every_form_comes_back_from_every_other() {
    let here = folder("forms");
    let (data, tags) = parts();
    let raw532 = whole(&data, &tags);
    let shop = diskcopy("Shop", &data, &tags);
    fs::write(here.join("a.532"), &raw532).expect("written");
    fs::write(here.join("a.dc42"), &shop).expect("written");
    let out = done(&here, &["import", "a.532", "from532"], "");
    let said = "a.532: an image of 9728 blocks of 532 bytes\n\
                from532: the 9728 blocks of a.532, with an empty table\n";
    assert_eq!(out, said);
    let out = done(&here, &["import", "a.dc42", "Shop.platter"], "");
    let said =
        "a.dc42: a DiskCopy 4.2 image \"Shop\" of 9728 blocks of 512 bytes with tags of 20\n\
                Shop.platter: the 9728 blocks of a.dc42, the tags before the 512 bytes of each, \
                with an empty table\n";
    assert_eq!(out, said);
    is_in_the_guide(&out);
    let read = |name| fs::read(here.join(name)).expect("a file");
    assert!(read("from532") == read("Shop.platter"));

    let out = done(&here, &["export", "Shop.platter", "b.532"], "");
    assert_eq!(out, "b.532: the 9728 blocks of Shop.platter\n");
    assert!(read("b.532") == raw532);
    let words = ["export", "--form", "diskcopy", "Shop.platter", "b.dc42"];
    let said = "b.dc42: the 9728 blocks of Shop.platter, as a DiskCopy 4.2 image with tags of 20\n";
    assert_eq!(done(&here, &words, ""), said);
    assert!(read("b.dc42") == shop);
    let words = ["export", "Shop.platter", "b.512", "--form", "raw512"];
    let out = done(&here, &words, "");
    let said = "b.512: the 9728 blocks of Shop.platter, the 512 data bytes of each\n";
    assert!(out.starts_with(said), "{out}");
    let said =
        "were left out; they are not zero in blocks 0..9727\n  (--form diskcopy keeps them; ";
    assert!(out.contains(said), "{out}");
    assert!(read("b.512") == data);
    fs::remove_dir_all(here).expect("removed");
}

#[test]
fn blocks_without_tags_get_zeros_before_or_behind_them() {
    let here = folder("no-tags");
    let (data, _) = parts();
    fs::write(here.join("a.512"), &data).expect("written");
    fs::write(here.join("a.dc42"), diskcopy("", &data, &[])).expect("written");
    let out = done(&here, &["import", "a.512", "p"], "");
    let said =
        "a.512: an image of 9728 blocks of 512 bytes\np: the 9728 blocks of a.512, 20 zeros \
                before the 512 bytes of each, with an empty table\n";
    assert_eq!(out, said);
    done(&here, &["import", "--tags", "last", "a.dc42", "q"], "");
    let read = |name| fs::read(here.join(name)).expect("a file");
    let (first, last) = (read("p"), read("q"));
    assert!(first[532..552] == [0; 20] && first[552..1064] == data[512..1024]);
    assert!(last[532..1044] == data[512..1024] && last[1044..1064] == [0; 20]);
    let words = ["export", "--form", "raw512", "p", "p.512"];
    let said = "p.512: the 9728 blocks of p, the 512 data bytes of each\n";
    assert_eq!(done(&here, &words, ""), said);
    let words = ["export", "--tags", "last", "--form", "raw512", "q", "q.512"];
    done(&here, &words, "");
    assert!(read("p.512") == data && read("q.512") == data);
    fs::remove_dir_all(here).expect("removed");
}

/// Writes a file, and checks that it cannot be imported and leaves nothing.
fn is_refused(here: &Path, bytes: &[u8], words: &str) {
    fs::write(here.join("x"), bytes).expect("written");
    let (status, out, message) = workbench(here, &["import", "x", "p"], "");
    assert_eq!((status, out.as_str()), (2, ""), "{message}");
    let words = format!("workbench: x {words}");
    assert!(message.starts_with(&words), "{message}");
    assert_eq!(fs::read_dir(here).expect("a folder").count(), 1);
}

#[test]
fn broken_images_are_refused() {
    let here = folder("broken");
    let (data, tags) = parts();
    let good = diskcopy("Shop", &data, &tags);
    let changed = |place: usize| {
        let mut bytes = good.clone();
        bytes[place] ^= 2;
        bytes
    };
    let header = "is no good DiskCopy 4.2 image: ";
    let short = "its header says 4980736 bytes of data and 194560 of tags, which makes 5175380 in \
                 all, and the file has 5175379";
    is_refused(
        &here,
        &good[..good.len() - 1],
        &format!("{header}{short}\n"),
    );
    let size = "its header says 4981248 bytes of data and 194560 of tags, which makes 5175892 in \
                all, and the file has 5175380";
    is_refused(&here, &changed(66), &format!("{header}{size}\n"));
    let magic = "bytes 82 and 83 are 03 00 and not 01 00";
    is_refused(&here, &changed(82), &format!("{header}{magic}\n"));
    let floppy = diskcopy("Floppy", &data[..800 * 512], &tags[..800 * 12]);
    is_refused(
        &here,
        &floppy,
        &format!("{header}each block has 12 tag bytes, "),
    );
    fs::remove_dir_all(here).expect("removed");
}

#[test]
fn images_of_another_size_are_refused() {
    let here = folder("other-sizes");
    let (data, tags) = parts();
    let big = diskcopy("Big", &data.repeat(2), &[]);
    let words =
        "is a DiskCopy 4.2 image \"Big\" of 19456 blocks of 512 bytes without tags, and the \
                 drive has 9728 blocks\n";
    is_refused(&here, &big, words);
    let raw532 = whole(&data, &tags);
    let words = "has 5175295 bytes and is no image that is known; it begins with ";
    is_refused(&here, &raw532[..raw532.len() - 1], words);
    let words = "has 4980735 bytes and is no image that is known; it begins with ";
    is_refused(&here, &data[1..], words);
    fs::remove_dir_all(here).expect("removed");
}

#[test]
fn wrong_checksums_are_told_and_refused_unless_it_is_to_go_on() {
    let here = folder("wrong-sums");
    let (data, tags) = parts();
    let good = diskcopy("Shop", &data[..1024], &tags[..40]);
    for (place, part) in [
        (84, "data"),
        (72, "data"),
        (84 + 1024 + 12, "tags"),
        (79, "tags"),
    ] {
        let mut bytes = good.clone();
        bytes[place] ^= 1;
        fs::write(here.join("x"), &bytes).expect("written");
        let (status, out, message) = workbench(&here, &["import", "x", "p"], "");
        assert_eq!((status, out.as_str()), (2, ""));
        let told = format!(" for its {part}, which have ");
        assert!(message.contains(&told), "{message}");
        assert!(message.ends_with("with --keep-going it is imported all the same\n"));
        assert!(!here.join("p").exists());
        let (status, out, message) = workbench(&here, &["import", "--keep-going", "x", "p"], "");
        assert_eq!((status, out.lines().count()), (1, 2));
        assert!(message.starts_with("workbench: x: the header has the checksum "));
        assert!(message.contains(&told), "{message}");
        fs::remove_file(here.join("p")).expect("a platter");
    }
    // The tags' checksum leaves out the first 12 bytes.
    let mut bytes = good.clone();
    bytes[84 + 1024 + 11] ^= 1;
    fs::write(here.join("x"), &bytes).expect("written");
    done(&here, &["import", "x", "p"], "");
    fs::remove_dir_all(here).expect("removed");
}

#[test]
fn an_image_in_the_place_of_a_platter_is_pointed_to_import() {
    let here = folder("points");
    fs::write(here.join("a.532"), vec![0; BLOCKS * 532]).expect("written");
    fs::write(here.join("a.512"), vec![0; BLOCKS * 512]).expect("written");
    fs::write(here.join("a.dc42"), diskcopy("Shop", &[1; 512], &[])).expect("written");
    for (name, what) in [
        ("a.532", "an image of 9728 blocks of 532 bytes and"),
        ("a.512", "an image of 9728 blocks of 512 bytes and"),
        (
            "a.dc42",
            "a DiskCopy 4.2 image \"Shop\" of 1 block of 512 bytes without tags, and",
        ),
    ] {
        let words =
            format!("workbench: {name} is {what} no platter; workbench import makes one of it\n");
        for arguments in [
            &["run", "--platter", name, "first"][..],
            &["table", name],
            &["table", name, "--to", "t"],
            &["picture", name, "out.svg"],
            &["export", name, "out"],
            &["put-table", "--empty", name],
        ] {
            let refused = workbench(&here, arguments, "");
            assert_eq!(refused, (2, String::new(), words.clone()), "{arguments:?}");
        }
    }
    assert_eq!(fs::read_dir(&here).expect("a folder").count(), 3);
    fs::remove_dir_all(here).expect("removed");
}
