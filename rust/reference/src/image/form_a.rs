//! Form A of a table image (document 01, "Table image").
//!
//! 24 fixed bytes, the two counts, the spare list, an end mark, the bad list, an end
//! mark, and zeros. Entries have 3 bytes, high first. It holds neither a run number
//! nor causes: those of a table read from it are 0.

use super::{number_of, three_bytes, Cause, Entry, Spare, Table, LENGTH};
use crate::geometry::Block;

/// The bytes before the counts: name, three zeros, revision 3.90, 9728 blocks,
/// 532 bytes a sector, 32 spares.
pub const FIXED: [u8; 24] = *b"PROFILE      \x00\x00\x00\x03\x90\x00\x26\x00\x02\x14\x20";

/// What stands after each list.
pub const END: [u8; 3] = [0xFF; 3];

/// Reads a well-formed image; gives nothing if the bytes are none.
pub fn read(bytes: &[u8]) -> Option<Table> {
    if bytes.len() != LENGTH {
        return None;
    }
    let rest = bytes.strip_prefix(&FIXED)?;
    let (&[spare_count, bad_count], rest) = rest.split_first_chunk()?;
    let (spares, rest) = read_list(rest, spare_count.into(), spare_entry)?;
    let (bads, rest) = read_list(rest, bad_count.into(), Block::new)?;
    if rest.iter().any(|&byte| byte != 0) {
        return None;
    }
    Table::new(0, spares, bads)
}

/// Reads `count` entries and the end mark; hands back the entries and what
/// stands behind them.
fn read_list<T>(
    bytes: &[u8],
    count: usize,
    entry: impl Fn(u32) -> Option<T>,
) -> Option<(Vec<T>, &[u8])> {
    let (list, rest) = bytes.split_at_checked(3 * count)?;
    let entries: Option<Vec<T>> = list
        .chunks_exact(3)
        .map(|three| entry(number_of(three)))
        .collect();
    Some((entries?, rest.strip_prefix(&END)?))
}

fn spare_entry(number: u32) -> Option<Entry> {
    let spare = Spare::new(number)?;
    let cause = Cause::Unknown;
    Some(Entry { spare, cause })
}

/// Writes the image of a table, without its run number and its causes.
pub fn write(table: &Table) -> [u8; LENGTH] {
    let spares = table.spares().iter().map(|entry| entry.spare.number());
    let bads = table.bads().iter().map(|bad| bad.number());

    let mut bytes = FIXED.to_vec();
    // Both counts fit in a byte: a table's lists are that short.
    bytes.push(table.spares().len() as u8);
    bytes.push(table.bads().len() as u8);
    bytes.extend(spares.flat_map(three_bytes));
    bytes.extend(END);
    bytes.extend(bads.flat_map(three_bytes));
    bytes.extend(END);

    let mut image = [0; LENGTH];
    image[..bytes.len()].copy_from_slice(&bytes);
    image
}

#[cfg(test)]
mod tests {
    use super::*;
    use crate::image::DEAD;

    /// The first 24 bytes, spelled out by hand.
    const BEGIN: [u8; 24] = [
        0x50, 0x52, 0x4F, 0x46, 0x49, 0x4C, 0x45, // PROFILE
        0x20, 0x20, 0x20, 0x20, 0x20, 0x20, // six blanks
        0x00, 0x00, 0x00, 0x03, 0x90, 0x00, 0x26, 0x00, 0x02, 0x14, 0x20,
    ];

    /// An image that goes on after the fixed bytes as given, then zeros.
    fn image(tail: &[u8]) -> Vec<u8> {
        let mut bytes = [&BEGIN, tail].concat();
        bytes.resize(532, 0);
        bytes
    }

    fn block(number: u32) -> Block {
        Block::new(number).expect("a block")
    }

    /// Makes the table of these lists, with nothing known of its past.
    fn table(spares: &[u32], bads: &[u32]) -> Table {
        let entry = |&number: &u32| spare_entry(number).expect("an entry");
        let spares = spares.iter().map(entry).collect();
        let bads = bads.iter().map(|&number| block(number)).collect();
        Table::new(0, spares, bads).expect("a table")
    }

    /// The bytes are the image of the table, both ways.
    fn same(bytes: &[u8], table: &Table) {
        assert_eq!(read(bytes).as_ref(), Some(table));
        assert_eq!(&write(table)[..], bytes);
    }

    #[test]
    fn fixed_bytes() {
        assert_eq!(FIXED, BEGIN);
    }

    #[test]
    fn empty_lists() {
        same(
            &image(&[0, 0, 0xFF, 0xFF, 0xFF, 0xFF, 0xFF, 0xFF]),
            &table(&[], &[]),
        );
    }

    #[test]
    fn one_spare() {
        // 9727 is 25FF hex.
        same(
            &image(&[1, 0, 0x00, 0x25, 0xFF, 0xFF, 0xFF, 0xFF, 0xFF, 0xFF, 0xFF]),
            &table(&[9727], &[]),
        );
    }

    #[test]
    fn one_bad() {
        same(
            &image(&[0, 1, 0xFF, 0xFF, 0xFF, 0, 0, 0, 0xFF, 0xFF, 0xFF]),
            &table(&[], &[0]),
        );
    }

    #[test]
    fn dead_spares_and_a_block_in_both_lists() {
        // 4928 is 1340 hex, 258 is 102 hex.
        same(
            &image(&[
                3, 2, 0xFF, 0xFF, 0xFE, 0x00, 0x13, 0x40, 0xFF, 0xFF, 0xFE, 0xFF, 0xFF, 0xFF, 0x00,
                0x01, 0x02, 0x00, 0x13, 0x40, 0xFF, 0xFF, 0xFF,
            ]),
            &table(&[DEAD, 4928, DEAD], &[258, 4928]),
        );
    }

    #[test]
    fn full_lists() {
        // 26 bytes, 96 of spares, a mark, 300 of bads, a mark: 428.
        let full = table(
            &(0..32).collect::<Vec<_>>(),
            &(100..200).collect::<Vec<_>>(),
        );
        let bytes = write(&full);
        assert_eq!(bytes[24..29], [32, 100, 0, 0, 0]);
        assert_eq!(bytes[119..128], [0, 0, 31, 0xFF, 0xFF, 0xFF, 0, 0, 100]);
        assert_eq!(bytes[422..429], [0, 0, 199, 0xFF, 0xFF, 0xFF, 0]);
        assert!(bytes[428..].iter().all(|&byte| byte == 0));
        same(&bytes, &full);
    }

    /// A list of this many different blocks, as bytes.
    fn entries(count: u8) -> Vec<u8> {
        (0..count).flat_map(|low| [0, 1, low]).collect()
    }

    #[test]
    fn counts_at_their_ends() {
        let with = |spares: u8, bads: u8| {
            image(
                &[
                    &[spares, bads],
                    &entries(spares)[..],
                    &END,
                    &entries(bads),
                    &END,
                ]
                .concat(),
            )
        };
        assert!(read(&with(32, 0)).is_some());
        assert!(read(&with(33, 0)).is_none());
        assert!(read(&with(0, 100)).is_some());
        assert!(read(&with(0, 101)).is_none());
        assert!(read(&with(32, 100)).is_some());
        assert!(read(&with(33, 100)).is_none());
        assert!(read(&with(32, 101)).is_none());
    }

    #[test]
    fn counts_beyond_the_bytes() {
        assert!(read(&image(&[255, 0])).is_none());
        assert!(read(&image(&[0, 255, 0xFF, 0xFF, 0xFF])).is_none());
        let dead = [0xFF, 0xFF, 0xFE].repeat(168);
        assert!(read(&image(&[&[255, 255], &dead[..]].concat())).is_none());
    }

    #[test]
    fn no_entries() {
        let spare = |three: [u8; 3]| read(&image(&[&[1, 0], &three[..], &END, &END].concat()));
        let bad = |three: [u8; 3]| read(&image(&[&[0, 1], &END[..], &three, &END].concat()));
        for three in [
            [0x00, 0x26, 0x00],
            [0x00, 0xFF, 0xFE],
            [0x00, 0xFF, 0xFF],
            [0x01, 0x00, 0x00],
            [0x01, 0xFF, 0xFE],
            [0xFF, 0x00, 0x00],
            [0xFF, 0xFF, 0xFD],
            [0xFF, 0xFF, 0xFF],
        ] {
            assert_eq!(spare(three), None, "{three:02x?}");
            assert_eq!(bad(three), None, "{three:02x?}");
        }
        assert_eq!(spare([0xFF, 0xFF, 0xFE]), Some(table(&[DEAD], &[])));
        assert_eq!(bad([0xFF, 0xFF, 0xFE]), None);
    }

    #[test]
    fn doubles() {
        let spares = |a: u8, b: u8| {
            read(&image(
                &[&[2, 0, 0, a, 7, 0, b, 7], &END[..], &END].concat(),
            ))
        };
        let bads = |a: u8, b: u8| {
            read(&image(
                &[&[0, 2], &END[..], &[0, a, 7, 0, b, 7], &END].concat(),
            ))
        };
        assert_eq!(spares(1, 1), None);
        assert_eq!(bads(1, 1), None);
        // 263 and 775 differ by 512.
        assert_eq!(spares(1, 3), Some(table(&[263, 775], &[])));
        assert_eq!(bads(1, 3), Some(table(&[], &[263, 775])));
    }

    #[test]
    fn every_single_change_of_a_small_image() {
        // Of all changes of one byte, only those that make another free block
        // of one leave an image. Spare 5, bad 6: each of the two entries can
        // become the 255 others with the same middle byte and those 37 with
        // the same low byte (0..25 hex is 38 values).
        let good = image(&[1, 1, 0, 0, 5, 0xFF, 0xFF, 0xFF, 0, 0, 6, 0xFF, 0xFF, 0xFF]);
        let mut read_so_far = 0;
        for place in 0..532 {
            for value in 0..=255 {
                let mut bytes = good.clone();
                bytes[place] = value;
                if value != good[place] && read(&bytes).is_some() {
                    assert!([27, 28, 33, 34].contains(&place), "place {place}");
                    read_so_far += 1;
                }
            }
        }
        assert_eq!(read_so_far, 2 * (255 + 37));
    }

    #[test]
    fn lengths() {
        let good = image(&[0, 0, 0xFF, 0xFF, 0xFF, 0xFF, 0xFF, 0xFF]);
        for length in (0..1200).filter(|&length| length != 532) {
            let mut bytes = good.clone();
            bytes.resize(length, 0);
            assert_eq!(read(&bytes), None, "{length}");
        }
    }
}
