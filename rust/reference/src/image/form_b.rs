//! Form B of a table image (document 02, request 6).
//!
//! Four fixed bytes, the run number, count and offset of each list, the spare list
//! with 4 bytes an entry, the bad list with 3, zeros, and in the last two bytes the
//! sum of all before. Numbers have their high byte first, and there are no end marks.

use super::{
    all_differ, no_block_twice, number_of, three_bytes, Cause, Clause, Entry, Fault, Spare, Table,
    LENGTH, MOST_BADS, MOST_SPARES,
};
use crate::geometry::Block;

/// The first bytes.
pub const BEGIN: [u8; 4] = [0xF0, 0x78, 0x3C, 0x1E];

/// Where the run number stands.
pub const RUN_AT: usize = 4;

/// Where the counts and the offsets stand.
pub const SPARE_COUNT_AT: usize = 8;
pub const SPARE_OFFSET_AT: usize = 10;
pub const BAD_COUNT_AT: usize = 12;
pub const BAD_OFFSET_AT: usize = 14;

/// Where the spare list starts; the bad list starts right after it.
pub const SPARES_AT: usize = 16;

/// Where the sum stands.
pub const SUM_AT: usize = LENGTH - 2;

/// Bytes of a spare entry and of a bad entry.
pub const SPARE_BYTES: usize = 4;
pub const BAD_BYTES: usize = 3;

/// Reads a well-formed image, or says why the bytes are none. The first bytes are
/// tested first, then the sum, then all else.
pub fn read(bytes: &[u8]) -> Result<Table, Fault> {
    if bytes.len() != LENGTH || !bytes.starts_with(&BEGIN) {
        return Err(Fault::Form);
    }
    let (before, written) = bytes.split_at(SUM_AT);
    if sum(before).to_be_bytes() != *written {
        return Err(Fault::Sum);
    }
    content(before).map_err(Fault::Field)
}

/// Adds up some bytes, modulo 65,536.
pub fn sum(bytes: &[u8]) -> u16 {
    bytes
        .iter()
        .fold(0, |sum: u16, &byte| sum.wrapping_add(byte.into()))
}

/// Reads the bytes before the sum, or says which clause they break.
fn content(bytes: &[u8]) -> Result<Table, Clause> {
    let spare_count = within(bytes, SPARE_COUNT_AT, MOST_SPARES).ok_or(Clause::SpareCount)?;
    let bad_count = within(bytes, BAD_COUNT_AT, MOST_BADS).ok_or(Clause::BadCount)?;
    let bads_at = SPARES_AT + SPARE_BYTES * spare_count;
    let zeros_at = bads_at + BAD_BYTES * bad_count;
    if two_bytes(bytes, SPARE_OFFSET_AT) != SPARES_AT {
        return Err(Clause::SpareOffset);
    }
    if two_bytes(bytes, BAD_OFFSET_AT) != bads_at {
        return Err(Clause::BadOffset);
    }
    let spares = spare_list(&bytes[SPARES_AT..bads_at])?;
    let bads = bad_list(&bytes[bads_at..zeros_at])?;
    if bytes[zeros_at..].iter().any(|&byte| byte != 0) {
        return Err(Clause::Zeros);
    }
    let run = u32::from_be_bytes([0, 1, 2, 3].map(|place| bytes[RUN_AT + place]));
    Ok(Table::new(run, spares, bads).expect("each clause was tested"))
}

/// Reads the number in two bytes.
fn two_bytes(bytes: &[u8], at: usize) -> usize {
    u16::from_be_bytes([bytes[at], bytes[at + 1]]).into()
}

/// Reads the number in two bytes, if it is at most this.
fn within(bytes: &[u8], at: usize, most: usize) -> Option<usize> {
    let number = two_bytes(bytes, at);
    (number <= most).then_some(number)
}

/// Reads the entries of the spare list.
fn spare_list(bytes: &[u8]) -> Result<Vec<Entry>, Clause> {
    let mut spares = vec![];
    for four in bytes.chunks_exact(SPARE_BYTES) {
        let spare = Spare::new(number_of(four)).ok_or(Clause::SpareEntry)?;
        let cause = Cause::new(four[3]).ok_or(Clause::Cause)?;
        spares.push(Entry { spare, cause });
    }
    match no_block_twice(&spares) {
        true => Ok(spares),
        false => Err(Clause::SpareTwice),
    }
}

/// Reads the entries of the bad list.
fn bad_list(bytes: &[u8]) -> Result<Vec<Block>, Clause> {
    let mut bads = vec![];
    for three in bytes.chunks_exact(BAD_BYTES) {
        bads.push(Block::new(number_of(three)).ok_or(Clause::BadEntry)?);
    }
    match all_differ(&bads) {
        true => Ok(bads),
        false => Err(Clause::BadTwice),
    }
}

/// Writes the image of a table.
pub fn write(table: &Table) -> [u8; LENGTH] {
    let (spares, bads) = (table.spares(), table.bads());
    let bads_at = SPARES_AT + SPARE_BYTES * spares.len();
    // All four fit in two bytes: a table's lists are that short.
    let numbers = [spares.len(), SPARES_AT, bads.len(), bads_at].map(|number| number as u16);

    let mut bytes = BEGIN.to_vec();
    bytes.extend(table.run().to_be_bytes());
    bytes.extend(numbers.iter().flat_map(|number| number.to_be_bytes()));
    for entry in spares {
        bytes.extend(three_bytes(entry.spare.number()));
        bytes.push(entry.cause.number());
    }
    bytes.extend(bads.iter().flat_map(|bad| three_bytes(bad.number())));

    let mut image = [0; LENGTH];
    image[..bytes.len()].copy_from_slice(&bytes);
    let sum = sum(&image[..SUM_AT]);
    image[SUM_AT..].copy_from_slice(&sum.to_be_bytes());
    image
}

#[cfg(test)]
mod tests {
    use super::*;
    use crate::image::{DEAD, TOP_RUN};

    /// Makes an image of these bytes, then zeros, then the right sum.
    fn image(begin: &[u8]) -> Vec<u8> {
        let mut bytes = begin.to_vec();
        bytes.resize(532, 0);
        summed(bytes)
    }

    /// Puts the right sum behind the same bytes.
    fn summed(mut bytes: Vec<u8>) -> Vec<u8> {
        let all: u32 = bytes[..530].iter().map(|&byte| u32::from(byte)).sum();
        let sum = all % 65_536;
        bytes[530] = (sum / 256) as u8;
        bytes[531] = (sum % 256) as u8;
        bytes
    }

    fn table(run: u32, spares: &[(u32, u8)], bads: &[u32]) -> Table {
        let entry = |&(number, cause): &(u32, u8)| Entry {
            spare: Spare::new(number).expect("an entry"),
            cause: Cause::new(cause).expect("a cause"),
        };
        let spares = spares.iter().map(entry).collect();
        let block = |&number: &u32| Block::new(number).expect("a block");
        let bads = bads.iter().map(block).collect();
        Table::new(run, spares, bads).expect("a table")
    }

    /// Asserts that the bytes are the image of the table, both ways.
    #[track_caller]
    fn same(bytes: &[u8], table: &Table) {
        assert_eq!(read(bytes).as_ref(), Ok(table));
        assert_eq!(&write(table)[..], bytes);
    }

    /// A small image, by hand: run number 01020304, spares 9727 after a CRC error,
    /// a dead one by no settle, 258 of which nothing is known; bads 0 and 4928.
    const SMALL: [u8; 34] = [
        0xF0, 0x78, 0x3C, 0x1E, 0x01, 0x02, 0x03, 0x04, // begin, run number
        0x00, 0x03, 0x00, 0x10, 0x00, 0x02, 0x00, 0x1C, // counts and offsets
        0x00, 0x25, 0xFF, 0x01, 0xFF, 0xFF, 0xFE, 0x03, 0x00, 0x01, 0x02, 0x00, // spares
        0x00, 0x00, 0x00, 0x00, 0x13, 0x40, // bads
    ];

    fn small() -> Vec<u8> {
        image(&SMALL)
    }

    #[test]
    fn empty_lists() {
        // F0 + 78 + 3C + 1E is 450; 16 twice: 482, which is 01E2 hex.
        let mut bytes = vec![0xF0, 0x78, 0x3C, 0x1E, 0, 0, 0, 0, 0, 0, 0, 16, 0, 0, 0, 16];
        bytes.resize(530, 0);
        bytes.extend([0x01, 0xE2]);
        same(&bytes, &table(0, &[], &[]));
    }

    #[test]
    fn a_small_table() {
        let spares = [(9727, 1), (DEAD, 3), (258, 0)];
        same(&small(), &table(0x0102_0304, &spares, &[0, 4928]));
    }

    #[test]
    fn every_run_number_and_cause() {
        for run in [0, 1, 255, 256, 0x0100_0000, TOP_RUN - 1, TOP_RUN] {
            for cause in 0..=3 {
                let table = table(run, &[(5, cause), (DEAD, 3 - cause)], &[5]);
                let bytes = write(&table);
                assert_eq!(bytes[4..8], run.to_be_bytes());
                assert_eq!((bytes[19], bytes[23]), (cause, 3 - cause));
                same(&bytes, &table);
            }
        }
    }

    #[test]
    fn full_lists() {
        // 16 bytes, 128 of spares, 300 of bads: 444.
        let spares: Vec<(u32, u8)> = (1..=32).map(|number| (number, 2)).collect();
        let bads: Vec<u32> = (100..200).collect();
        let full = table(7, &spares, &bads);
        let bytes = write(&full);
        assert_eq!(bytes[8..20], [0, 32, 0, 16, 0, 100, 0, 144, 0, 0, 1, 2]);
        assert_eq!(bytes[140..147], [0, 0, 32, 2, 0, 0, 100]);
        assert_eq!(bytes[441..445], [0, 0, 199, 0]);
        assert!(bytes[444..530].iter().all(|&byte| byte == 0));
        same(&bytes, &full);
    }

    #[test]
    fn first_bytes() {
        for place in 0..4 {
            for value in (0..=255).filter(|&value| value != SMALL[place]) {
                let mut bytes = small();
                bytes[place] = value;
                assert_eq!(read(&bytes), Err(Fault::Form));
                assert_eq!(read(&summed(bytes)), Err(Fault::Form));
            }
        }
    }

    #[test]
    fn sums() {
        for place in [530, 531] {
            for change in 1..=255 {
                let mut bytes = small();
                bytes[place] ^= change;
                assert_eq!(read(&bytes), Err(Fault::Sum));
            }
        }
        // The sum of 530 bytes FF is 135,150, which is 4078 modulo 65,536.
        assert_eq!(sum(&[0xFF; 530]), 4078);
        assert_eq!(sum(&[]), 0);
    }

    #[test]
    fn the_sum_comes_before_the_other_clauses() {
        for place in 8..530 {
            let mut bytes = small();
            bytes[place] ^= 0x80;
            assert_eq!(read(&bytes), Err(Fault::Sum), "{place}");
        }
        // Beyond 65,535 it begins again: FF behind the first bytes up to the sum.
        let mut bytes = vec![0xFF; 532];
        bytes[..4].copy_from_slice(&BEGIN);
        assert_eq!(read(&bytes), Err(Fault::Sum));
        let fault = Fault::Field(Clause::SpareCount);
        assert_eq!(read(&summed(bytes)), Err(fault));
    }

    /// Finds the clause that the small image breaks after a change, its sum being right.
    fn clause(change: impl Fn(&mut Vec<u8>)) -> Option<Clause> {
        let mut bytes = small();
        change(&mut bytes);
        match read(&summed(bytes)) {
            Err(Fault::Field(clause)) => Some(clause),
            Err(fault) => panic!("{fault:?}"),
            Ok(_) => None,
        }
    }

    #[test]
    fn counts_and_offsets() {
        for (place, wanted) in [
            (8, Clause::SpareCount),
            (10, Clause::SpareOffset),
            (12, Clause::BadCount),
            (14, Clause::BadOffset),
        ] {
            // The high byte.
            assert_eq!(clause(|bytes| bytes[place] = 1), Some(wanted));
            assert_eq!(clause(|bytes| bytes[place] = 0xFF), Some(wanted));
        }
        assert_eq!(clause(|bytes| bytes[9] = 33), Some(Clause::SpareCount));
        assert_eq!(clause(|bytes| bytes[13] = 101), Some(Clause::BadCount));
        for offset in [0, 15, 17, 28] {
            let found = clause(|bytes| bytes[11] = offset);
            assert_eq!(found, Some(Clause::SpareOffset));
        }
        for offset in [0, 16, 27, 29, 32] {
            let found = clause(|bytes| bytes[15] = offset);
            assert_eq!(found, Some(Clause::BadOffset));
        }
        // One spare more or less puts the bad list elsewhere.
        for count in [2, 4, 32] {
            let found = clause(|bytes| bytes[9] = count);
            assert_eq!(found, Some(Clause::BadOffset));
        }
    }

    #[test]
    fn counts_at_their_ends() {
        let with = |spares: u16, bads: u16| {
            let mut bytes = BEGIN.to_vec();
            bytes.extend([0; 4]);
            for number in [spares, 16, bads, 16 + 4 * spares] {
                bytes.extend(number.to_be_bytes());
            }
            for low in 0..spares {
                bytes.extend([0, 1, low as u8, 0]);
            }
            for low in 0..bads {
                bytes.extend([0, 2, low as u8]);
            }
            read(&image(&bytes))
        };
        assert!(with(32, 100).is_ok());
        let refused = |clause| Err(Fault::Field(clause));
        assert_eq!(with(33, 0), refused(Clause::SpareCount));
        assert_eq!(with(33, 100), refused(Clause::SpareCount));
        assert_eq!(with(0, 101), refused(Clause::BadCount));
        assert_eq!(with(32, 101), refused(Clause::BadCount));
    }

    #[test]
    fn entries() {
        for three in [[0, 0x26, 0], [1, 0, 0], [0xFF, 0xFF, 0xFD], [0xFF; 3]] {
            let spare = clause(|bytes| bytes[24..27].copy_from_slice(&three));
            assert_eq!(spare, Some(Clause::SpareEntry));
            let bad = clause(|bytes| bytes[28..31].copy_from_slice(&three));
            assert_eq!(bad, Some(Clause::BadEntry));
        }
        let dead = [0xFF, 0xFF, 0xFE];
        assert_eq!(clause(|bytes| bytes[24..27].copy_from_slice(&dead)), None);
        let bad = clause(|bytes| bytes[28..31].copy_from_slice(&dead));
        assert_eq!(bad, Some(Clause::BadEntry));
        for place in [19, 23, 27] {
            for cause in 0..=255 {
                let found = clause(|bytes| bytes[place] = cause);
                assert_eq!(found, (cause > 3).then_some(Clause::Cause));
            }
        }
        // 9727 twice, with the same cause and with another one.
        for cause in [1, 2] {
            let four = [0, 0x25, 0xFF, cause];
            let found = clause(|bytes| bytes[24..28].copy_from_slice(&four));
            assert_eq!(found, Some(Clause::SpareTwice));
        }
        let found = clause(|bytes| bytes[28..31].copy_from_slice(&[0, 0x13, 0x40]));
        assert_eq!(found, Some(Clause::BadTwice));
        // Block 0 is three zeros: one more of it is not different.
        assert_eq!(clause(|bytes| bytes[13] = 3), Some(Clause::BadTwice));
    }

    #[test]
    fn zeros() {
        for place in 34..530 {
            for value in [1, 0x80, 0xFF] {
                let found = clause(|bytes| bytes[place] = value);
                assert_eq!(found, Some(Clause::Zeros), "{place}");
            }
        }
        // A full image has zeros from 444 on.
        let bads: Vec<u32> = (0..100).collect();
        let full = write(&table(1, &[(DEAD, 2); 32], &bads)).to_vec();
        for place in 444..530 {
            let mut bytes = full.clone();
            bytes[place] = 1;
            assert_eq!(read(&summed(bytes)), Err(Fault::Field(Clause::Zeros)));
        }
    }

    #[test]
    fn lengths() {
        for length in (0..1200).filter(|&length| length != 532) {
            let mut bytes = small();
            bytes.resize(length, 0);
            assert_eq!(read(&bytes), Err(Fault::Form), "{length}");
        }
    }

    #[test]
    fn every_single_change_of_a_small_image() {
        // Spare 5 and bad 6, the sum made right again. Any run number will do, and
        // the three other causes; one bad entry more is block 0; as for the entries
        // see form A.
        let good = write(&table(0, &[(5, 0)], &[6])).to_vec();
        let mut found = [0; 532];
        for place in 0..530 {
            for value in (0..=255).filter(|&value| value != good[place]) {
                let mut bytes = good.clone();
                bytes[place] = value;
                if read(&summed(bytes)).is_ok() {
                    found[place] += 1;
                }
            }
        }
        let mut wanted = [0; 532];
        wanted[4..8].fill(255);
        wanted[13] = 1;
        wanted[16..23].copy_from_slice(&[0, 37, 255, 3, 0, 37, 255]);
        assert_eq!(found, wanted);
    }
}
