//! The two forms of a table's image: reading either, writing each, and turning one
//! into the other.

use super::table::{Table, DEAD};
use super::{BADS, RAM, SPARES};
use crate::form_b::{
    BAD_BYTES, BAD_COUNT, BAD_OFFSET, MAGIC, RUN, SPARES as SPARES_AT, SPARE_BYTES, SPARE_COUNT,
    SPARE_OFFSET, SUM,
};
use crate::{Answer, Code, SECTOR_BYTES};

/// The first bytes of form A.
const FIXED: &[u8; 24] = b"PROFILE      \x00\x00\x00\x03\x90\x00\x26\x00\x02\x14\x20";

/// Turns an image of either form into the other.
#[inline(never)]
pub fn convert(from: &[u8], to: &mut [u8]) -> Answer {
    if from.len() != SECTOR_BYTES || to.len() != SECTOR_BYTES {
        return Answer::Refused(Code::Buffer);
    }
    match read(from) {
        Ok(table) if is_form_b(from) => write_form_a(&table, to),
        Ok(table) => write_form_b(&table, to),
        Err(code) => return Answer::Refused(code),
    }
    Answer::Wait
}

/// Reads an image of either form, of 532 bytes.
pub fn read(image: &[u8]) -> Result<Table, Code> {
    if !is_form_b(image) {
        return read_form_a(image).ok_or(Code::Form);
    }
    if sum(image) != two_at(image, SUM) {
        return Err(Code::Sum);
    }
    read_form_b(image).ok_or(Code::Field)
}

fn is_form_b(image: &[u8]) -> bool {
    image.starts_with(&MAGIC)
}

/// Adds up all bytes before the sum of form B.
fn sum(image: &[u8]) -> u16 {
    let bytes = image[..SUM].iter();
    // 530 bytes need no more than 32 bits.
    bytes.map(|&byte| u32::from(byte)).sum::<u32>() as u16
}

fn two_at(image: &[u8], at: usize) -> u16 {
    u16::from_be_bytes([image[at], image[at + 1]])
}

/// Reads an entry of three bytes: a block, or the mark of a dead spare.
fn entry_at(image: &[u8], at: usize) -> Option<u16> {
    match u32::from_be_bytes([0, image[at], image[at + 1], image[at + 2]]) {
        RAM => Some(DEAD),
        number @ 0..=9727 => Some(number as u16),
        _ => None,
    }
}

/// Reads entries that stand at this place, each that many bytes after the one before.
fn load(list: &mut [u16], image: &[u8], at: usize, width: usize) -> Option<()> {
    for (k, entry) in list.iter_mut().enumerate() {
        *entry = entry_at(image, at + width * k)?;
    }
    Some(())
}

fn read_form_a(image: &[u8]) -> Option<Table> {
    let (nspares, nbads) = (usize::from(image[24]), usize::from(image[25]));
    if &image[..24] != FIXED || nspares > SPARES || nbads > BADS {
        return None;
    }
    let mut table = Table {
        nspares,
        nbads,
        ..Table::EMPTY
    };
    let spares_end = 26 + 3 * nspares;
    let bads = spares_end + 3;
    let bads_end = bads + 3 * nbads;
    load(&mut table.spares[..nspares], image, 26, 3)?;
    load(&mut table.bads[..nbads], image, bads, 3)?;
    let formed = image[spares_end..bads] == [0xFF; 3]
        && image[bads_end..bads_end + 3] == [0xFF; 3]
        && image[bads_end + 3..].iter().all(|&byte| byte == 0)
        && table.valid();
    formed.then_some(table)
}

/// Reads form B, whose first bytes and sum are right.
fn read_form_b(image: &[u8]) -> Option<Table> {
    let number = |at| usize::from(two_at(image, at));
    let (nspares, nbads) = (number(SPARE_COUNT), number(BAD_COUNT));
    if nspares > SPARES || nbads > BADS {
        return None;
    }
    let mut table = Table {
        nspares,
        nbads,
        run: u32::from_be_bytes([0, 1, 2, 3].map(|k| image[RUN + k])),
        ..Table::EMPTY
    };
    let bads = SPARES_AT + SPARE_BYTES * nspares;
    let end = bads + BAD_BYTES * nbads;
    load(&mut table.spares[..nspares], image, SPARES_AT, SPARE_BYTES)?;
    for (k, cause) in table.causes[..nspares].iter_mut().enumerate() {
        *cause = image[SPARES_AT + SPARE_BYTES * k + 3].into();
    }
    load(&mut table.bads[..nbads], image, bads, BAD_BYTES)?;
    let formed = (number(SPARE_OFFSET), number(BAD_OFFSET)) == (SPARES_AT, bads)
        && image[end..SUM].iter().all(|&byte| byte == 0)
        && table.valid();
    formed.then_some(table)
}

fn put_entry(image: &mut [u8], at: usize, entry: u16) {
    let [high, low] = entry.to_be_bytes();
    let top = if entry == DEAD { 0xFF } else { 0 };
    image[at..at + 3].copy_from_slice(&[top, high, low]);
}

/// Writes the image of form A into 532 bytes.
pub fn write_form_a(table: &Table, image: &mut [u8]) {
    image.fill(0);
    image[..24].copy_from_slice(FIXED);
    // Both counts fit in a byte: they were tested.
    image[24] = table.nspares as u8;
    image[25] = table.nbads as u8;
    let mut at = 26;
    for list in [table.spare_list(), table.bad_list()] {
        for &entry in list {
            put_entry(image, at, entry);
            at += 3;
        }
        image[at..at + 3].fill(0xFF);
        at += 3;
    }
}

/// Writes the image of form B into 532 bytes.
pub fn write_form_b(table: &Table, image: &mut [u8]) {
    image.fill(0);
    image[..RUN].copy_from_slice(&MAGIC);
    image[RUN..SPARE_COUNT].copy_from_slice(&table.run.to_be_bytes());
    let bads = SPARES_AT + SPARE_BYTES * table.nspares;
    for (at, number) in [
        (SPARE_COUNT, table.nspares),
        (SPARE_OFFSET, SPARES_AT),
        (BAD_COUNT, table.nbads),
        (BAD_OFFSET, bads),
    ] {
        image[at..at + 2].copy_from_slice(&(number as u16).to_be_bytes());
    }
    let entries = table.spare_list().iter().zip(table.causes_in_use());
    for (k, (&entry, &cause)) in entries.enumerate() {
        let at = SPARES_AT + SPARE_BYTES * k;
        put_entry(image, at, entry);
        // A cause is at most 3, as was tested.
        image[at + 3] = cause as u8;
    }
    for (k, &entry) in table.bad_list().iter().enumerate() {
        put_entry(image, bads + BAD_BYTES * k, entry);
    }
    let sum = sum(image);
    image[SUM..].copy_from_slice(&sum.to_be_bytes());
}
