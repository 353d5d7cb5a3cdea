//! The table in words: its form and run number, its counts, and its two lists with the
//! causes.

use reference::image::{Cause, Entry, Form, Spare, Table};

use crate::show::{count_or_no, ranges, spare_name};

/// Says the form of a table's image, and the run number, which form A has not.
pub fn form(form: Form, table: &Table) -> String {
    match form {
        Form::A => String::from(form_name(form)),
        Form::B => format!("{}, {}", form_name(form), run(table)),
    }
}

/// Names a form.
pub fn form_name(form: Form) -> &'static str {
    match form {
        Form::A => "form A",
        Form::B => "form B",
    }
}

/// Says the run number.
pub fn run(table: &Table) -> String {
    format!("run number {}", table.run())
}

/// Says how many spares are used, how many of them are dead, how many blocks are bad,
/// and whether the platter has all this.
pub fn counts(table: &Table, stored: bool) -> String {
    let spares = table.spares();
    let dead = spares.iter().filter(|entry| entry.spare == Spare::Dead);
    let dead = dead.count();
    let mut words = vec![match spares.len() {
        0 => String::from("no spare used"),
        used => format!("{used} of 32 spares used"),
    }];
    if dead > 0 {
        words.push(format!("{dead} of them dead"));
    }
    let bads = table.bads().len() as u64;
    words.push(count_or_no(bads, "bad block", "bad blocks"));
    if !stored {
        words.push(String::from("not stored yet"));
    }
    words.join(", ")
}

/// Lists both lists: a line for each entry of the spare list, and one for the bad list.
pub fn lines(table: &Table) -> Vec<String> {
    let entries = table.spares().iter().enumerate();
    let mut lines: Vec<String> = entries
        .map(|(k, &one)| format!("{}: {}", spare_name(k), entry(one)))
        .collect();
    lines.extend(bad_blocks(table));
    lines
}

/// Says what a spare is used for, and the cause.
pub fn entry(entry: Entry) -> String {
    let cause = cause(entry.cause);
    match entry.spare {
        Spare::Moved(block) => format!("block {}, {cause}", block.number()),
        Spare::Dead => format!("dead, {cause}"),
    }
}

/// Says a cause, in the words for the accesses that failed.
pub fn cause(cause: Cause) -> &'static str {
    match cause {
        Cause::Unknown => "cause unknown",
        Cause::Crc => "CRC error",
        Cause::Timeout => "timeout",
        Cause::NoSettle => "no settle",
    }
}

/// Lists the bad blocks in the order of their list, if there are any.
pub fn bad_blocks(table: &Table) -> Option<String> {
    let bads: Vec<u32> = table.bads().iter().map(|block| block.number()).collect();
    (!bads.is_empty()).then(|| format!("bad blocks: {}", ranges(&bads)))
}

#[cfg(test)]
mod tests {
    use super::*;
    use reference::geometry::Block;

    fn block(number: u32) -> Block {
        Block::new(number).expect("a block")
    }

    /// Makes a table with an entry for each cause, a dead spare and two bad blocks.
    fn full() -> Table {
        let entries = [
            (Spare::Moved(block(17)), Cause::Unknown),
            (Spare::Dead, Cause::Timeout),
            (Spare::Moved(block(300)), Cause::Crc),
            (Spare::Dead, Cause::NoSettle),
        ];
        let spares = entries.map(|(spare, cause)| Entry { spare, cause });
        let bads = vec![block(9), block(5)];
        Table::new(7, spares.to_vec(), bads).expect("a table")
    }

    #[test]
    fn every_entry_has_its_cause() {
        assert_eq!(
            lines(&full()),
            [
                "spare 0 (sector 4928): block 17, cause unknown",
                "spare 1 (sector 4929): dead, timeout",
                "spare 2 (sector 4930): block 300, CRC error",
                "spare 3 (sector 4931): dead, no settle",
                "bad blocks: 9, 5",
            ]
        );
    }

    #[test]
    fn an_empty_table() {
        let table = Table::new(0, vec![], vec![]).expect("a table");
        assert_eq!(lines(&table), [""; 0]);
        assert_eq!(counts(&table, true), "no spare used, no bad block");
    }

    #[test]
    fn counts_and_forms() {
        let table = full();
        assert_eq!(
            counts(&table, false),
            "4 of 32 spares used, 2 of them dead, 2 bad blocks, not stored yet"
        );
        assert_eq!(form(Form::A, &table), "form A");
        assert_eq!(form(Form::B, &table), "form B, run number 7");
    }
}
