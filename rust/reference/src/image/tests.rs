//! Tables, and the reader of either form.

use super::*;

fn block(number: u32) -> Block {
    Block::new(number).expect("a block")
}

fn entry(number: u32, cause: u8) -> Entry {
    Entry {
        spare: Spare::new(number).expect("an entry"),
        cause: Cause::new(cause).expect("a cause"),
    }
}

#[test]
fn tables_that_are_none() {
    let blocks = |count: u32| (0..count).map(block).collect::<Vec<_>>();
    let dead = entry(DEAD, 0);
    assert!(Table::new(0, vec![dead; 32], blocks(100)).is_some());
    assert!(Table::new(0, vec![dead; 33], blocks(0)).is_none());
    assert!(Table::new(0, vec![], blocks(101)).is_none());
    let twice = vec![entry(3, 1), dead, entry(3, 2)];
    assert!(Table::new(0, twice, vec![]).is_none());
    assert!(Table::new(0, vec![], vec![block(3), block(4), block(3)]).is_none());
    assert!(Table::new(0, vec![entry(3, 0)], vec![block(3)]).is_some());
}

#[test]
fn numbers_of_spares_and_causes() {
    for number in [0, 9727, DEAD] {
        assert_eq!(Spare::new(number).map(Spare::number), Some(number));
    }
    for number in [9728, DEAD - 1, DEAD + 1, u32::MAX] {
        assert_eq!(Spare::new(number), None);
    }
    for number in 0..=255 {
        let wanted = (number <= 3).then_some(number);
        assert_eq!(Cause::new(number).map(Cause::number), wanted);
    }
    assert_eq!(Cause::default(), Cause::Unknown);
}

/// A table with a past.
fn table() -> Table {
    let spares = vec![entry(17, 1), entry(DEAD, 3), entry(9000, 2)];
    Table::new(77, spares, vec![block(4927), block(17)]).expect("a table")
}

/// The same table, nothing being known of its past.
fn forgotten() -> Table {
    let spares = vec![entry(17, 0), entry(DEAD, 0), entry(9000, 0)];
    Table::new(0, spares, vec![block(4927), block(17)]).expect("a table")
}

#[test]
fn either_form_is_read() {
    let table = table();
    assert_eq!(
        read(&write(Form::B, &table)),
        Ok((Form::B, table.clone())),
        "all of it"
    );
    assert_eq!(read(&write(Form::A, &table)), Ok((Form::A, forgotten())));
}

#[test]
fn form_a_drops_the_past() {
    assert_eq!(write(Form::A, &table()), write(Form::A, &forgotten()));
    assert_ne!(write(Form::B, &table()), write(Form::B, &forgotten()));
}

#[test]
fn refusals_in_their_order() {
    let of_a = write(Form::A, &table()).to_vec();
    let of_b = write(Form::B, &table()).to_vec();
    let fault = |bytes: &[u8]| read(bytes).err();
    // Damage to form A is never that of form B.
    let mut bytes = of_a.clone();
    bytes[24] = 33;
    assert_eq!(fault(&bytes), Some(Fault::Form));
    // The first four bytes alone make it form B.
    bytes[..4].copy_from_slice(&form_b::BEGIN);
    assert_eq!(fault(&bytes), Some(Fault::Sum));
    let sum = form_b::sum(&bytes[..530]);
    bytes[530..].copy_from_slice(&sum.to_be_bytes());
    let clause = Clause::SpareCount;
    assert_eq!(fault(&bytes), Some(Fault::Field(clause)));
    // With one of the four missing it is neither, whatever else is right.
    let mut bytes = of_b.clone();
    bytes[3] = 0x1F;
    assert_eq!(fault(&bytes), Some(Fault::Form));
    for length in [0, 4, 531, 533] {
        for image in [&of_a, &of_b] {
            let mut bytes = image.clone();
            bytes.resize(length, 0);
            assert_eq!(fault(&bytes), Some(Fault::Form), "{length}");
        }
    }
}
