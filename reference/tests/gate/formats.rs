//! Formats: what a place shows, and that only the order's bytes are a table.

use crate::build::{hex, new_lent, serve};
use reference::generate::random::Random;
use reference::generate::requests::{any_value, delete, look_up, put, scan};
use reference::limits::{ENTRY_BYTES, PLACE_BYTES, TABLE_ENTRIES, TABLE_HEAD, VALUE_BYTES};
use reference::table::{owned, read_table, table_bytes, Entries, Entry};

/// Zeros after the bytes that are in use.
fn padded(text: &str) -> Vec<u8> {
    let mut bytes = hex(text);
    bytes.resize(PLACE_BYTES, 0);
    bytes
}

#[test]
fn memory_tables_as_bytes() {
    let mut lent = new_lent(16, 4);
    assert_eq!(lent.memory.to_vec(), padded("0800 2000 0000 0000"));
    serve(&mut lent, &[put(0x0102, b"AB"), delete(3)]);
    let expected =
        "2200 2000 0200 0000  0C00 0200 0300000000000000  0E00 0100 0201000000000000 4142";
    assert_eq!(lent.memory.to_vec(), padded(expected));
}

fn any_table(random: &mut Random) -> Entries {
    let count = 1 + random.below(TABLE_ENTRIES);
    let mut entry = |_| {
        let value = any_value(random);
        let entry = if random.once_in(3) { Entry::DeleteMark } else { Entry::Value(value) };
        (random.word() >> random.below(64), entry)
    };
    (0..count).map(&mut entry).collect()
}

#[test]
fn tables_read_back_and_no_other_bytes_are_tables() {
    let mut random = Random::new(21);
    let (mut still, mut refused) = (0, 0);
    for _ in 0..50_000 {
        let table = any_table(&mut random);
        let mut bytes = table_bytes(&table);
        assert_eq!(owned(&read_table(&bytes, 1).expect("a table")), table);
        let byte = random.below(*random.clone().pick(&[8, 40, PLACE_BYTES]));
        bytes[byte] = random.word() as u8;
        // Whatever is accepted is exactly what writing its entries gives.
        match read_table(&bytes, 1) {
            Some(shown) => {
                assert_eq!(table_bytes(&owned(&shown)), bytes);
                still += 1;
            }
            None => refused += 1,
        }
    }
    assert!(still > 1000 && refused > 1000, "{still} still tables, {refused} refused");
}

#[test]
fn a_table_has_an_entry_and_the_memory_may_have_none() {
    let empty = table_bytes(&Entries::new());
    assert_eq!(read_table(&empty, 0), Some(Vec::new()));
    assert_eq!(read_table(&empty, 1), None);
    assert_eq!(read_table(&[0; PLACE_BYTES], 0), None);
}

/// A table of so many values of one length.
fn table_of(count: usize, length: usize) -> [u8; PLACE_BYTES] {
    let entry = |key| (key as u64, Entry::Value(vec![1; length]));
    table_bytes(&(0..count).map(entry).collect())
}

#[test]
fn a_full_place_is_a_table_and_a_longer_value_is_not() {
    let bytes = table_of(TABLE_ENTRIES, VALUE_BYTES);
    assert_eq!(bytes[..8], hex("F803 2000 1000 0000"));
    assert_eq!(usize::from(bytes[8]), ENTRY_BYTES);
    assert!(bytes[TABLE_HEAD + TABLE_ENTRIES * ENTRY_BYTES..].iter().all(|byte| *byte == 0));
    assert!(read_table(&bytes, 1).is_some());
    assert_eq!(read_table(&table_of(1, VALUE_BYTES + 1), 1), None);
    assert_eq!(read_table(&table_of(1, VALUE_BYTES + 1), 0), None);
}

#[test]
fn values_of_48_49_and_51_bytes_are_taken_and_of_52_refused() {
    for length in [0, 47, 48, 49, 50, 51] {
        assert!(read_table(&table_of(1, length), 1).is_some(), "{length}");
        let mut lent = new_lent(16, 4);
        let value = vec![7; length];
        let answers = serve(&mut lent, &[put(5, &value), look_up(5)]).answers;
        let found = [&[6 + length as u8, 0, 3, 0, 0, 0], &value[..]].concat();
        assert_eq!(answers, [hex("0600 0100 0000"), found].concat());
    }
    for length in [52, 53, 60, 200] {
        assert_eq!(read_table(&table_of(1, length), 1), None, "{length}");
        let mut lent = new_lent(16, 4);
        let answers = serve(&mut lent, &[put(5, &vec![7; length])]).answers;
        assert_eq!(answers, hex("0600 0100 1100"), "{length}");
    }
}

#[test]
fn sixteen_longest_values_fill_one_scan() {
    let mut lent = new_lent(16, 4);
    let puts: Vec<Vec<u8>> = (0..16).map(|key| put(key, &[7; 51])).collect();
    serve(&mut lent, &puts);
    let answers = serve(&mut lent, &[scan(0, u64::MAX)]).answers;
    assert_eq!(answers.len(), 1018);
    assert_eq!(answers[..12], hex("FA03 0400 0000 1000 0000 3F00"));
}
