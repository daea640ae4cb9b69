//! Longer values (note 1): the limit itself, entries one byte too long, and tables, memory and replies at their greatest
//! lengths.

use crate::client::{found, letters, list, table_of, Ask, Client, Entry, Reply, GREATEST};
use crate::tables::summarize;
use differential::check;
use reference::limits::{ENTRY_BYTES, REPLY_BYTES, TABLE_ENTRIES, TABLE_HEAD, VALUE_BYTES};
use std::collections::BTreeMap;

/// A value of so many bytes is put, found, scanned, flushed and still found.
fn is_kept(length: usize) {
    let mut store = Client::new(16, 4);
    let reads = [Ask::LookUp(5), Ask::Scan(0, GREATEST)];
    let expected = [Reply::Value(letters(length)), found([5], &letters(length), 0)];
    assert_eq!(store.ask_one(Ask::PutLetters(5, length)), Reply::Done);
    assert_eq!(store.ask(&reads), expected);
    assert_eq!(store.ask_one(Ask::Flush), Reply::Done);
    assert_eq!(store.ask(&reads), expected);
    assert_eq!(store.lent.place(0), table_of(&[(5, Some(letters(length)))]));
}

#[test]
fn a_value_of_48_bytes_is_kept() {
    is_kept(48);
}

#[test]
fn a_value_of_49_bytes_is_kept() {
    is_kept(49);
}

#[test]
fn a_value_of_51_bytes_is_kept() {
    is_kept(51);
}

/// What the note says in numbers; the tests below go by the names.
#[test]
fn the_limits_are_those_of_the_note() {
    assert_eq!((VALUE_BYTES, ENTRY_BYTES, REPLY_BYTES), (51, 63, 1018));
    assert_eq!(TABLE_HEAD + TABLE_ENTRIES * ENTRY_BYTES, FULL);
}

#[test]
fn a_value_of_52_bytes_is_17() {
    let mut store = Client::new(16, 4);
    for length in [52, 53, 100] {
        assert_eq!(store.ask_in_vain(Ask::PutLetters(5, length)), Reply::Not(17));
    }
    // 17 comes before 18, also for a key that the full memory has and for one that it lacks.
    store.ask(&longest_puts(sixteen(0)));
    for key in [5, 99] {
        assert_eq!(store.ask_in_vain(Ask::PutLetters(key, 52)), Reply::Not(17));
    }
    assert_eq!(store.ask_in_vain(Ask::PutLetters(99, VALUE_BYTES)), Reply::Not(18));
}

/// Bytes in use of a table of sixteen of the longest entries.
const FULL: usize = 1016;

/// A value one byte too long, which makes an entry of 64.
const TOO_LONG: usize = VALUE_BYTES + 1;

/// The keys of a full table, from this one on.
fn sixteen(first: u64) -> impl Iterator<Item = u64> {
    first..first + TABLE_ENTRIES as u64
}

fn longest_puts(keys: impl IntoIterator<Item = u64>) -> Vec<Ask> {
    keys.into_iter().map(|key| Ask::PutLetters(key, VALUE_BYTES)).collect()
}

/// Sixteen of the longest entries, keys from this one on.
fn longest_entries(first: u64) -> Vec<Entry> {
    sixteen(first).map(|key| (key, Some(letters(VALUE_BYTES)))).collect()
}

/// A full table of the longest values but for the last, which has so many bytes.
fn full_table(first: u64, last: usize) -> [u8; 1024] {
    let mut entries = longest_entries(first);
    entries[TABLE_ENTRIES - 1].1 = Some(letters(last));
    table_of(&entries)
}

/// A store with a live table on level 1, a frozen one that hangs on it, and a full memory, all of the longest entries.
fn full_tables() -> Client {
    let mut store = Client::with_tables(16, 4, &[(1, &[7])]);
    store.lent.area[..1024].copy_from_slice(&full_table(0, VALUE_BYTES));
    summarize(&mut store.lent.cards[0], sixteen(0));
    let mut store = store.freeze(1, &longest_entries(4), &[(0, 0, GREATEST)]);
    store.lent.memory = full_table(9, VALUE_BYTES);
    assert_eq!(check(&store.lent), (0, 0));
    store
}

#[test]
fn an_entry_of_64_bytes_in_a_place_breaks_c() {
    for (place, first) in [(0, 0), (1, 4)] {
        let mut store = full_tables();
        store.lent.area[place * 1024..][..1024].copy_from_slice(&full_table(first, TOO_LONG));
        store.breaks(b'C');
        let mut store = full_tables();
        store.lent.area[place * 1024..][..1024]
            .copy_from_slice(&table_of(&[(7, Some(letters(TOO_LONG)))]));
        store.breaks(b'C');
    }
}

#[test]
fn an_entry_of_64_bytes_in_memory_breaks_d() {
    let mut store = full_tables();
    store.lent.memory = full_table(9, TOO_LONG);
    store.breaks(b'D');
    let mut store = full_tables();
    store.lent.memory = table_of(&[(7, Some(letters(TOO_LONG)))]);
    store.breaks(b'D');
}

#[test]
fn sixteen_entries_of_63_in_memory_in_a_table_and_in_one_scan() {
    let mut store = Client::new(16, 4);
    assert!(store.ask(&longest_puts(sixteen(100))).iter().all(|reply| *reply == Reply::Done));
    let full = full_table(100, VALUE_BYTES);
    assert_eq!(full[..8], [0xF8, 3, 32, 0, 16, 0, 0, 0]);
    assert_eq!(full[FULL..], [0; 8]);
    assert_eq!(store.lent.memory, full);
    let entries = &full[TABLE_HEAD..FULL];
    let reply = [&[0xFA, 3, 4, 0, 0, 0, 16, 0, 0, 0], entries].concat();
    // In a buffer just as long as a run wants, of which six bytes stay untouched.
    let scan = list(&[Ask::Scan(0, GREATEST)]);
    assert_eq!(store.run(&scan, 1024).1, reply);
    assert_eq!(store.ask_one(Ask::Flush), Reply::Done);
    assert_eq!(store.lent.place(0), full);
    assert_eq!(store.run(&scan, 1024).1, reply);
    // From memory and tables at once, and with more behind.
    store.ask(&longest_puts([99, 116]));
    assert_eq!(store.ask_one(Ask::Scan(0, GREATEST)), found(sixteen(99), &letters(VALUE_BYTES), 1));
}

#[test]
fn scans_of_the_longest_entries_from_table_links_and_memory() {
    let mut store = full_tables();
    for (low, high, more) in [(0, 15, 0), (3, GREATEST, 1), (9, GREATEST, 0)] {
        let expected = found(sixteen(low), &letters(VALUE_BYTES), more);
        assert_eq!(store.ask_one(Ask::Scan(low, high)), expected);
    }
}

/// Counts of what a store filled with the longest entries went through.
#[derive(Default)]
struct Went {
    flushes: usize,
    /// By step: moved, linked, merged.
    steps: [usize; 3],
}

/// Puts sixteen of the longest values, flushes and tidies until nothing is left to do or places have run out. False with the
/// latter: nothing of the table is lost, the memory still has it.
fn fill(store: &mut Client, keys: &[u64], went: &mut Went) -> bool {
    let puts = longest_puts(keys.iter().copied());
    assert!(store.ask(&puts).iter().all(|reply| *reply == Reply::Done));
    let flushed = store.ask_one(Ask::Flush);
    if flushed == Reply::Not(20) {
        return false;
    }
    assert_eq!(flushed, Reply::Done);
    went.flushes += 1;
    loop {
        match store.ask_one(Ask::Tidy) {
            Reply::Step(step, _) => went.steps[usize::from(step) - 1] += 1,
            Reply::Not(65 | 20) => break,
            reply => panic!("{reply:?}"),
        }
    }
    true
}

/// All that a store holds, page by page.
fn contents(store: &mut Client) -> BTreeMap<u64, String> {
    let (mut all, mut from) = (BTreeMap::new(), 0);
    loop {
        let Reply::Values { values, more } = store.ask_one(Ask::Scan(from, GREATEST)) else {
            panic!("a scan of a good range is served");
        };
        all.extend(values);
        if more == 0 {
            return all;
        }
        from = all.last_key_value().expect("a page with more is full").0 + 1;
    }
}

#[test]
fn a_store_full_of_them_goes_through_flush_link_and_merge() {
    for threshold in [1, 2, 4] {
        let mut store = Client::new(64, threshold);
        let (mut written, mut went) = (BTreeMap::new(), Went::default());
        for round in 0.. {
            // Keys that spread over all that are there, so that every link hangs on several tables.
            let keys: Vec<u64> = sixteen(16 * round).map(|number| number * 389 % 1009).collect();
            written.extend(keys.iter().map(|key| (*key, letters(VALUE_BYTES))));
            if !fill(&mut store, &keys, &mut went) {
                break;
            }
            assert_eq!(check(&store.lent), (0, 0));
        }
        // Every entry of every table is one of the longest, and some tables have sixteen.
        let tables: Vec<&[u8]> = (0..64)
            .filter(|place| store.lent.cards[*place][0] != 0)
            .map(|place| store.lent.place(place))
            .collect();
        let in_use = |table: &[u8]| usize::from(u16::from_le_bytes([table[0], table[1]]));
        let counted =
            |table: &&&[u8]| in_use(table) == TABLE_HEAD + ENTRY_BYTES * table[4] as usize;
        assert_eq!(tables.iter().filter(counted).count(), tables.len());
        assert!(tables.iter().any(|table| in_use(table) == FULL));
        assert!(went.flushes > 20 && went.steps.iter().all(|steps| *steps > 0), "{:?}", went.steps);
        assert_eq!(contents(&mut store), written);
    }
}
