//! Flush and tidy: what they reply, and what they leave in the lent memory.

use crate::client::{digits, marks, table, table_of, Ask, Client, Reply, GREATEST};
use crate::tables::summarize;
use reference::lent::ROW_FREE;

#[test]
fn a_flush_writes_a_table_and_empties_the_memory() {
    let mut store = Client::new(16, 4);
    let expected = [Reply::Done, Reply::Done, Reply::Done];
    assert_eq!(store.ask(&[Ask::Put(5, "A"), Ask::Delete(7), Ask::Flush]), expected);
    let mut place = [0; 1024];
    place[..33].copy_from_slice(&[
        0x21, 0, 0x20, 0, 2, 0, 0, 0, 0x0D, 0, 1, 0, 5, 0, 0, 0, 0, 0, 0, 0, 0x41, 0x0C, 0, 2, 0,
        7, 0, 0, 0, 0, 0, 0, 0,
    ]);
    let mut memory = [0; 1024];
    memory[..3].copy_from_slice(&[8, 0, 0x20]);
    assert_eq!(store.lent.area[..1024], place);
    assert!(store.lent.area[1024..].iter().all(|byte| *byte == 0));
    assert_eq!(store.lent.memory, memory);
    // Threshold, cursor, two marks without a key, and one table on level 0.
    assert_eq!(store.lent.head, [4, 1, 0, 0, 0, 0, 1, 0, 0, 0]);
    assert_eq!(store.lent.cards[0][..3], [1, 0, 0]);
    assert!(store.lent.cards[1..].iter().flatten().all(|word| *word == 0));
    assert!(store.lent.lists.iter().all(|item| *item == 0));
}

#[test]
fn a_tidy_with_nothing_to_do_is_65() {
    let mut store = Client::new(16, 1);
    assert_eq!(store.ask_in_vain(Ask::Tidy), Reply::Not(65));
    store.flush_table([1], "v");
    store.flush_table([2], "v");
    // Two are level 0's capacity and not above it.
    assert_eq!(store.ask_in_vain(Ask::Tidy), Reply::Not(65));
}

#[test]
fn move_link_and_merge_in_turn() {
    let mut store = Client::new(16, 1);
    for key in 1..=3 {
        store.flush_table([key], "v");
    }
    assert_eq!(store.ask_one(Ask::Tidy), Reply::Step(1, 0));
    assert_eq!((store.level(0), store.level(1)), (&[1, 2][..], &[0][..]));
    store.flush_table([1, 9], "w");
    assert_eq!(store.ask_one(Ask::Tidy), Reply::Step(2, 0));
    assert_eq!((store.level(0), store.level(1)), (&[2, 3][..], &[0][..]));
    assert_eq!(store.lent.cards[0][..6], [1, 1, 1, 0, u64::MAX, 1]);
    assert_eq!(store.lent.cards[1][..2], [2, 0]);
    assert_eq!(store.ask_one(Ask::Tidy), Reply::Step(3, 1));
    // The result took place 4; places 0 and 1 are free and keep their bytes.
    assert_eq!((store.level(0), store.level(1)), (&[2, 3][..], &[4][..]));
    assert_eq!(store.lent.head[1], 5);
    assert_eq!((store.lent.cards[0], store.lent.cards[1]), (ROW_FREE, ROW_FREE));
    assert_eq!(store.lent.area[0..9], [21, 0, 32, 0, 1, 0, 0, 0, 13]);
    let merged =
        [34, 0, 32, 0, 2, 0, 0, 0, 13, 0, 1, 0, 1, 0, 0, 0, 0, 0, 0, 0, b'v', 13, 0, 1, 0, 2];
    assert_eq!(store.lent.area[4096..4096 + merged.len()], merged);
    assert_eq!(store.ask_in_vain(Ask::Tidy), Reply::Not(65));
    assert_eq!(store.ask_one(Ask::Report), Reply::Counts([13, 2, 1, 0, 0, 0, 0, 0]));
}

#[test]
fn the_cursor_goes_round_and_passes_places_in_use() {
    let mut store = Client::with_tables(16, 4, &[(0, &[1]), (0, &[2])]);
    store.lent.head[1] = 15;
    store.flush_table([3], "v");
    assert_eq!((store.lent.head[1], store.level(0)), (0, &[0, 1, 15][..]));
    store.flush_table([4], "v");
    assert_eq!((store.lent.head[1], store.level(0)), (3, &[0, 1, 15, 2][..]));
}

#[test]
fn a_merge_on_level_3_drops_delete_marks_and_may_leave_no_table() {
    let store = Client::with_tables(16, 1, &[(3, &[5])]);
    let mut store = store.freeze(1, &marks([5]), &[(0, 0, GREATEST)]);
    assert_eq!(store.ask_one(Ask::LookUp(5)), Reply::Not(64));
    assert_eq!(store.ask_one(Ask::Tidy), Reply::Step(3, 3));
    assert_eq!(store.ask_one(Ask::Report), Reply::Counts([16, 0, 0, 0, 0, 0, 0, 0]));
    assert!(store.lent.cards.iter().flatten().all(|word| *word == 0));
    assert_eq!(store.lent.area[..1024], table(&[5]));
    // No place was taken, so the cursor stays.
    assert_eq!(store.lent.head, [1, 1, 0, 0, 0, 0, 0, 0, 0, 0]);
}

#[test]
fn a_merge_keeps_a_delete_mark_over_an_older_value() {
    // A value of key 5 stands on level 2, and its delete mark comes down to level 1.
    let mut store = Client::with_tables(16, 1, &[(2, &[5]), (1, &[10])]);
    store.ask(&[Ask::Delete(5), Ask::Flush]);
    store.flush_table([20], "v");
    store.flush_table([30], "v");
    assert_eq!(store.ask(&[Ask::Tidy, Ask::Tidy]), [Reply::Step(2, 0), Reply::Step(3, 1)]);
    assert_eq!(store.level(1), [5]);
    assert_eq!(store.lent.place(5), table_of(&[marks([5]), digits(&[10])].concat()));
    assert_eq!(store.ask_one(Ask::LookUp(5)), Reply::Not(64));
}

#[test]
fn a_link_goes_by_the_spans_below() {
    let tables: [(usize, &[u64]); 5] =
        [(1, &[10, 12, 14]), (1, &[50]), (0, &[25]), (0, &[1]), (0, &[2])];
    let store = Client::with_tables(16, 4, &tables);
    // The link's range makes the first table's span end at 30.
    let mut store = store.freeze(5, &digits(&[20]), &[(0, 5, 30)]);
    assert_eq!(store.ask_one(Ask::Tidy), Reply::Step(2, 0));
    assert_eq!(store.lent.cards[0][..10], [1, 2, 5, 5, 30, 1, 2, 0, 30, 1]);
    assert_eq!(store.lent.cards[1][..3], [1, 0, 0]);
}

#[test]
fn a_move_keeps_the_bytes_and_the_card_of_the_table() {
    let keys: Vec<[u64; 1]> = (100..133).map(|key| [key]).collect();
    let tables: Vec<(usize, &[u64])> = keys.iter().map(|key| (2, &key[..])).collect();
    let mut store = Client::with_tables(64, 4, &tables);
    store.lent.area[..1024].copy_from_slice(&table_of(&marks([50, 60])));
    summarize(&mut store.lent.cards[0], [50, 60]);
    let before = store.lent.clone();
    assert_eq!(store.ask_one(Ask::Tidy), Reply::Step(1, 2));
    assert_eq!(store.level(3), [0]);
    assert!(store.lent.area == before.area && store.lent.cards == before.cards);
    // The mark of level 2 is set by a choice that ends in a move, too, and that of level 1 is not.
    assert_eq!(store.lent.head[2..6], [0, 0, 1, 60]);
}

/// Fifteen places in use and one free; the table in place 0 with a link to place 14, so that its merge is due.
fn one_place_free(level: usize, frozen: &[(u64, Option<String>)]) -> Client {
    let own: Vec<u64> = (1..=16).collect();
    let mut tables: Vec<(usize, &[u64])> = vec![(level, &own)];
    tables.extend([(0, &[500][..]); 13]);
    Client::with_tables(16, 1, &tables).freeze(14, frozen, &[(0, 0, GREATEST)])
}

#[test]
fn a_merge_wants_places_for_what_is_left_after_the_newer_won() {
    let same: Vec<u64> = (1..=16).collect();
    let mut store = one_place_free(1, &digits(&same));
    assert_eq!(store.ask_one(Ask::Tidy), Reply::Step(3, 1));
    assert_eq!(store.level(1), [15]);
    assert_eq!(store.ask_one(Ask::Report), Reply::Counts([2, 13, 1, 0, 0, 0, 0, 0]));
    // One key more makes a second table.
    let more: Vec<u64> = (2..=17).collect();
    assert_eq!(one_place_free(1, &digits(&more)).ask_in_vain(Ask::Tidy), Reply::Not(20));
}

#[test]
fn a_merge_wants_no_place_for_delete_marks_that_go() {
    for level in 1..=3 {
        let mut store = one_place_free(level, &marks(21..=36));
        assert_eq!(store.ask_one(Ask::Tidy), Reply::Step(3, level as u16));
        assert_eq!(store.lent.place(15), table(&(1..=16).collect::<Vec<u64>>()));
    }
}

#[test]
fn results_of_a_merge_are_cut_after_16_in_key_order() {
    let own: Vec<u64> = (1..=16).map(|key| 10 * key).collect();
    let slice: Vec<u64> = (1..=16).map(|key| 10 * key + 5).collect();
    let store = Client::with_tables(16, 1, &[(1, &own), (1, &[900])]);
    let mut store = store.freeze(2, &digits(&slice[..15]), &[(0, 0, 200)]);
    assert_eq!(store.ask_one(Ask::Tidy), Reply::Step(3, 1));
    // 31 entries in tables of 16 and 15, in places 3 and 4, before the table that was behind.
    assert_eq!(store.level(1), [3, 4, 1]);
    let mut all = [&own[..], &slice[..15]].concat();
    all.sort();
    assert_eq!(store.lent.place(3), table(&all[..16]));
    assert_eq!(store.lent.place(4), table(&all[16..]));
    assert_eq!(store.lent.head[1], 5);
}
