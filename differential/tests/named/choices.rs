//! Which table a tidy takes: due merges first, then the choice in a level from its mark on.

use crate::client::{digits, Ask, Client, Reply};

/// Nine tables on level 1, one more than its capacity, with keys 100 and 103 to 180 and 183 in places 0 to 8; one on level 2 in
/// place 9. With two entries none is due at a link that holds one.
fn nine_tables(threshold: u64) -> Client {
    let keys: Vec<[u64; 2]> = (0..9).map(|table| [100 + 10 * table, 103 + 10 * table]).collect();
    let mut tables: Vec<(usize, &[u64])> = keys.iter().map(|key| (1, &key[..])).collect();
    tables.push((2, &[500]));
    Client::with_tables(32, threshold, &tables)
}

/// Sets the mark of level 1.
fn mark(mut store: Client, key: u64) -> Client {
    store.lent.head[2..4].copy_from_slice(&[1, key]);
    store
}

/// Tidies; the table in this place is linked down and its greatest key becomes the mark.
fn is_linked(mut store: Client, place: usize) {
    assert_eq!(store.ask_one(Ask::Tidy), Reply::Step(2, 1));
    assert_eq!(store.lent.cards[place][0], 2, "place {place} is not the one");
    assert_eq!(store.lent.head[2..6], [1, 103 + 10 * place as u64, 0, 0]);
}

#[test]
fn the_choice_begins_behind_the_mark() {
    is_linked(nine_tables(4), 0);
    is_linked(mark(nine_tables(4), 0), 0);
    is_linked(mark(nine_tables(4), 99), 0);
    is_linked(mark(nine_tables(4), 100), 1);
    is_linked(mark(nine_tables(4), 120), 3);
    is_linked(mark(nine_tables(4), 121), 3);
    is_linked(mark(nine_tables(4), 179), 8);
}

#[test]
fn the_choice_begins_at_the_first_where_none_is_behind_the_mark() {
    is_linked(mark(nine_tables(4), 180), 0);
    is_linked(mark(nine_tables(4), u64::MAX), 0);
}

#[test]
fn the_choice_passes_tables_with_links_and_goes_round() {
    let linked =
        |store: Client| store.freeze(10, &digits(&[171, 181]), &[(7, 171, 171), (8, 181, 181)]);
    is_linked(mark(linked(nine_tables(4)), 165), 0);
    is_linked(mark(linked(nine_tables(4)), 155), 6);
}

#[test]
fn where_all_have_links_the_first_behind_the_mark_is_merged() {
    // Each span begins five below its table's least key: the choice goes by own keys and begins at 130.
    let frozen: Vec<u64> = (0..9).map(|table| 96 + 10 * table).collect();
    let links: Vec<(usize, u64, u64)> =
        (0..9).map(|table| (table, 95 + 10 * table as u64, 100 + 10 * table as u64)).collect();
    let mut store = mark(nine_tables(2).freeze(10, &digits(&frozen), &links), 127);
    assert_eq!(store.ask_one(Ask::Tidy), Reply::Step(3, 1));
    assert_eq!(store.level(1), [0, 1, 2, 11, 4, 5, 6, 7, 8]);
    assert_eq!((store.lent.cards[3][0], store.lent.cards[10][0]), (0, 2));
    // The mark stays.
    assert_eq!(store.lent.head[2..6], [1, 127, 0, 0]);
}

#[test]
fn due_merges_come_by_level_and_then_by_keys() {
    let tables: [(usize, &[u64]); 4] = [(1, &[10]), (1, &[20]), (3, &[5]), (2, &[7])];
    let store = Client::with_tables(16, 1, &tables);
    let store = store.freeze(4, &digits(&[11, 21]), &[(0, 11, 11), (1, 21, 21)]);
    let mut store = store.freeze(5, &digits(&[6]), &[(2, 6, 6)]);
    assert_eq!(store.ask_one(Ask::Tidy), Reply::Step(3, 1));
    assert_eq!(store.level(1), [6, 1]);
    assert_eq!(store.ask_one(Ask::Tidy), Reply::Step(3, 1));
    assert_eq!(store.level(1), [6, 7]);
    assert_eq!(store.ask_one(Ask::Tidy), Reply::Step(3, 3));
    assert_eq!(store.ask_in_vain(Ask::Tidy), Reply::Not(65));
}
