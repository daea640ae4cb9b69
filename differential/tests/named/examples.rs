//! The order's checked examples P1 to P10, on stores put together by hand where no short history leads to them.

use crate::client::{list, table, Ask, Client, Reply, GREATEST};

#[test]
fn p1_look_up_in_a_new_store() {
    assert_eq!(Client::new(16, 1).ask_in_vain(Ask::LookUp(5)), Reply::Not(64));
}

#[test]
fn p2_put_delete_look_up() {
    let asks = [Ask::Put(5, "A"), Ask::Delete(5), Ask::LookUp(5)];
    let expected = [Reply::Done, Reply::Done, Reply::Not(64)];
    assert_eq!(Client::new(16, 1).ask(&asks), expected);
}

#[test]
fn p3_and_p4_with_16_keys_in_memory() {
    let mut store = Client::new(16, 1);
    store.ask(&(0..16).map(|key| Ask::Put(key, "")).collect::<Vec<Ask>>());
    assert_eq!(store.ask_in_vain(Ask::Put(16, "")), Reply::Not(18));
    assert_eq!(store.ask_one(Ask::Put(15, "x")), Reply::Done);
}

#[test]
fn p5_flush_of_an_empty_memory() {
    assert_eq!(Client::new(16, 1).ask_in_vain(Ask::Flush), Reply::Not(65));
}

#[test]
fn p6_the_oldest_of_three_tables_moves() {
    let mut store = Client::with_tables(16, 2, &[(0, &[1]), (0, &[2]), (0, &[3])]);
    assert_eq!(store.ask_one(Ask::Tidy), Reply::Step(1, 0));
    assert_eq!((store.level(0), store.level(1)), (&[1, 2][..], &[0][..]));
}

/// Three tables below in places 0 to 2, on level 0 the chosen one in place 3 and two newer.
pub fn p7(threshold: u64, chosen: &[u64]) -> Client {
    let below: [(usize, &[u64]); 3] = [(1, &[10, 20]), (1, &[30, 40]), (1, &[50, 60])];
    let above: [(usize, &[u64]); 3] = [(0, chosen), (0, &[1]), (0, &[2])];
    Client::with_tables(32, threshold, &[below, above].concat())
}

#[test]
fn p7_three_links_cover_all_keys() {
    let mut store = p7(4, &[5, 25, 70]);
    assert_eq!(store.ask_one(Ask::Tidy), Reply::Step(2, 0));
    assert_eq!(store.lent.cards[0][..8], [1, 1, 3, 0, 20, 1, 0, 0]);
    assert_eq!(store.lent.cards[1][..8], [1, 1, 3, 21, 40, 1, 0, 0]);
    assert_eq!(store.lent.cards[2][..8], [1, 1, 3, 41, GREATEST, 1, 0, 0]);
    assert_eq!(store.lent.cards[3][..8], [2, 0, 0, 0, 0, 0, 0, 0]);
    assert_eq!((store.level(0), store.level(1)), (&[4, 5][..], &[0, 1, 2][..]));
    assert_eq!(store.ask_one(Ask::Report), Reply::Counts([26, 2, 3, 0, 0, 1, 3, 0]));
}

#[test]
fn p8_one_link_where_one_table_is_responsible() {
    let mut store = p7(4, &[5, 6]);
    assert_eq!(store.ask_one(Ask::Tidy), Reply::Step(2, 0));
    assert_eq!(store.lent.cards[0][..8], [1, 1, 3, 0, 20, 2, 0, 0]);
    assert_eq!((store.lent.cards[1][1], store.lent.cards[2][1]), (0, 0));
}

#[test]
fn p9_the_third_merge_frees_the_frozen_place() {
    let mut store = p7(1, &[5, 25, 70]);
    assert_eq!(store.ask_one(Ask::Tidy), Reply::Step(2, 0));
    for merge in 0..3 {
        assert_eq!(store.lent.cards[3][0], 2, "before merge {merge}");
        assert_eq!(store.ask_one(Ask::Tidy), Reply::Step(3, 1));
    }
    assert_eq!(store.lent.cards[3][0], 0);
    assert_eq!(store.level(1), [6, 7, 8]);
    assert_eq!(store.lent.place(6), table(&[5, 10, 20]));
    assert_eq!(store.lent.place(7), table(&[25, 30, 40]));
    assert_eq!(store.lent.place(8), table(&[50, 60, 70]));
    assert_eq!(store.ask_in_vain(Ask::Tidy), Reply::Not(65));
}

/// Three tables on level 0, so many on level 1, one on level 2.
fn p10(on_level_1: u64) -> Client {
    let keys: Vec<[u64; 1]> = (0..on_level_1).map(|key| [100 + key]).collect();
    let mut tables: Vec<(usize, &[u64])> = keys.iter().map(|key| (1, &key[..])).collect();
    tables.extend([(0, &[1][..]), (0, &[2][..]), (0, &[3][..]), (2, &[500][..])]);
    Client::with_tables(32, 4, &tables)
}

#[test]
fn p10_the_fullest_level_with_ties_to_the_lower() {
    let mut tied = p10(12);
    assert_eq!(tied.ask_one(Ask::Tidy), Reply::Step(2, 0));
    // Level 0 has no mark.
    assert_eq!(tied.lent.head[2..6], [0, 0, 0, 0]);
    let mut fuller = p10(13);
    assert_eq!(fuller.ask_one(Ask::Tidy), Reply::Step(2, 1));
    assert_eq!(fuller.lent.head[2..6], [1, 100, 0, 0]);
}

#[test]
fn the_program_s_example_as_bytes() {
    let asks = list(&[Ask::Put(5, "A"), Ask::LookUp(5)]);
    let input =
        [0x0D, 0, 1, 0, 5, 0, 0, 0, 0, 0, 0, 0, 0x41, 0x0C, 0, 3, 0, 5, 0, 0, 0, 0, 0, 0, 0];
    assert_eq!(asks, input);
    let (outcome, answers) = Client::new(32, 4).run(&input, 2048);
    assert_eq!((outcome.number, outcome.served, outcome.written), (0, 2, 13));
    assert_eq!(answers, [6, 0, 1, 0, 0, 0, 7, 0, 3, 0, 0, 0, 0x41]);
}
