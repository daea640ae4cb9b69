//! The order's checked examples, as bytes.

use crate::build::{hex, lent_of, new_lent, serve, store_of};
use reference::generate::requests::{delete, flush, look_up, put, scan, tidy};
use reference::lent::Lent;
use reference::program::survey;
use reference::store::{Link, Place, Store};
use reference::table::Key;
use reference::tidy::Step;

/// Replies without a body, or with the step and level of a tidy.
const LOOK_UP_64: &str = "06 00 03 00 40 00";
const PUT_DONE: &str = "06 00 01 00 00 00";
const DELETE_DONE: &str = "06 00 02 00 00 00";

const P7_BELOW: [(usize, &[Key]); 3] = [(1, &[10, 20]), (1, &[30, 40]), (1, &[50, 60])];

/// The store of P7: three tables below, and on level 0 the chosen one with two newer.
fn p7(threshold: usize, chosen: &[Key]) -> Store {
    let mut tables: Vec<(usize, &[Key])> = P7_BELOW.to_vec();
    tables.extend([(0, chosen), (0, &[1][..]), (0, &[2][..])]);
    store_of(32, threshold, &tables)
}

fn decoded(lent: &Lent) -> Store {
    Store::decode(lent).expect("sound")
}

#[test]
fn p1_look_up_in_a_new_store() {
    let mut lent = new_lent(16, 1);
    assert_eq!(serve(&mut lent, &[look_up(5)]).answers, hex(LOOK_UP_64));
}

#[test]
fn p2_put_delete_look_up() {
    let mut lent = new_lent(16, 1);
    let answers = serve(&mut lent, &[put(5, b"A"), delete(5), look_up(5)]).answers;
    assert_eq!(answers, hex(&[PUT_DONE, DELETE_DONE, LOOK_UP_64].concat()));
}

fn sixteen_keys() -> Vec<Vec<u8>> {
    (0..16).map(|key| put(key, &[key as u8])).collect()
}

#[test]
fn p3_a_new_key_when_the_memory_is_full() {
    let mut lent = new_lent(16, 1);
    serve(&mut lent, &sixteen_keys());
    let before = lent.clone();
    assert_eq!(serve(&mut lent, &[put(16, b"x")]).answers, hex("06 00 01 00 12 00"));
    assert_eq!(serve(&mut lent, &[delete(16)]).answers, hex("06 00 02 00 12 00"));
    assert_eq!(lent, before);
}

#[test]
fn p4_a_repeated_key_when_the_memory_is_full() {
    let mut lent = new_lent(16, 1);
    serve(&mut lent, &sixteen_keys());
    let answers = serve(&mut lent, &[put(15, b"x"), look_up(15)]).answers;
    assert_eq!(answers, hex(&[PUT_DONE, "07 00 03 00 00 00 78"].concat()));
}

#[test]
fn p5_flush_of_an_empty_memory() {
    let mut lent = new_lent(16, 1);
    assert_eq!(serve(&mut lent, &[flush()]).answers, hex("06 00 05 00 41 00"));
}

#[test]
fn p6_the_oldest_of_three_tables_moves() {
    let mut lent = lent_of(16, 2, &[(0, &[1]), (0, &[2]), (0, &[3])]);
    assert_eq!(decoded(&lent).name_step(), Step::Moved { level: 0, place: 0 });
    assert_eq!(serve(&mut lent, &[tidy()]).answers, hex("0A 00 06 00 00 00 01 00 00 00"));
    assert_eq!(decoded(&lent).levels, [vec![1, 2], vec![0], vec![], vec![]]);
}

#[test]
fn p7_three_links_cover_all_keys() {
    let store = p7(4, &[5, 25, 70]);
    let link = |on: usize, low, high| (on, Link { place: 3, low, high, number: 1 });
    let links = vec![link(0, 0, 20), link(1, 21, 40), link(2, 41, Key::MAX)];
    assert_eq!(store.name_step(), Step::Linked { level: 0, place: 3, links });
    let mut lent = store.encode();
    assert_eq!(serve(&mut lent, &[tidy()]).answers, hex("0A 00 06 00 00 00 02 00 00 00"));
    assert_eq!(lent.cards[0][..6], [1, 1, 3, 0, 20, 1]);
    assert_eq!(lent.cards[1][..6], [1, 1, 3, 21, 40, 1]);
    assert_eq!(lent.cards[2][..6], [1, 1, 3, 41, Key::MAX, 1]);
    assert_eq!((lent.cards[3].len(), lent.cards[3][0]), (38, 2));
    assert!(lent.cards[3][1..34].iter().all(|word| *word == 0));
    // The bits 5, 25 and 70.
    assert_eq!(lent.cards[3][34..], [1 << 5 | 1 << 25, 1 << (70 - 64), 0, 0]);
}

#[test]
fn p8_one_link_where_one_table_is_responsible() {
    let mut lent = p7(4, &[5, 6]).encode();
    serve(&mut lent, &[tidy()]);
    let counts: Vec<u64> = lent.cards[..3].iter().map(|card| card[1]).collect();
    assert_eq!(counts, [1, 0, 0]);
    assert_eq!(lent.cards[0][..6], [1, 1, 3, 0, 20, 2]);
}

#[test]
fn p9_the_third_merge_frees_the_frozen_place() {
    let mut lent = p7(1, &[5, 25, 70]).encode();
    serve(&mut lent, &[tidy()]);
    for merge in 0..3 {
        assert_ne!(decoded(&lent).places[3], Place::Free, "before merge {merge}");
        assert_eq!(serve(&mut lent, &[tidy()]).answers, hex("0A 00 06 00 00 00 03 00 01 00"));
    }
    let store = decoded(&lent);
    assert_eq!(store.places[3], Place::Free);
    assert_eq!(store.levels[1].len(), 3);
    let keys: Vec<Key> =
        store.levels[1].iter().flat_map(|place| store.live(*place).0.keys().copied()).collect();
    assert_eq!(keys, [5, 10, 20, 25, 30, 40, 50, 60, 70]);
    assert_eq!(serve(&mut lent, &[tidy()]).answers, hex("06 00 06 00 41 00"));
}

#[test]
fn p10_the_fullest_level_with_ties_to_the_lower() {
    let chosen_from = |on_level_1: u64| {
        let keys: Vec<[Key; 1]> = (0..on_level_1).map(|key| [100 + key]).collect();
        let mut tables: Vec<(usize, &[Key])> = keys.iter().map(|key| (1, &key[..])).collect();
        tables.extend([(0, &[1][..]), (0, &[2][..]), (0, &[3][..]), (2, &[500][..])]);
        let mut lent = lent_of(32, 4, &tables);
        serve(&mut lent, &[tidy()]).answers
    };
    assert_eq!(chosen_from(12), hex("0A 00 06 00 00 00 02 00 00 00"));
    assert_eq!(chosen_from(13), hex("0A 00 06 00 00 00 02 00 01 00"));
}

#[test]
fn scan_over_seventeen_and_sixteen_values() {
    let mut lent = new_lent(16, 4);
    let mut requests = sixteen_keys();
    requests.extend([flush(), put(16, &[16])]);
    serve(&mut lent, &requests);
    let entries: String =
        (0..16).map(|key| format!("0D00 0100 {key:02X}00000000000000 {key:02X}")).collect();
    let expected = |more: &str| hex(&format!("DA00 0400 0000 1000 {more} {entries}"));
    assert_eq!(serve(&mut lent, &[scan(0, 16)]).answers, expected("0100"));
    assert_eq!(serve(&mut lent, &[scan(0, 15)]).answers, expected("0000"));
}

#[test]
fn the_program_answers_the_order_s_input() {
    let input = "0D 00 01 00 05 00 00 00 00 00 00 00 41 0C 00 03 00 05 00 00 00 00 00 00 00";
    assert_eq!(survey(&hex(input)), hex("06 00 01 00 00 00 07 00 03 00 00 00 41"));
}
