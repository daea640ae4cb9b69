//! Opening a saved book (note 4): the same book over as many places, more places, what is refused of the store as opened, and the
//! order of refusals. Bytes that are not of the form are in `book_form`.

use crate::client::{digits, Ask, Client, Reply};
use crate::saving::{key, linked, pair, saved, WRONG_SIZES};
use differential::open;
use reference::lent::*;

/// A row that no card is.
pub const ODD_ROW: Row = [0xEEEE_EEEE; ROW_WORDS];

/// Lent memory with this area and a book that is no store.
pub fn over(area: &[u8]) -> Lent {
    let places = area.len() / 1024;
    let mut lent = Lent::zeroed(places);
    lent.area = area.to_vec();
    lent.cards.fill(ODD_ROW);
    lent.lists.fill(0xEEEE);
    lent.head.fill(0xEEEE);
    lent.memory.fill(0xEE);
    lent
}

/// Opens; gives number and letter. A refusal changes nothing; the working rows are as they were but with 0 and 5.
pub fn opened(lent: &mut Lent, book: &[u8]) -> (u64, u64) {
    let before = lent.clone();
    let mut working = vec![ODD_ROW; lent.cards.len()];
    let said = open(lent, book, &mut working);
    match said.0 {
        0 => assert_eq!(working, lent.cards),
        5 => assert_ne!(working, vec![ODD_ROW; lent.cards.len()]),
        _ => assert_eq!(working, vec![ODD_ROW; lent.cards.len()]),
    }
    if said.0 != 0 {
        assert_eq!(lent.difference(&before), None, "a refusal changed something");
    }
    said
}

/// Number and letter of opening over this area.
pub fn said(book: &[u8], area: &[u8]) -> (u64, u64) {
    opened(&mut over(area), book)
}

/// The book with its own length in front.
pub fn with_length(mut book: Vec<u8>) -> Vec<u8> {
    let length = (book.len() as u32).to_le_bytes();
    book[..4].copy_from_slice(&length);
    book
}

#[test]
fn the_same_book_over_as_many_places() {
    let store = linked().0;
    let mut lent = over(&store.lent.area);
    assert_eq!(opened(&mut lent, &saved(&store.lent)), (0, 0));
    assert_eq!(lent.difference(&store.lent), None);
    // What the lent book held before does not matter: another store, or the same.
    let mut other = Client::with_tables(16, 2, &[(2, &[1]), (2, &[2])]);
    other.lent.area = store.lent.area.clone();
    assert_eq!(opened(&mut other.lent, &saved(&store.lent)), (0, 0));
    assert_eq!(other.lent.difference(&store.lent), None);
    assert_eq!(opened(&mut other.lent, &saved(&store.lent)), (0, 0));
    assert_eq!(other.lent.difference(&store.lent), None);
}

#[test]
fn added_places_are_free_and_all_else_is_kept() {
    let store = linked().0;
    for places in [17, 18, 32, 4095, 4096] {
        let mut area = store.lent.area.clone();
        area.resize(places * 1024, 0xAB);
        let mut lent = over(&area);
        assert_eq!(opened(&mut lent, &saved(&store.lent)), (0, 0), "{places}");
        assert_eq!(lent.area, area);
        assert_eq!(lent.head, store.lent.head);
        assert_eq!(lent.memory, store.lent.memory);
        assert_eq!(lent.cards[..16], store.lent.cards);
        assert!(lent.cards[16..].iter().all(|row| *row == ROW_FREE));
        for level in 0..4 {
            let (list, old) = (&lent.lists[level * places..][..places], &store.lent.lists);
            assert_eq!(list[..16], old[level * 16..][..16]);
            assert!(list[16..].iter().all(|item| *item == 0));
        }
    }
}

#[test]
fn a_store_at_20_everywhere_goes_on_over_twice_the_places() {
    let mut store = Client::new(16, 1);
    for number in 0..16 {
        store.flush_table([number, 100 + number], "v");
    }
    // No place for a flush; a tidy moves, links, and then a merge finds none either.
    store.ask_one(Ask::Put(1000, "late"));
    assert_eq!(store.ask_in_vain(Ask::Flush), Reply::Not(20));
    assert_eq!(store.ask_one(Ask::Tidy), Reply::Step(1, 0));
    assert_eq!(store.ask_one(Ask::Tidy), Reply::Step(2, 0));
    assert_eq!(store.ask_in_vain(Ask::Tidy), Reply::Not(20));
    assert_eq!(store.ask_in_vain(Ask::Flush), Reply::Not(20));
    let book = saved(&store.lent);
    let mut area = store.lent.area.clone();
    area.resize(32 * 1024, 0xCD);
    let mut larger = Client { lent: over(&area) };
    assert_eq!(opened(&mut larger.lent, &book), (0, 0));
    // The cursor is kept: the first free place counting up from it is the first added one.
    assert_eq!(larger.lent.head[HEAD_CURSOR], 0);
    assert_eq!(larger.ask_one(Ask::Flush), Reply::Done);
    assert_eq!(larger.lent.head[HEAD_CURSOR], 17);
    assert_eq!(larger.ask_one(Ask::Tidy), Reply::Step(3, 1));
    let value = |text: &str| Reply::Value(text.into());
    for number in 0..16 {
        let both = [Ask::LookUp(number), Ask::LookUp(100 + number)];
        assert_eq!(larger.ask(&both), [value("v"), value("v")]);
    }
    assert_eq!(larger.ask_one(Ask::LookUp(1000)), value("late"));
    assert_eq!(larger.ask_one(Ask::LookUp(50)), Reply::Not(64));
}

#[test]
fn wrong_sizes_are_1_before_21() {
    let (store, _) = linked();
    let book = saved(&store.lent);
    for misshape in WRONG_SIZES {
        let mut lent = over(&store.lent.area);
        misshape(&mut lent);
        assert_eq!(opened(&mut lent, &book), (1, 0));
        assert_eq!(opened(&mut lent, &[]), (1, 0));
        assert_eq!(opened(&mut lent, &book[..100]), (1, 0));
    }
}

#[test]
fn working_rows_not_as_many_as_cards_are_1() {
    let (store, _) = linked();
    let book = saved(&store.lent);
    for rows in [0, 1, 15, 17, 32] {
        let mut lent = over(&store.lent.area);
        let before = lent.clone();
        let mut working = vec![ODD_ROW; rows];
        for book in [&book[..], &book[..9]] {
            assert_eq!(open(&mut lent, book, &mut working), (1, 0));
            assert_eq!(lent.difference(&before), None);
            assert_eq!(working, vec![ODD_ROW; rows]);
        }
    }
}

#[test]
fn fewer_places_are_22_after_21_and_before_5() {
    let store = Client::with_tables(18, 4, &[(0, &[5]), (0, &[6])]);
    let mut book = saved(&store.lent);
    let fewer = [&store.lent.area[..16 * 1024], &store.lent.area[..17 * 1024]];
    for area in fewer {
        assert_eq!(said(&book, area), (22, 0));
    }
    // A threshold of 9 and an item beyond: both 5.
    book[8] = 9;
    book[106] = 200;
    for area in fewer {
        assert_eq!(said(&book, area), (22, 0));
    }
    assert_eq!(said(&book, &store.lent.area), (5, u64::from(b'A')));
    // A state of 3 on the last card.
    book[32 + 4 * 17] = 3;
    for area in fewer.into_iter().chain([&store.lent.area[..]]) {
        assert_eq!(said(&book, area), (21, 0));
    }
}

/// The letter of 5 over as many places and over more.
fn breaks(change: impl Fn(&mut Vec<u8>), letter: u8) {
    let (store, _) = linked();
    let mut book = saved(&store.lent);
    change(&mut book);
    let mut area = store.lent.area.clone();
    assert_eq!(said(&book, &area), (5, u64::from(letter)));
    area.resize(20 * 1024, 0);
    assert_eq!(said(&book, &area), (5, u64::from(letter)));
}

#[test]
fn the_store_as_opened_is_5_with_its_letter() {
    // Threshold 0, 9, 256; a cursor beyond the larger area.
    breaks(|book| book[8] = 0, b'A');
    breaks(|book| book[8] = 9, b'A');
    breaks(|book| book[9] = 1, b'A');
    breaks(|book| book[10] = 20, b'A');
    // A listed card made free or frozen, a free one live; an item out of range; an item twice.
    breaks(|book| book[32] = 0, b'B');
    breaks(|book| book[32] = 2, b'B');
    breaks(|book| book[88] = 1, b'B');
    breaks(|book| book[138] = 99, b'B');
    breaks(|book| book[145] = 1, b'B');
    breaks(|book| book[142] = 2, b'B');
    // A free place of zeros made frozen.
    breaks(|book| book[88] = 2, b'C');
    // Memory keys: equal, and falling.
    breaks(|book| book[156] = 9, b'D');
    breaks(|book| book[156] = 10, b'D');
    // A link's place, low, high and number; the frozen place made free.
    breaks(|book| book[40] = 2, b'E');
    breaks(|book| book[40] = 16, b'E');
    breaks(|book| book[41] = 255, b'E');
    breaks(|book| book[42] = 13, b'E');
    breaks(|book| book[50] = 26, b'E');
    breaks(|book| book[58] = 1, b'E');
    breaks(|book| book[84] = 0, b'E');
    // The two tables of level 1 the other way round.
    breaks(|book| (book[142], book[144]) = (2, 1), b'G');
}

#[test]
fn more_than_t_links_and_links_on_a_card_that_is_not_live() {
    let store = Client::with_tables(16, 2, &[(1, &[10, 20])]);
    let store = store.freeze(1, &digits(&[11, 12]), &[(0, 11, 11), (0, 12, 12)]);
    let mut book = saved(&store.lent);
    // Threshold 1, and two links.
    book[8] = 1;
    assert_eq!(said(&book, &store.lent.area), (5, u64::from(b'E')));
    book[8] = 2;
    assert_eq!(said(&book, &store.lent.area), (0, 0));
    // The frozen card gains a link, all there.
    let at = 32 + 4 + 2 * 20;
    assert_eq!(book[at..at + 4], [2, 0, 0, 0]);
    let link = [pair(1), pair(1), key(11), key(11), pair(1)].concat();
    book.splice(at + 2..at + 4, link);
    assert_eq!(said(&with_length(book), &store.lent.area), (5, u64::from(b'B')));
}

#[test]
fn a_frozen_place_without_a_link_is_f() {
    let store = Client::with_tables(16, 2, &[(1, &[10, 20])]);
    let store = store.freeze(1, &digits(&[11]), &[(0, 11, 11)]);
    let mut book = saved(&store.lent);
    book.splice(34..56, pair(0));
    assert_eq!(said(&with_length(book), &store.lent.area), (5, u64::from(b'F')));
}

#[test]
fn places_that_changed_since_saving() {
    let (store, _) = linked();
    let book = saved(&store.lent);
    let over_changed = |place: usize, byte: usize, value: u8| {
        let mut area = store.lent.area.clone();
        area[place * 1024 + byte] = value;
        said(&book, &area)
    };
    // Live, frozen, free.
    assert_eq!(over_changed(0, 2, 31), (5, u64::from(b'C')));
    assert_eq!(over_changed(3, 2, 31), (5, u64::from(b'C')));
    assert_eq!(over_changed(3, 12, 26), (5, u64::from(b'C')));
    assert_eq!(over_changed(9, 2, 31), (0, 0));
    // A value alone: a table still, and nothing tells.
    assert_eq!(over_changed(0, 20, b'X'), (0, 0));
}
