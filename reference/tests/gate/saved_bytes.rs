//! The bytes of a small saved book (note 4): written out by hand, changed in every byte to every value, cut and lengthened, and
//! opened over areas of other sizes and other content.

use crate::build::{hex, new_lent};
use reference::generate::random::{any_lent, Random};
use reference::generate::told::{self, told};
use reference::implementation::{Implementation, Reference, Saved};
use reference::lent::{Lent, ROW_FREE};
use reference::limits::PLACE_BYTES;
use reference::trial::UNTOUCHED;
use std::collections::BTreeMap;

const SUBJECT: Reference = Reference { slip: None };

/// The bytes that saving writes into a buffer of just the right length.
fn saved(lent: &Lent) -> Vec<u8> {
    let mut buffer = vec![UNTOUCHED; 1 << 16];
    let Saved { number, letter, length } = SUBJECT.save(lent, &mut buffer);
    assert_eq!((number, letter), (0, 0));
    assert!(buffer.split_off(length).iter().all(|byte| *byte == UNTOUCHED));
    buffer
}

/// Opens bytes over an area, in memory of any content; gives what it says, and the store where it is accepted.
fn opened(bytes: &[u8], area: &[u8]) -> ((u16, u8), Option<Lent>) {
    let mut lent = any_lent(&mut Random::new(7), area.len() / PLACE_BYTES);
    lent.area.copy_from_slice(area);
    let before = lent.clone();
    let mut working = vec![ROW_FREE; lent.cards.len()];
    let said = SUBJECT.open(&mut lent, bytes, &mut working);
    assert_eq!(lent == before, said.0 != 0, "{said:?}");
    (said, (said.0 == 0).then_some(lent))
}

#[test]
fn a_new_store_in_hexadecimal() {
    let front = "6A 00 00 00 30 00 10 00 04 00 00 00";
    let marks = "00 00 00 00 00 00 00 00 00 00".repeat(2);
    let cards = "00 00 00 00".repeat(16);
    let lists_and_memory = "00 00".repeat(5);
    let expected = hex(&[front, &marks, &cards, &lists_and_memory].concat());
    assert_eq!(expected.len(), 106);
    let lent = new_lent(16, 4);
    assert_eq!(saved(&lent), expected);
    assert_eq!(opened(&expected, &lent.area), ((0, 0), Some(lent)));
}

#[test]
fn the_small_book_is_that_of_the_small_store() {
    assert_eq!(told::book().len(), 178);
    assert_eq!(saved(&told::store()), told::book());
    assert_eq!(opened(&told::book(), &told::area()), ((0, 0), Some(told::store())));
}

#[test]
fn every_byte_changed_to_every_value_gives_the_number_told() {
    let (book, area) = (told::book(), told::area());
    let mut counts: BTreeMap<(u16, u8), u32> = BTreeMap::new();
    for at in 0..book.len() {
        for value in (0..=255).filter(|value| *value != book[at]) {
            let mut bytes = book.clone();
            bytes[at] = value;
            let (said, store) = opened(&bytes, &area);
            assert_eq!(said, told(at, value), "byte {at} made {value}");
            *counts.entry(said).or_default() += 1;
            // What is accepted over as many places is what saving would write.
            if let Some(store) = store {
                assert_eq!(saved(&store), bytes);
            }
        }
    }
    assert_eq!(counts.values().sum::<u32>(), 178 * 255);
    // Accepted, not of the form, and all letters but G: no one byte changes the order of two tables.
    assert_eq!(counts.len(), 8, "{counts:?}");
}

#[test]
fn every_cut_and_every_lengthened_book_is_21() {
    let (book, area) = (told::book(), told::area());
    let with_length = |mut bytes: Vec<u8>| {
        let length = bytes.len() as u32;
        bytes.iter_mut().zip(length.to_le_bytes()).for_each(|(byte, of_length)| *byte = of_length);
        bytes
    };
    for length in 0..book.len() {
        assert_eq!(opened(&book[..length], &area).0, (21, 0), "cut to {length}");
        assert_eq!(opened(&with_length(book[..length].to_vec()), &area).0, (21, 0));
    }
    for more in 1..300 {
        for value in [0, 1, 13, 255] {
            let long = [book.clone(), vec![value; more]].concat();
            assert_eq!(opened(&long, &area).0, (21, 0), "{more} more");
            assert_eq!(opened(&with_length(long), &area).0, (21, 0), "{more} more, counted");
        }
    }
}

#[test]
fn areas_of_other_sizes_and_other_content() {
    for (name, change, said) in told::AREAS {
        let mut area = told::area();
        change(&mut area);
        let (number, store) = opened(&told::book(), &area);
        assert_eq!(number, said, "{name}");
        if let Some(store) = store {
            assert_eq!(store.head, told::store().head, "{name}");
            assert_eq!(store.memory, told::store().memory, "{name}");
            assert_eq!(store.cards[..16], told::cards_over(name), "{name}");
            assert!(store.cards[16..].iter().all(|row| *row == ROW_FREE), "{name}");
        }
    }
}

#[test]
fn a_cursor_is_good_where_the_area_has_that_place() {
    for (cursor, places, said) in told::CURSORS {
        let mut area = told::area();
        area.resize(places * PLACE_BYTES, 9);
        let (number, store) = opened(&told::book_with_cursor(cursor), &area);
        assert_eq!(number, said, "cursor {cursor}, {places} places");
        assert!(store.is_none_or(|store| store.head[1] == u64::from(cursor)), "kept");
    }
}

#[test]
fn an_area_with_fewer_places_is_22_before_5_and_after_21() {
    let mut lent = new_lent(18, 4);
    let mut book = saved(&lent);
    lent.area.truncate(17 * PLACE_BYTES);
    assert_eq!(opened(&book, &lent.area).0, (22, 0));
    lent.area.truncate(16 * PLACE_BYTES);
    assert_eq!(opened(&book, &lent.area).0, (22, 0));
    // A threshold of 9, which would be 5.
    book[8] = 9;
    assert_eq!(opened(&book, &lent.area).0, (22, 0));
    assert_eq!(opened(&book, &[0; 18 * PLACE_BYTES]).0, (5, b'A'));
    // A state of 3 on the last card.
    book[32 + 4 * 17] = 3;
    assert_eq!(opened(&book, &lent.area).0, (21, 0));
}
