//! The bytes of small saved books (note 4), opened by the proved store: every byte changed to every value, every cut and every longer
//! book, other areas and cursors, with numbers and letters told by hand; and more small books, in which each bit is changed, beside
//! the second implementation.

use differential::fuzz::sound_store;
use differential::Proved;
use reference::generate::book::Book;
use reference::generate::random::{any_lent, Random};
use reference::generate::told::{self, told};
use reference::implementation::Implementation;
use reference::lent::{Lent, ROW_FREE};
use reference::limits::PLACE_BYTES;
use reference::reached::Reached;
use reference::reopened::compare_open;

/// How many small books have each of their bits changed.
const BOOKS: u16 = 16;

/// Lent memory of any content with this area.
fn over(area: &[u8]) -> Lent {
    let mut lent = any_lent(&mut Random::new(7), area.len() / PLACE_BYTES);
    lent.area.copy_from_slice(area);
    lent
}

/// Opens bytes; a refusal changes nothing, and what is accepted over as many places is what saving would write.
fn said(bytes: &[u8], lent: &Lent, saved_places: usize) -> (u16, u8) {
    let mut opened = lent.clone();
    let rows = vec![ROW_FREE; lent.cards.len()];
    let said =
        compare_open(&Proved, &mut opened, bytes, &rows).unwrap_or_else(|words| panic!("{words}"));
    if said.0 != 0 {
        assert_eq!(opened.difference(lent), None);
    } else if opened.cards.len() == saved_places {
        let mut buffer = vec![0; bytes.len()];
        assert_eq!(Proved.save(&opened, &mut buffer).number, 0);
        assert_eq!(buffer, bytes);
    }
    said
}

fn told_said(bytes: &[u8], area: &[u8]) -> (u16, u8) {
    said(bytes, &over(area), told::PLACES)
}

#[test]
fn every_byte_changed_to_every_value_gives_the_number_told() {
    let (book, lent) = (told::book(), over(&told::area()));
    assert_eq!(said(&book, &lent, told::PLACES), (0, 0));
    for at in 0..book.len() {
        for value in (0..=255).filter(|value| *value != book[at]) {
            let mut bytes = book.clone();
            bytes[at] = value;
            assert_eq!(
                said(&bytes, &lent, told::PLACES),
                told(at, value),
                "byte {at} made {value}"
            );
        }
    }
}

/// The bytes with their own length in front.
fn with_length(mut bytes: Vec<u8>) -> Vec<u8> {
    let length = (bytes.len() as u32).to_le_bytes();
    bytes.iter_mut().zip(length).for_each(|(byte, of_length)| *byte = of_length);
    bytes
}

#[test]
fn every_cut_and_every_longer_book_is_21() {
    let (book, lent) = (told::book(), over(&told::area()));
    let is_21 = |bytes: &[u8]| assert_eq!(said(bytes, &lent, told::PLACES), (21, 0));
    for length in 0..book.len() {
        is_21(&book[..length]);
        is_21(&with_length(book[..length].to_vec()));
    }
    for more in 1..200 {
        for value in [0, 1, 13, 255] {
            let longer = [book.clone(), vec![value; more]].concat();
            is_21(&longer);
            is_21(&with_length(longer));
        }
    }
}

#[test]
fn areas_of_other_sizes_and_other_content() {
    for (name, change, expected) in told::AREAS {
        let mut area = told::area();
        change(&mut area);
        assert_eq!(told_said(&told::book(), &area), expected, "{name}");
    }
}

#[test]
fn a_cursor_is_good_where_the_area_has_that_place() {
    for (cursor, places, expected) in told::CURSORS {
        let mut area = told::area();
        area.resize(places * PLACE_BYTES, 9);
        let book = told::book_with_cursor(cursor);
        assert_eq!(told_said(&book, &area), expected, "cursor {cursor}, {places} places");
    }
}

/// What is said of some bytes, by name.
fn count(reached: &mut Reached, said: (u16, u8)) {
    reached.count(match said {
        (5, letter) => format!("letter {}", char::from(letter)),
        (number, _) => format!("number {number}"),
    });
}

#[test]
fn every_bit_of_more_small_books() {
    let numbers = [0, 21].map(|number| format!("number {number}"));
    let letters = ('A'..='G').map(|letter| format!("letter {letter}"));
    let mut reached = Reached::requiring(numbers.into_iter().chain(letters));
    for number in 0..BOOKS {
        let lent = sound_store(number);
        let book = Book::of_sound(&lent).bytes();
        for at in 0..book.len() {
            for bit in 0..8 {
                let mut bytes = book.clone();
                bytes[at] ^= 1 << bit;
                count(&mut reached, said(&bytes, &lent, lent.cards.len()));
            }
        }
        for length in (0..book.len()).step_by(3) {
            assert_eq!(
                said(&with_length(book[..length].to_vec()), &lent, lent.cards.len()),
                (21, 0)
            );
        }
    }
    println!("{reached}");
    assert!(reached.missing().is_empty(), "never reached: {:?}", reached.missing());
}
