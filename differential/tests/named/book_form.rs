//! Bytes that are not of the form of a saved book (note 4, number 21): every field, count and entry at its limits and just beyond.

use crate::opening::{said, with_length};
use crate::saving::{key, linked, pair, saved};

#[test]
fn fields_out_of_the_form_are_21() {
    let (store, _) = linked();
    let book = saved(&store.lent);
    // Where, and which two bytes: length, kind, P, flags, a state, a count of links, an entry's length and kind.
    let changes: [(usize, u16); 24] = [
        (0, 180),
        (0, 182),
        (2, 1),
        (2, 256),
        (4, 47),
        (4, 49),
        (4, 48 << 8),
        (6, 0),
        (6, 15),
        (6, 4097),
        (6, u16::MAX),
        (12, 2),
        (22, 2),
        (22, 256),
        (22, u16::MAX),
        (32, 3),
        (32, 256),
        (34, 9),
        (34, 256),
        (152, 64),
        (152, 11),
        (154, 0),
        (154, 2),
        (154, 3),
    ];
    for (at, number) in changes {
        let mut bytes = book.clone();
        bytes[at..at + 2].copy_from_slice(&number.to_le_bytes());
        assert_eq!(said(&bytes, &store.lent.area), (21, 0), "{number} at {at}");
    }
    // A key without a mark, in each of its bytes.
    for at in 14..22 {
        let mut bytes = book.clone();
        bytes[at] = 1;
        assert_eq!(said(&bytes, &store.lent.area), (21, 0), "{at}");
    }
}

/// The parts of the book of a new store with 16 places: front, marks, cards, lists, memory.
fn parts() -> [Vec<u8>; 5] {
    let front = vec![0, 0, 0, 0, 48, 0, 16, 0, 4, 0, 0, 0];
    [front, vec![0; 20], vec![0; 64], vec![0; 8], pair(0)]
}

/// What is said of these parts over 16 places of zeros.
fn said_of(parts: &[Vec<u8>; 5]) -> (u64, u64) {
    said(&with_length(parts.concat()), &[0; 16 * 1024])
}

#[test]
fn counts_above_their_limits_are_21_with_all_they_count() {
    assert_eq!(said_of(&parts()), (0, 0));
    // Eight links are of the form, and on a free card; nine are not.
    let link = [pair(0), key(0), key(0), pair(0)].concat();
    for (links, expected) in [(8, (5, u64::from(b'B'))), (9, (21, 0)), (256, (21, 0))] {
        let mut parts = parts();
        parts[2].splice(2..4, [pair(links), link.repeat(links.into())].concat());
        assert_eq!(said_of(&parts), expected, "{links} links");
    }
    // Sixteen items are of the form, and none of them is live; seventeen are not.
    for (items, expected) in [(16, (5, u64::from(b'B'))), (17, (21, 0)), (4096, (21, 0))] {
        for list in 0..4 {
            let mut parts = parts();
            parts[3].splice(
                2 * list..2 * list + 2,
                [pair(items), vec![0; 2 * usize::from(items)]].concat(),
            );
            assert_eq!(said_of(&parts), expected, "{items} items");
        }
    }
    for (entries, expected) in [(16, (0, 0)), (17, (21, 0)), (272, (21, 0))] {
        let mut parts = parts();
        let entry = |number| [pair(12), pair(2), key(number)].concat();
        parts[4] = [pair(entries), (0..u64::from(entries)).flat_map(entry).collect()].concat();
        assert_eq!(said_of(&parts), expected, "{entries} entries");
    }
}

#[test]
fn a_list_count_goes_by_the_saved_places_and_not_by_the_area() {
    let mut parts = parts();
    parts[3].splice(..2, [pair(17), vec![0; 34]].concat());
    let book = with_length(parts.concat());
    for places in [16, 17, 18, 4096] {
        assert_eq!(said(&book, &vec![0; places * 1024]), (21, 0), "{places}");
    }
}

#[test]
fn entries_of_the_form_and_others() {
    let one = |length: u16, kind: u16, value: usize| {
        let mut parts = parts();
        parts[4] = [pair(1), pair(length), pair(kind), key(7), vec![1; value]].concat();
        said_of(&parts)
    };
    assert_eq!(one(12, 1, 0), (0, 0));
    assert_eq!(one(63, 1, 51), (0, 0));
    assert_eq!(one(64, 1, 52), (21, 0));
    assert_eq!(one(12, 2, 0), (0, 0));
    assert_eq!(one(13, 2, 1), (21, 0));
    assert_eq!(one(12, 0, 0), (21, 0));
    assert_eq!(one(12, 3, 0), (21, 0));
    assert_eq!(one(12, 257, 0), (21, 0));
    // Lengths that are not those of the bytes that are there.
    assert_eq!(one(13, 1, 0), (21, 0));
    assert_eq!(one(12, 1, 1), (21, 0));
    assert_eq!(one(0, 1, 0), (21, 0));
    assert_eq!(one(11, 1, 0), (21, 0));
    assert_eq!(one(12 + 256, 1, 0), (21, 0));
}

#[test]
fn bytes_behind_a_book_and_books_cut_short_are_21() {
    let (store, _) = linked();
    let book = saved(&store.lent);
    for length in 0..book.len() {
        assert_eq!(said(&book[..length], &store.lent.area), (21, 0));
    }
    for more in [1, 2, 12, 20, 1000] {
        let longer = [book.clone(), vec![0; more]].concat();
        assert_eq!(said(&longer, &store.lent.area), (21, 0));
        assert_eq!(said(&with_length(longer), &store.lent.area), (21, 0));
    }
}
