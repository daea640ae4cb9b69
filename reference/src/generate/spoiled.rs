//! Named ways to give a saved book a form that opening refuses with 21. All other bytes are there, as the counts say, so that
//! nothing else is wrong with the form, and several may be done to one book.

use super::book::{Book, Card};
use super::random::Random;
use crate::limits::{CARD_LINKS, ENTRY_BYTES, ENTRY_HEAD, PLACES, TABLE_ENTRIES};

/// Spoils a book, or gives none and leaves it as it was where there is nothing to spoil in this way.
pub type Spoil = (&'static str, fn(&mut Book, &mut Random) -> Option<()>);

pub const SPOILS: [Spoil; 27] = [
    ("length one more", |book, _| lengthen(book, 1)),
    ("length one less", |book, _| lengthen(book, u32::MAX)),
    ("length's third byte", |book, _| lengthen(book, 1 << 16)),
    ("length's last byte", |book, _| lengthen(book, 1 << 24)),
    ("a byte behind, counted", |book, random| {
        book.behind.push(random.word() as u8);
        Some(())
    }),
    ("some bytes behind, not counted", |book, random| {
        let count = 1 + random.below(40);
        book.behind.extend(random.bytes(count));
        lengthen(book, (count as u32).wrapping_neg())
    }),
    ("kind", |book, random| {
        book.kind = *random.pick(&[0, 32, 47, 49, 48 << 8, 48 + 256, u16::MAX]);
        Some(())
    }),
    ("no places", |book, _| resize(book, 0)),
    ("15 places", |book, _| resize(book, PLACES.start() - 1)),
    ("4,097 places", |book, _| resize(book, PLACES.end() + 1)),
    ("mark's flag 2", |book, random| flag(book, random, 2)),
    ("mark's flag in its upper byte", |book, random| flag(book, random, 256)),
    ("mark's flag of all bits", |book, random| flag(book, random, u16::MAX)),
    ("key without a mark", |book, random| {
        book.marks[random.below(2)] = (0, 1 << random.below(64));
        Some(())
    }),
    ("state 3", |book, random| state(book, random, 3)),
    ("state in its upper byte", |book, random| state(book, random, 256)),
    ("state of all bits", |book, random| state(book, random, u16::MAX)),
    ("nine links", |book, random| {
        let links = &mut any_card(book, random)?.links;
        while links.items.len() <= CARD_LINKS {
            links.push((0, 0, 0, 0));
        }
        Some(())
    }),
    ("more links in the upper byte of the count", |book, random| {
        let links = &mut any_card(book, random)?.links;
        while links.items.len() < 256 {
            links.push((0, 0, 0, 0));
        }
        Some(())
    }),
    ("P + 1 items", |book, random| {
        let most = usize::from(book.places);
        let list = &mut book.lists[random.below(4)];
        while list.items.len() <= most {
            list.push(0);
        }
        Some(())
    }),
    ("17 entries", |book, random| {
        while book.memory.items.len() <= TABLE_ENTRIES {
            book.memory.push(entry(1, random.word(), &[]));
        }
        Some(())
    }),
    ("entry of 11 bytes", |book, random| {
        let mut bytes = entry(1, random.word(), &[]);
        bytes.pop();
        bytes[0] -= 1;
        put_entry(book, random, bytes)
    }),
    ("entry one byte too long", |book, random| {
        let value = random.bytes(ENTRY_BYTES - ENTRY_HEAD + 1);
        let bytes = entry(1, random.word(), &value);
        put_entry(book, random, bytes)
    }),
    ("entry length in its upper byte", |book, random| {
        let value = random.bytes(256);
        let bytes = entry(1, random.word(), &value);
        put_entry(book, random, bytes)
    }),
    ("entry kind", |book, random| {
        let kind = *random.pick(&[0, 3, 32, 1 + 256, u16::MAX]);
        let bytes = entry(kind, random.word(), &[]);
        put_entry(book, random, bytes)
    }),
    ("delete mark with a value", |book, random| {
        let bytes = entry(2, random.word(), b"v");
        put_entry(book, random, bytes)
    }),
    ("entry length 0", |book, random| {
        let mut bytes = entry(1, random.word(), &[]);
        bytes[0] = 0;
        put_entry(book, random, bytes)
    }),
];

/// A length that is wrong by this; what another spoil had made of it is not added, which might make it right.
fn lengthen(book: &mut Book, by: u32) -> Option<()> {
    book.longer = by;
    Some(())
}

/// So many places, with a card for each, and no list longer than that.
fn resize(book: &mut Book, places: usize) -> Option<()> {
    book.places = places as u16;
    book.cards.resize(places, Card::default());
    for list in &mut book.lists {
        list.items.truncate(places);
        list.count = list.items.len() as u16;
    }
    Some(())
}

fn flag(book: &mut Book, random: &mut Random, flag: u16) -> Option<()> {
    let key = *random.pick(&[0, random.clone().word()]);
    book.marks[random.below(2)] = (flag, key);
    Some(())
}

fn any_card<'a>(book: &'a mut Book, random: &mut Random) -> Option<&'a mut Card> {
    let count = book.cards.len();
    (count > 0).then(|| &mut book.cards[random.below(count)])
}

fn state(book: &mut Book, random: &mut Random, state: u16) -> Option<()> {
    any_card(book, random)?.state = state;
    Some(())
}

fn entry(kind: u16, key: u64, value: &[u8]) -> Vec<u8> {
    let length = (ENTRY_HEAD + value.len()) as u16;
    [&length.to_le_bytes()[..], &kind.to_le_bytes(), &key.to_le_bytes(), value].concat()
}

/// Puts an entry in the place of one of the memory's, or adds it where there is none.
fn put_entry(book: &mut Book, random: &mut Random, bytes: Vec<u8>) -> Option<()> {
    let count = book.memory.items.len();
    if count == 0 {
        book.memory.push(bytes);
        return Some(());
    }
    book.memory.items[random.below(count)] = bytes;
    Some(())
}
