//! A small saved book, written out by hand, and what opening it says with any one byte changed to any other: told field by field,
//! without the rules and without `saved`.

use crate::lent::{Lent, Row, ROW_SUMMARY};
use crate::limits::PLACE_BYTES;
use crate::table::{table_bytes, Entries, Entry};

/// The places of the small store.
pub const PLACES: usize = 16;

/// The small book, in the order of the form: in place 0 a table of level 0; in 1 and 2 tables of level 1, on both of which hangs
/// place 3; two entries in memory.
const BOOK: [&[u8]; 15] = [
    &[178, 0, 0, 0, 48, 0],
    // P, T, cursor.
    &[16, 0, 4, 0, 11, 0],
    // A mark for level 1, none for level 2.
    &[1, 0, 40, 0, 0, 0, 0, 0, 0, 0],
    &[0, 0, 0, 0, 0, 0, 0, 0, 0, 0],
    // Cards 0 to 3: live; live with a link to place 3, 10 to 20, two entries; live with one, 30 to 40, one entry; frozen.
    &[1, 0, 0, 0],
    &[1, 0, 1, 0, 3, 0, 10, 0, 0, 0, 0, 0, 0, 0, 20, 0, 0, 0, 0, 0, 0, 0, 2, 0],
    &[1, 0, 1, 0, 3, 0, 30, 0, 0, 0, 0, 0, 0, 0, 40, 0, 0, 0, 0, 0, 0, 0, 1, 0],
    &[2, 0, 0, 0],
    // Cards 4 to 15.
    &[0; 12 * 4],
    // Lists 0 to 3.
    &[1, 0, 0, 0],
    &[2, 0, 1, 0, 2, 0],
    &[0, 0, 0, 0],
    // Two values, under 8 and 9.
    &[2, 0],
    &[13, 0, 1, 0, 8, 0, 0, 0, 0, 0, 0, 0, b'8'],
    &[13, 0, 1, 0, 9, 0, 0, 0, 0, 0, 0, 0, b'9'],
];

/// The bytes of the small book.
pub fn book() -> Vec<u8> {
    BOOK.concat()
}

/// The area that it was saved over. Place 10 is free and still holds a table.
pub fn area() -> Vec<u8> {
    let mut area = vec![0; PLACES * PLACE_BYTES];
    let tables: [(usize, &[u64]); 5] =
        [(0, &[5, 6]), (1, &[10, 20]), (2, &[30, 40]), (3, &[12, 15, 35]), (10, &[7])];
    for (place, keys) in tables {
        let entries: Entries = keys.iter().map(|key| (*key, Entry::DeleteMark)).collect();
        area[place * PLACE_BYTES..][..PLACE_BYTES].copy_from_slice(&table_bytes(&entries));
    }
    area
}

/// The lent memory of the small store: the words that its book says, and the bits of its tables.
pub fn store() -> Lent {
    let mut lent = Lent::zeroed(PLACES);
    lent.area = area();
    lent.head = [4, 11, 1, 40, 0, 0, 1, 2, 0, 0];
    lent.cards[0][0] = 1;
    lent.cards[1][..6].copy_from_slice(&[1, 1, 3, 10, 20, 2]);
    lent.cards[2][..6].copy_from_slice(&[1, 1, 3, 30, 40, 1]);
    lent.cards[3][0] = 2;
    for (place, keys) in [(0, &[5, 6][..]), (1, &[10, 20]), (2, &[30, 40]), (3, &[12, 15, 35])] {
        lent.cards[place][ROW_SUMMARY] = bits_below_64(keys);
    }
    lent.lists[PLACES..PLACES + 2].copy_from_slice(&[1, 2]);
    let value = |key: u8| Entry::Value(vec![b'0' + key]);
    lent.memory = table_bytes(&[8, 9].map(|key| (u64::from(key), value(key))).into());
    lent
}

/// The first word of a summary of keys below 64: each of its three bits is the key itself, since its other bytes are zero.
fn bits_below_64(keys: &[u32]) -> u64 {
    keys.iter().fold(0, |bits, key| bits | 1 << key)
}

const ACCEPTED: (u16, u8) = (0, 0);
const NOT_THE_FORM: (u16, u8) = (21, 0);

/// Not sound, by this letter.
fn breaks(letter: u8) -> (u16, u8) {
    (5, letter)
}

fn accepted_if(accepted: bool, letter: u8) -> (u16, u8) {
    if accepted {
        ACCEPTED
    } else {
        breaks(letter)
    }
}

/// What opening says over as many places with this byte changed to another value.
pub fn told(at: usize, value: u8) -> (u16, u8) {
    match at {
        // Threshold and cursor.
        8 => accepted_if((1..=8).contains(&value), b'A'),
        10 => accepted_if(value < 16, b'A'),
        9 | 11 => breaks(b'A'),
        // The key of the first mark, and a mark with key 0 for level 2.
        14..=21 => ACCEPTED,
        22 if value == 1 => ACCEPTED,
        // States of live, frozen and free cards.
        32 | 36 | 60 if value <= 2 => breaks(b'B'),
        84 if value == 0 => breaks(b'E'),
        84 if value == 1 => breaks(b'B'),
        88..=135 if at.is_multiple_of(4) && value == 1 => breaks(b'B'),
        // A free place that holds a table, and others that don't.
        112 if value == 2 => breaks(b'F'),
        88..=135 if at.is_multiple_of(4) && value == 2 => breaks(b'C'),
        40..=59 => link_of_1(at - 40, value),
        64..=83 => link_of_2(at - 64, value),
        // With a count of 2, list 0 takes the next count for an item, and list 1 has its items' first for a count and the second
        // for an item: the form comes out, place 2 is listed twice and place 1 not at all.
        136 if value == 2 => breaks(b'B'),
        // Items of lists 0 and 1.
        138 | 139 | 142..=145 => breaks(b'B'),
        // Keys and values in memory.
        156 => accepted_if(value < 9, b'D'),
        157..=163 => breaks(b'D'),
        169 => accepted_if(value > 8, b'D'),
        164 | 170..=177 => ACCEPTED,
        _ => NOT_THE_FORM,
    }
}

/// The link 10 to 20: it must hold 12 and 15, and stay below 30, where the next link and the next table begin.
fn link_of_1(at: usize, value: u8) -> (u16, u8) {
    match at {
        2 => accepted_if(value <= 12, b'E'),
        10 => accepted_if((15..30).contains(&value), b'E'),
        _ => breaks(b'E'),
    }
}

/// The link 30 to 40: it must hold 35, and stay above 20.
fn link_of_2(at: usize, value: u8) -> (u16, u8) {
    match at {
        2 => accepted_if((21..=35).contains(&value), b'E'),
        10 => accepted_if(value >= 35, b'E'),
        11..=17 => ACCEPTED,
        _ => breaks(b'E'),
    }
}

/// Another area for the small book, and what opening says over it. Bytes 8 and on of a place are its entries, twelve bytes each, with
/// the key from the fifth on.
type Area = (&'static str, fn(&mut Vec<u8>), (u16, u8));

pub const AREAS: [Area; 17] = [
    ("as it was", |_| {}, ACCEPTED),
    ("a place more", |area| area.resize(17 * PLACE_BYTES, 0xFF), ACCEPTED),
    ("twice the places", |area| area.resize(32 * PLACE_BYTES, 0xFF), ACCEPTED),
    ("4,096 places", |area| area.resize(4096 * PLACE_BYTES, 0xFF), ACCEPTED),
    ("4,096 places, a live place changed", |area| enlarge_and_change(area, 1), (5, b'C')),
    ("a live place of level 0 without its kind", |area| change(area, 0, 2, 31), (5, b'C')),
    ("a live place of level 1 with a byte behind", |area| change(area, 2, 1023, 1), (5, b'C')),
    ("a live place's key changed within its level", |area| change(area, 1, 24, 29), ACCEPTED),
    ("a live place's key that touches the next span", |area| change(area, 1, 24, 30), (5, b'G')),
    ("a frozen place without its kind", |area| change(area, 3, 2, 33), (5, b'C')),
    ("a frozen place's key changed within its range", |area| change(area, 3, 24, 16), ACCEPTED),
    ("a frozen place's key out of its range", |area| change(area, 3, 24, 21), (5, b'E')),
    ("a frozen place's keys no longer rising", |area| change(area, 3, 24, 12), (5, b'C')),
    ("a free place changed", |area| area[4 * PLACE_BYTES..][..PLACE_BYTES].fill(0xA5), ACCEPTED),
    ("a free place's table changed", |area| change(area, 10, 2, 31), ACCEPTED),
    ("zero", |area| area.fill(0), (5, b'C')),
    ("a live and a frozen place exchanged", |area| exchange(area), (5, b'E')),
];

/// Of the areas that are accepted, those in which a live or frozen place has other keys, with these.
const REKEYED: [(&str, usize, &[u32]); 2] = [
    ("a live place's key changed within its level", 1, &[10, 29]),
    ("a frozen place's key changed within its range", 3, &[12, 16, 35]),
];

/// The cards of the small store as opened over one of these areas: bits go by the area's keys, all else by the book.
pub fn cards_over(name: &str) -> Vec<Row> {
    let mut cards = store().cards;
    for (_, place, keys) in REKEYED.iter().filter(|(rekeyed, ..)| *rekeyed == name) {
        cards[*place][ROW_SUMMARY] = bits_below_64(keys);
    }
    cards
}

fn change(area: &mut [u8], place: usize, byte: usize, value: u8) {
    area[place * PLACE_BYTES + byte] = value;
}

fn enlarge_and_change(area: &mut Vec<u8>, place: usize) {
    area.resize(4096 * PLACE_BYTES, 0);
    change(area, place, 4, 3);
}

/// Place 2 then has 12, 15 and 35 of its own, and place 3 has 30 and 40, of which none is in 10 to 20.
fn exchange(area: &mut [u8]) {
    let (front, back) = area.split_at_mut(3 * PLACE_BYTES);
    front[2 * PLACE_BYTES..].swap_with_slice(&mut back[..PLACE_BYTES]);
}

/// A cursor in the small book, the places of the area, and what opening says: a place that the area has is good.
pub const CURSORS: [(u16, usize, (u16, u8)); 9] = [
    (15, 16, ACCEPTED),
    (16, 16, (5, b'A')),
    (16, 17, ACCEPTED),
    (17, 17, (5, b'A')),
    (31, 32, ACCEPTED),
    (32, 32, (5, b'A')),
    (4095, 4096, ACCEPTED),
    (4096, 4096, (5, b'A')),
    (u16::MAX, 4096, (5, b'A')),
];

/// The small book with this cursor.
pub fn book_with_cursor(cursor: u16) -> Vec<u8> {
    let mut book = book();
    book[10..12].copy_from_slice(&cursor.to_le_bytes());
    book
}
