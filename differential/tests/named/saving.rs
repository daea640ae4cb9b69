//! Saving the book (note 4): its bytes written out by hand, every refusal with its edges and their order, and what stays untouched.

use crate::client::{digits, table, Ask, Client, Reply};
use crate::tables::summarize;
use differential::{save, SaveOutcome};
use reference::lent::*;

/// The byte that fills save buffers.
const UNTOUCHED: u8 = 0xEE;

/// Saves into a buffer of so many bytes; gives number, letter and the bytes written. Those behind must be untouched.
pub fn saved_into(lent: &Lent, room: usize) -> (u64, u64, Vec<u8>) {
    let mut buffer = vec![UNTOUCHED; room];
    let SaveOutcome { number, letter, length } = save(lent, &mut buffer);
    let beyond = buffer.split_off(length as usize);
    assert!(beyond.iter().all(|byte| *byte == UNTOUCHED), "written beyond the book");
    (number, letter, buffer)
}

/// The bytes of a book that is accepted.
pub fn saved(lent: &Lent) -> Vec<u8> {
    let (number, letter, bytes) = saved_into(lent, 1 << 20);
    assert_eq!((number, letter), (0, 0));
    bytes
}

/// What is said where saving is refused, and nothing is written.
fn refused(lent: &Lent, room: usize) -> (u64, u64) {
    let (number, letter, bytes) = saved_into(lent, room);
    assert_eq!(bytes, []);
    (number, letter)
}

/// Two bytes.
pub fn pair(number: u16) -> Vec<u8> {
    number.to_le_bytes().to_vec()
}

/// Eight bytes.
pub fn key(key: u64) -> Vec<u8> {
    key.to_le_bytes().to_vec()
}

/// A store with links, one mark and memory entries, and its book by hand.
pub fn linked() -> (Client, Vec<u8>) {
    let tables: [(usize, &[u64]); 3] = [(0, &[5, 6]), (1, &[10, 20]), (1, &[30, 40])];
    let store = Client::with_tables(16, 4, &tables);
    let mut store = store.freeze(3, &digits(&[12, 15, 35]), &[(1, 0, 25), (2, 26, u64::MAX)]);
    store.lent.head[HEAD_MARKS + 2] = 1;
    store.lent.head[HEAD_MARKS + 3] = u64::MAX;
    store.ask(&[Ask::Put(7, "crack"), Ask::Delete(9)]);
    let book = [
        vec![181, 0, 0, 0, 48, 0],
        [pair(16), pair(4), pair(3)].concat(),
        [pair(0), key(0), pair(1), key(u64::MAX)].concat(),
        [pair(1), pair(0)].concat(),
        [pair(1), pair(1), pair(3), key(0), key(25), pair(2)].concat(),
        [pair(1), pair(1), pair(3), key(26), key(u64::MAX), pair(1)].concat(),
        [pair(2), pair(0)].concat(),
        vec![0; 12 * 4],
        [pair(1), pair(0)].concat(),
        [pair(2), pair(1), pair(2)].concat(),
        [pair(0), pair(0)].concat(),
        pair(2),
        [pair(17), pair(1), key(7), b"crack".to_vec()].concat(),
        [pair(12), pair(2), key(9)].concat(),
    ];
    (store, book.concat())
}

#[test]
fn a_new_store() {
    for (places, threshold) in [(16, 1), (17, 8), (300, 4)] {
        let book = saved(&Client::new(places, threshold).lent);
        let length = 32 + 4 * places + 10;
        assert_eq!(book.len(), length);
        assert_eq!(book[..4], (length as u32).to_le_bytes());
        let numbers = [48, places as u16, threshold as u16];
        assert_eq!(book[4..10], numbers.map(u16::to_le_bytes).concat());
        assert!(book[10..].iter().all(|byte| *byte == 0));
    }
}

#[test]
fn links_marks_lists_and_memory() {
    let (store, book) = linked();
    assert_eq!(book.len(), 181);
    assert_eq!(saved(&store.lent), book);
}

#[test]
fn the_length_has_four_bytes() {
    let mut store = Client::new(4096, 8);
    // 600 tables on level 3, each with eight links to a frozen place of its own.
    let lent = &mut store.lent;
    for group in 0..600_usize {
        let (live, frozen, first) = (2 * group, 2 * group + 1, 100 * group as u64);
        let keys: Vec<u64> = (first..first + 8).collect();
        for place in [live, frozen] {
            let bytes = table(&keys);
            lent.area[place * 1024..(place + 1) * 1024].copy_from_slice(&bytes);
            summarize(&mut lent.cards[place], keys.iter().copied());
        }
        lent.cards[frozen][ROW_STATE] = STATE_FROZEN;
        lent.cards[live][ROW_STATE] = STATE_LIVE;
        lent.cards[live][ROW_COUNT] = 8;
        let links = lent.cards[live][ROW_LINKS..ROW_SUMMARY].chunks_mut(LINK_WORDS);
        for (words, key) in links.zip(&keys) {
            words.copy_from_slice(&[frozen as u64, *key, *key, 1]);
        }
        lent.lists[3 * 4096 + group] = live as u16;
    }
    lent.head[HEAD_LENGTHS + 3] = 600;
    let length: usize = 32 + 4 * 4096 + 600 * 8 * 20 + 8 + 2 * 600 + 2;
    assert_eq!(length, 113_626);
    let book = saved(lent);
    assert_eq!(book.len(), length);
    // 113,626 is 1 BB DA in hexadecimal.
    assert_eq!(book[..6], [0xDA, 0xBB, 1, 0, 48, 0]);
    assert_eq!(refused(lent, length - 1), (3, 0));
    assert_eq!(refused(lent, length - 65_536), (3, 0));
}

#[test]
fn a_buffer_shorter_than_the_whole_is_3() {
    let (store, book) = linked();
    for room in 0..181 {
        assert_eq!(refused(&store.lent, room), (3, 0), "{room}");
    }
    for room in [181, 182, 1023, 1024] {
        assert_eq!(saved_into(&store.lent, room), (0, 0, book.clone()));
    }
}

/// A letter, and a damage to the store above that breaks its rule.
type Damage = (u8, fn(&mut Lent));

#[test]
fn a_store_that_is_not_sound_is_5_with_its_letter_before_3() {
    let damages: [Damage; 7] = [
        (b'A', |lent| lent.head[HEAD_CURSOR] = 16),
        (b'B', |lent| lent.cards[9][ROW_STATE] = 3),
        (b'C', |lent| lent.area[2] = 31),
        (b'D', |lent| lent.memory[6] = 1),
        (b'E', |lent| lent.cards[1][ROW_LINKS + LINK_NUMBER] = 3),
        (b'F', |lent| {
            let one = lent.area[..1024].to_vec();
            lent.area[10 * 1024..11 * 1024].copy_from_slice(&one);
            lent.cards[10][ROW_STATE] = STATE_FROZEN;
            let bits = lent.cards[0][ROW_SUMMARY..].to_vec();
            lent.cards[10][ROW_SUMMARY..].copy_from_slice(&bits);
        }),
        (b'G', |lent| lent.lists[63] = 1),
    ];
    for (number, (letter, damage)) in damages.iter().enumerate() {
        let mut lent = linked().0.lent;
        damage(&mut lent);
        for room in [0, 1, 180, 181, 5000] {
            assert_eq!(refused(&lent, room), (5, u64::from(*letter)));
        }
        // The first of several.
        damages[number..].iter().for_each(|(_, damage)| damage(&mut lent));
        assert_eq!(refused(&lent, 0), (5, u64::from(*letter)));
    }
}

/// Ways to make the memory above one of wrong sizes.
pub const WRONG_SIZES: [fn(&mut Lent); 9] = [
    |lent| lent.area.truncate(15_000),
    |lent| lent.area.extend([0; 1024]),
    |lent| lent.cards.truncate(15),
    |lent| lent.cards.push(ROW_FREE),
    |lent| lent.lists.truncate(63),
    |lent| lent.lists.push(0),
    |lent| *lent = Lent::zeroed(0),
    |lent| *lent = Lent::zeroed(15),
    |lent| *lent = Lent::zeroed(4097),
];

#[test]
fn wrong_sizes_are_1_before_5_and_3() {
    for misshape in WRONG_SIZES {
        let mut lent = linked().0.lent;
        misshape(&mut lent);
        assert_eq!(refused(&lent, 1 << 16), (1, 0));
        lent.head[HEAD_THRESHOLD] = 9;
        assert_eq!(refused(&lent, 1 << 16), (1, 0));
        assert_eq!(refused(&lent, 0), (1, 0));
    }
}

#[test]
fn saving_goes_by_what_was_done_last() {
    let mut store = Client::new(16, 4);
    let empty = saved(&store.lent);
    assert_eq!(store.ask_one(Ask::Put(1, "")), Reply::Done);
    let one = saved(&store.lent);
    assert_eq!(one.len(), empty.len() + 12);
    assert_eq!(one[104..], [pair(1), pair(12), pair(1), key(1)].concat());
    assert_eq!(store.ask_one(Ask::Flush), Reply::Done);
    let flushed = saved(&store.lent);
    // An item in list 0, nothing in memory, the cursor moved, a live card.
    assert_eq!(flushed.len(), empty.len() + 2);
    assert_eq!(flushed[10..12], [1, 0]);
    assert_eq!(flushed[32..36], [1, 0, 0, 0]);
    assert_eq!(flushed[96..], [1, 0, 0, 0, 0, 0, 0, 0, 0, 0, 0, 0]);
}
