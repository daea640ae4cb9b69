//! Summary bits (note 6): where they stand in a row, which they are after each step, and that opening works them out afresh. The
//! steps of `summed` are told to the byte, and the second implementation is held to them as well.

use crate::client::{table, Ask, Client, Reply, GREATEST};
use crate::opening::{opened, over, ODD_ROW};
use crate::saving::{linked, saved};
use crate::tables::{bits, summarize, summary};
use differential::{open, Proved};
use reference::generate::summed;
use reference::lent::*;
use reference::trial::Eyes;

/// Makes a test of each case of `summed`.
macro_rules! tests {
    ($($name:ident)*) => {
        $(
            #[test]
            fn $name() {
                for (number, case) in summed::$name().iter().enumerate() {
                    assert_eq!(case.hold(&Proved, Eyes::Both), Ok(()), "case {number}");
                }
            }
        )*
    };
}

reference::every_summed_case!(tests);

/// What the note comes to in numbers; the tests go by the names.
#[test]
fn a_row_has_38_words_and_the_summary_is_the_last_four() {
    assert_eq!((ROW_WORDS, ROW_SUMMARY), (38, 34));
    assert_eq!(size_of::<Row>(), 304);
}

#[test]
fn bits_of_keys_by_hand() {
    let cases: [(u64, [u32; 3]); 6] = [
        (5, [5, 5, 5]),
        (0x0102, [3, 3, 4]),
        (0x01_02_03, [0, 6, 10]),
        (1 << 63, [128, 128, 0]),
        (0x0807_0605_0403_0201, [8, 36, 204]),
        (GREATEST, [0, 248, 220]),
    ];
    for (key, expected) in cases {
        assert_eq!(bits(key), expected, "{key:x}");
        let mut store = Client::new(16, 4);
        store.flush_table([key], "v");
        let mut words = [0u64; 4];
        expected.iter().for_each(|bit| words[*bit as usize / 64] |= 1 << (bit % 64));
        assert_eq!(store.lent.cards[0][ROW_SUMMARY..], words, "{key:x}");
    }
}

/// As C sees it: the 32 bytes in order, bit n in byte n / 8.
#[test]
fn the_bytes_of_the_last_words_are_the_bytes_of_the_summary() {
    let mut store = Client::new(16, 4);
    store.flush_table([5, 0x01_02_03, GREATEST], "v");
    let words = &store.lent.cards[0][ROW_SUMMARY..];
    let bytes: Vec<u8> = words.iter().flat_map(|word| word.to_le_bytes()).collect();
    let mut expected = vec![0; 32];
    expected[0] = 0b0110_0001;
    expected[1] = 0b0000_0100;
    expected[27] = 0b0001_0000;
    expected[31] = 0b0000_0001;
    assert_eq!(bytes, expected);
}

#[test]
fn a_new_store_has_no_bits() {
    let mut lent = Lent::zeroed(16);
    lent.cards.fill(ODD_ROW);
    // The area's bytes stay as found, a table among them.
    lent.area[..1024].copy_from_slice(&table(&[5]));
    assert_eq!(differential::make(&mut lent, 4), 0);
    assert_eq!(lent.cards, vec![ROW_FREE; 16]);
}

#[test]
fn the_bits_of_every_card_through_a_history() {
    let words = |store: &Client, place: usize| store.lent.cards[place][ROW_SUMMARY..].to_vec();
    let mut store = Client::new(16, 1);
    store.flush_table([10, 300], "v");
    store.flush_table([20], "v");
    store.ask(&[Ask::Put(5, "w"), Ask::Delete(300), Ask::Flush]);
    assert_eq!(words(&store, 0), summary([10, 300]));
    assert_eq!(words(&store, 1), summary([20]));
    // The key of a delete mark counts.
    assert_eq!(words(&store, 2), summary([5, 300]));
    let before = store.lent.cards.clone();
    assert_eq!(store.ask_one(Ask::Tidy), Reply::Step(1, 0));
    assert_eq!(store.lent.cards, before, "a move changes no card");
    store.flush_table([30], "v");
    assert_eq!(store.ask_one(Ask::Tidy), Reply::Step(2, 0));
    // Place 1 is frozen now and hangs on place 0; both have their bits.
    assert_eq!((store.lent.cards[1][0], words(&store, 1)), (2, summary([20]).to_vec()));
    assert_eq!((store.lent.cards[0][1], words(&store, 0)), (1, summary([10, 300]).to_vec()));
    assert_eq!(store.ask_one(Ask::Tidy), Reply::Step(3, 1));
    assert_eq!((store.lent.cards[0], store.lent.cards[1]), (ROW_FREE, ROW_FREE));
    assert_eq!((store.level(1), words(&store, 4)), (&[4][..], summary([10, 20, 300]).to_vec()));
    // A flush takes place 5; then the cursor goes round to place 0, which still has the bytes of 10 and 300.
    (5..16).for_each(|key| store.flush_table([key], "v"));
    store.flush_table([77], "v");
    assert_eq!(words(&store, 0), summary([77]));
}

/// A book written before the note, as bytes: opening it gives every live and frozen card its bits.
#[test]
fn a_book_saved_before_the_note_opens() {
    let (store, book) = linked();
    assert_eq!(saved(&store.lent), book, "the form is what it was");
    let mut lent = over(&store.lent.area);
    assert_eq!(opened(&mut lent, &book), (0, 0));
    for (place, keys) in [(0, &[5, 6][..]), (1, &[10, 20]), (2, &[30, 40]), (3, &[12, 15, 35])] {
        assert_eq!(lent.cards[place][ROW_SUMMARY..], summary(keys.iter().copied()));
    }
    assert!(lent.cards[4..].iter().all(|row| *row == ROW_FREE));
    assert_eq!(lent.difference(&store.lent), None);
}

#[test]
fn bits_are_those_of_the_area_and_not_of_the_lent_book() {
    let (store, book) = linked();
    let mut area = store.lent.area.clone();
    // Other keys in place 0, and a former table in free places, saved and added ones.
    area[..1024].copy_from_slice(&table(&[7, 258]));
    area[9 * 1024..10 * 1024].copy_from_slice(&table(&[1, 2, 3]));
    area.extend(table(&[4, 5]));
    let mut lent = over(&area);
    lent.cards.iter_mut().for_each(|row| summarize(row, 0..256));
    assert_eq!(opened(&mut lent, &book), (0, 0));
    assert_eq!(lent.cards[0][ROW_SUMMARY..], summary([7, 258]));
    assert_eq!(lent.cards[1..4], store.lent.cards[1..4]);
    assert!(lent.cards[4..].iter().all(|row| *row == ROW_FREE));
}

#[test]
fn a_place_without_a_table_leaves_its_row_without_bits() {
    let (store, book) = linked();
    for place in [0, 3] {
        let mut lent = over(&store.lent.area);
        lent.area[place * 1024 + 2] = 31;
        let before = lent.clone();
        let mut working = vec![ODD_ROW; 16];
        assert_eq!(open(&mut lent, &book, &mut working), (5, u64::from(b'C')));
        assert_eq!(lent.difference(&before), None);
        let mut rows = store.lent.cards.clone();
        rows[place][ROW_SUMMARY..].fill(0);
        assert_eq!(working, rows);
    }
}

/// A frozen card in the bytes whose place holds a former table: it has bits, and no link.
#[test]
fn bits_go_by_the_state_in_the_bytes() {
    let (mut store, mut book) = linked();
    store.lent.area[9 * 1024..10 * 1024].copy_from_slice(&table(&[1, 2, 3]));
    // Card 9: behind the front, two cards with a link and seven without.
    book[32 + 9 * 4 + 2 * 20] = 2;
    let mut lent = over(&store.lent.area);
    let mut working = vec![ODD_ROW; 16];
    assert_eq!(open(&mut lent, &book, &mut working), (5, u64::from(b'F')));
    let mut expected = ROW_FREE;
    expected[ROW_STATE] = STATE_FROZEN;
    summarize(&mut expected, [1, 2, 3]);
    assert_eq!(working[9], expected);
}

#[test]
fn what_was_saved_is_opened_with_its_bits_after_every_step() {
    let mut store = Client::new(16, 2);
    let mut steps = Vec::new();
    for round in 0..12 {
        store.flush_table([round, 100 + round, 1000 * round], "v");
        while let Reply::Step(step, _) = store.ask_one(Ask::Tidy) {
            let mut lent = over(&store.lent.area);
            assert_eq!(opened(&mut lent, &saved(&store.lent)), (0, 0));
            assert_eq!(lent.difference(&store.lent), None);
            steps.push(step);
        }
    }
    assert!([1, 2, 3].iter().all(|step| steps.contains(step)), "{steps:?}");
}
