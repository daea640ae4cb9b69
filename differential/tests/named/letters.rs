//! The first broken rule (note 3): stores in which several rules are broken, with letters written out by hand, and the numbers
//! that come without one.

use crate::client::{digits, list, table, Ask, Client, GREATEST};
use differential::check;
use reference::lent::*;

/// A sound store: in place 0 a table of level 0, in 1 and 2 tables of level 1, on both of which hangs place 3. Place 10 is free
/// and still holds a table, so that it may become frozen without breaking C. The memory has two entries.
fn sound() -> Client {
    let tables: [(usize, &[u64]); 3] = [(0, &[5, 6]), (1, &[10, 20]), (1, &[30, 40])];
    let store = Client::with_tables(16, 4, &tables);
    let mut store = store.freeze(3, &digits(&[12, 15, 35]), &[(1, 10, 20), (2, 30, 40)]);
    store.lent.area[10 * 1024..11 * 1024].copy_from_slice(&table(&[7]));
    store.lent.memory = table(&[8, 9]);
    store
}

/// The links' words on the card of place 1.
const PLACE: usize = ROW_LINKS + LINK_PLACE;
const LOW: usize = ROW_LINKS + LINK_LOW;
const HIGH: usize = ROW_LINKS + LINK_HIGH;
const NUMBER: usize = ROW_LINKS + LINK_NUMBER;

/// Breaks the rule of this letter in the store above. No two touch one word or byte.
fn break_rule(lent: &mut Lent, letter: char) {
    match letter {
        'A' => lent.head[HEAD_THRESHOLD] = 9,
        'B' => lent.cards[9][ROW_STATE] = 3,
        'C' => lent.area[2 * 1024 + 2] = 31,
        'D' => lent.memory[6] = 1,
        'E' => lent.cards[1][NUMBER] = 3,
        'F' => {
            lent.cards[10][ROW_STATE] = STATE_FROZEN;
            // The bit of its one key, 7, without which C would be broken.
            lent.cards[10][ROW_SUMMARY] = 1 << 7;
        }
        'G' => lent.head[HEAD_MARKS] = 2,
        _ => unreachable!("A to G"),
    }
}

/// The store with all of these rules broken.
fn broken(letters: &str) -> Client {
    let mut store = sound();
    letters.chars().for_each(|letter| break_rule(&mut store.lent, letter));
    store
}

#[test]
fn each_damage_alone_gives_its_letter() {
    broken("A").breaks(b'A');
    broken("B").breaks(b'B');
    broken("C").breaks(b'C');
    broken("D").breaks(b'D');
    broken("E").breaks(b'E');
    broken("F").breaks(b'F');
    broken("G").breaks(b'G');
}

#[test]
fn of_two_neighbours_the_first_is_given() {
    broken("AB").breaks(b'A');
    broken("BC").breaks(b'B');
    broken("CD").breaks(b'C');
    broken("DE").breaks(b'D');
    broken("EF").breaks(b'E');
    broken("FG").breaks(b'F');
}

#[test]
fn of_all_that_are_damaged_the_first_is_given_in_whatever_order_they_were() {
    broken("ABCDEFG").breaks(b'A');
    broken("GFEDCBA").breaks(b'A');
    // As many as can be broken at once: without B and C, and with them.
    broken("GFEDA").breaks(b'A');
    broken("DCBA").breaks(b'A');
    // Mended from the first on, the store shows its next letter each time.
    broken("GFEDCB").breaks(b'B');
    broken("GFEDC").breaks(b'C');
    broken("GFED").breaks(b'D');
    broken("GFE").breaks(b'E');
    broken("GF").breaks(b'F');
    broken("G").breaks(b'G');
    assert_eq!(check(&broken("").lent), (0, 0));
}

#[test]
fn every_set_of_damages_gives_the_first_of_it() {
    for set in 1_u32..1 << 7 {
        let damaged = ('A'..='G').zip(0..).filter(|(_, bit)| set >> bit & 1 == 1);
        let letters: String = damaged.map(|(letter, _)| letter).collect();
        broken(&letters).breaks(letters.as_bytes()[0]);
    }
}

#[test]
fn a_place_comes_before_the_memory() {
    let damaged = |place: usize, byte: usize| {
        let mut store = sound();
        store.lent.area[place * 1024 + byte] ^= 1;
        store.lent.memory.fill(0);
        store
    };
    // Live or frozen, in its head, in an entry, behind its end.
    for place in 0..4 {
        for byte in [0, 3, 4, 6, 10, 1023] {
            damaged(place, byte).breaks(b'C');
        }
    }
    // A free place may hold anything.
    damaged(10, 0).breaks(b'D');
    damaged(11, 1023).breaks(b'D');
}

#[test]
fn a_link_whose_place_is_not_frozen_breaks_e_before_f() {
    // A free place, the live table itself, and no place.
    for place in [11, 1, 16, 1 << 32, GREATEST] {
        let mut store = sound();
        store.lent.cards[1][PLACE] = place;
        store.breaks(b'E');
    }
    // The frozen place is made free: two links name it.
    let mut store = sound();
    store.lent.cards[3][ROW_STATE] = STATE_FREE;
    store.breaks(b'E');
    // No link names it any more: nothing is wrong with the links.
    let mut store = sound();
    store.lent.cards[1][ROW_COUNT..ROW_SUMMARY].fill(0);
    store.lent.cards[2][ROW_COUNT..ROW_SUMMARY].fill(0);
    store.breaks(b'F');
}

#[test]
fn a_state_above_2_breaks_b() {
    for state in [3, 4, 255, 1 << 16, STATE_FROZEN + (1 << 32), GREATEST] {
        // Free, live and frozen places.
        for place in [9, 1, 3] {
            let mut store = sound();
            store.lent.cards[place][ROW_STATE] = state;
            store.clone().breaks(b'B');
            store.lent.memory.fill(0);
            store.clone().breaks(b'B');
            store.lent.head[HEAD_CURSOR] = 16;
            store.breaks(b'A');
        }
    }
}

#[test]
fn a_mark_s_flag_above_1_breaks_g() {
    for flag in [HEAD_MARKS, HEAD_MARKS + 2] {
        for value in [2, 3, 256, 1 + (1 << 32), GREATEST] {
            let mut store = sound();
            store.lent.head[flag] = value;
            store.clone().breaks(b'G');
            store.lent.cards[1][NUMBER] = 1;
            store.breaks(b'E');
        }
    }
}

#[test]
fn bytes_of_the_memory_table_beyond_its_length_break_d() {
    // Two entries of 13 bytes behind eight.
    for byte in [34, 35, 500, 1023] {
        let mut store = sound();
        store.lent.memory[byte] = 1;
        store.clone().breaks(b'D');
        break_rule(&mut store.lent, 'G');
        store.breaks(b'D');
    }
}

#[test]
fn links_on_a_free_card_break_b_whatever_their_ranges() {
    let mut store = sound();
    store.lent.cards[9][ROW_COUNT] = 1;
    store.lent.cards[9][ROW_LINKS..ROW_LINKS + LINK_WORDS].copy_from_slice(&[3, 9, 8, 0]);
    store.clone().breaks(b'B');
    // A range upside down on a live card beside it, and that alone.
    store.lent.cards[1][LOW] = 20;
    store.lent.cards[1][HIGH] = 10;
    store.clone().breaks(b'B');
    store.lent.cards[9] = ROW_FREE;
    store.breaks(b'E');
}

#[test]
fn a_threshold_of_9_is_a_before_everything_else() {
    for (word, byte) in [(0, 0), (1, 1), (3, 3), (GREATEST, 255)] {
        let mut store = sound();
        let lent = &mut store.lent;
        lent.area.fill(byte);
        lent.cards.iter_mut().for_each(|row| row.fill(word));
        lent.lists.fill(word as u16);
        lent.head.fill(word);
        lent.memory.fill(byte);
        lent.head[HEAD_THRESHOLD] = 9;
        store.breaks(b'A');
    }
}

/// Runs, and gives number and letter of a run that must change nothing.
fn refused(mut store: Client, list: &[u8], room: usize) -> (u64, u64) {
    let before = store.lent.clone();
    let (outcome, answers) = store.run(list, room);
    assert_eq!((outcome.served, answers.len()), (0, 0));
    assert_eq!(store.lent.difference(&before), None);
    (outcome.number, outcome.letter)
}

#[test]
fn number_1_comes_before_5_and_without_a_letter() {
    let mut store = broken("ABCDEFG");
    store.lent.area.truncate(15_000);
    assert_eq!(check(&store.lent), (1, 0));
    assert_eq!(refused(store, &[3, 0, 5, 0], 0), (1, 0));
    let mut store = broken("D");
    store.lent.lists.push(0);
    assert_eq!(check(&store.lent), (1, 0));
    assert_eq!(refused(store, &[], 1024), (1, 0));
}

#[test]
fn numbers_3_and_4_come_before_5_and_without_a_letter() {
    let good = list(&[Ask::LookUp(5)]);
    for (letters, letter) in [("A", b'A'), ("CD", b'C'), ("EFG", b'E'), ("ABCDEFG", b'A')] {
        let store = broken(letters);
        assert_eq!(check(&store.lent), (5, u64::from(letter)));
        assert_eq!(refused(store.clone(), &good, 1023), (3, 0));
        assert_eq!(refused(store.clone(), &[3, 0, 5, 0], 1023), (3, 0));
        assert_eq!(refused(store.clone(), &[3, 0, 5, 0], 1024), (4, 0));
        assert_eq!(refused(store.clone(), &good, 1024), (5, u64::from(letter)));
        // An empty list is a good one.
        assert_eq!(refused(store, &[], 1024), (5, u64::from(letter)));
    }
}

#[test]
fn number_0_comes_without_a_letter() {
    let mut store = sound();
    assert_eq!(check(&store.lent), (0, 0));
    let (outcome, _) = store.run(&list(&[Ask::LookUp(5), Ask::Odd(99, 0)]), 2048);
    assert_eq!((outcome.number, outcome.letter, outcome.served), (0, 0, 2));
}
