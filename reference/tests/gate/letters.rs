//! The first broken rule: stores in which several rules are broken, each with its letter and with the set of all broken rules,
//! and the numbers that come without a letter.

use crate::build::store_of;
use reference::generate::requests::{flush, report};
use reference::implementation::{Implementation, Reference};
use reference::lent::*;
use reference::letters::said;
use reference::limits::PLACE_BYTES;
use reference::rules::{check, Broken, Rule};
use reference::store::{Link, Place};
use reference::table::{Entries, Entry, Key};

/// A sound store: in place 0 a table of level 0, in 1 and 2 tables of level 1, on both of which hangs place 3. Place 10 is free
/// and still holds a table, so that it may become frozen without breaking C.
fn sound() -> Lent {
    let mut store = store_of(16, 4, &[(0, &[5, 6]), (1, &[10, 20]), (1, &[30, 40])]);
    let table =
        |keys: &[Key]| -> Entries { keys.iter().map(|key| (*key, Entry::DeleteMark)).collect() };
    for (place, low, number) in [(1, 10, 2), (2, 30, 1)] {
        if let Place::Live { links, .. } = &mut store.places[place] {
            links.push(Link { place: 3, low, high: low + 10, number });
        }
    }
    store.settle_frozen(3, table(&[12, 15, 35]));
    store.write_bytes(10, &table(&[7]));
    store.memory = table(&[8, 9]);
    let lent = store.encode();
    assert_eq!(said(&Reference::default(), &lent), Ok((0, 0)));
    lent
}

/// The word of the number of place 1's link.
const NUMBER: usize = ROW_LINKS + LINK_NUMBER;

/// Breaks the rule in the store above. No two touch one word or byte.
fn break_rule(lent: &mut Lent, rule: char) {
    match rule {
        'A' => lent.head[HEAD_THRESHOLD] = 9,
        'B' => lent.cards[9][ROW_STATE] = 3,
        'C' => lent.area[2 * PLACE_BYTES + 2] = 31,
        'D' => lent.memory[6] = 1,
        'E' => lent.cards[1][NUMBER] = 3,
        'F' => {
            lent.cards[10][ROW_STATE] = STATE_FROZEN;
            // The bit of its one key, 7, without which C would be broken.
            lent.cards[10][ROW_SUMMARY] = 1 << 7;
        }
        'G' => lent.head[HEAD_MARKS] = 2,
        _ => unreachable!("A to G"),
    }
}

/// The store with all of these rules broken.
fn broken(rules: &str) -> Lent {
    let mut lent = sound();
    rules.chars().for_each(|rule| break_rule(&mut lent, rule));
    lent
}

/// Check and run give this letter, and these rules are broken and no others.
fn assert_letter(lent: &Lent, letter: u8, rules: &str) {
    assert_eq!(said(&Reference::default(), lent), Ok((5, letter)), "{rules}");
    let rule = |letter: u8| Rule::ALL[usize::from(letter - b'A')];
    assert_eq!(check(lent).broken, rules.bytes().map(rule).collect::<Broken>());
}

#[test]
fn of_two_neighbours_the_first_is_given() {
    assert_letter(&broken("AB"), b'A', "AB");
    assert_letter(&broken("BC"), b'B', "BC");
    assert_letter(&broken("CD"), b'C', "CD");
    assert_letter(&broken("DE"), b'D', "DE");
    assert_letter(&broken("EF"), b'E', "EF");
    assert_letter(&broken("FG"), b'F', "FG");
}

#[test]
fn of_all_that_are_damaged_the_first_is_given() {
    // Without B and C nothing is said about E, F and G.
    assert_letter(&broken("GFEDCBA"), b'A', "ABCD");
    assert_letter(&broken("GFEDCB"), b'B', "BCD");
    assert_letter(&broken("GFEDC"), b'C', "CD");
    assert_letter(&broken("GFEDA"), b'A', "ADEFG");
    assert_letter(&broken("GFED"), b'D', "DEFG");
    assert_letter(&broken("GFE"), b'E', "EFG");
    assert_letter(&broken("GF"), b'F', "FG");
    assert_letter(&broken("G"), b'G', "G");
}

/// A damage to the store above, the letter that comes for it, and all broken rules.
type Example = (&'static str, fn(&mut Lent), u8, &'static str);

const EXAMPLES: [Example; 20] = [
    ("a link to a free place", |lent| lent.cards[1][ROW_LINKS] = 11, b'E', "EF"),
    ("a link to no place", |lent| lent.cards[1][ROW_LINKS] = 16, b'E', "E"),
    ("a linked place made free", |lent| lent.cards[3][ROW_STATE] = 0, b'E', "EFG"),
    ("a linked place without its links", |lent| unlink(lent), b'F', "F"),
    ("a state above 2", |lent| lent.cards[9][ROW_STATE] = u64::MAX, b'B', "B"),
    ("a state above 2, memory damaged", |lent| damage_state_and_memory(lent), b'B', "BD"),
    ("a mark's flag above 1", |lent| lent.head[HEAD_MARKS + 2] = u64::MAX, b'G', "G"),
    ("a mark's flag above 1, a wrong number", |lent| damage_flag_and_number(lent), b'E', "EG"),
    ("a byte of the memory beyond its length", |lent| lent.memory[1023] = 1, b'D', "D"),
    ("a byte of a place beyond its table", |lent| lent.area[1023] = 1, b'C', "C"),
    ("a link on a free card, ranges upside down", |lent| damage_ranges(lent), b'B', "B"),
    ("a bit more on a live card", |lent| lent.cards[1][ROW_SUMMARY] |= 1 << 11, b'C', "C"),
    ("a bit less on a frozen card", |lent| lent.cards[3][ROW_SUMMARY] &= !(1 << 12), b'C', "C"),
    ("the last bit of a live card", |lent| lent.cards[0][ROW_WORDS - 1] = 1 << 63, b'C', "C"),
    ("a bit on a free card", |lent| lent.cards[10][ROW_SUMMARY] = 1 << 7, b'G', "G"),
    ("a wrong bit, memory damaged", |lent| damage_bit_and(lent, 'D'), b'C', "CD"),
    ("a wrong bit, a wrong number", |lent| damage_bit_and(lent, 'E'), b'C', "C"),
    ("a wrong bit, a state above 2", |lent| damage_bit_and(lent, 'B'), b'B', "BC"),
    ("threshold 9, all else live and 1", |lent| fill(lent, 1), b'A', "ABCD"),
    ("threshold 9, all else of all bits", |lent| fill(lent, u64::MAX), b'A', "ABD"),
];

fn unlink(lent: &mut Lent) {
    lent.cards[1][ROW_COUNT..ROW_SUMMARY].fill(0);
    lent.cards[2][ROW_COUNT..ROW_SUMMARY].fill(0);
}

fn damage_state_and_memory(lent: &mut Lent) {
    lent.cards[9][ROW_STATE] = 3;
    lent.memory.fill(0);
}

fn damage_flag_and_number(lent: &mut Lent) {
    lent.head[HEAD_MARKS] = 2;
    lent.cards[1][NUMBER] = 1;
}

fn damage_bit_and(lent: &mut Lent, rule: char) {
    lent.cards[2][ROW_SUMMARY] ^= 1 << 30;
    break_rule(lent, rule);
}

fn damage_ranges(lent: &mut Lent) {
    lent.cards[9][ROW_COUNT] = 1;
    lent.cards[9][ROW_LINKS..ROW_LINKS + LINK_WORDS].copy_from_slice(&[3, 9, 8, 0]);
    lent.cards[1][ROW_LINKS + LINK_LOW] = 21;
}

/// Everything the same but the threshold, which is 9.
fn fill(lent: &mut Lent, word: u64) {
    lent.area.fill(word as u8);
    lent.cards.iter_mut().for_each(|row| row.fill(word));
    lent.lists.fill(word as u16);
    lent.head.fill(word);
    lent.memory.fill(word as u8);
    lent.head[HEAD_THRESHOLD] = 9;
}

#[test]
fn examples_by_name() {
    for (name, damage, letter, rules) in EXAMPLES {
        println!("{name}");
        let mut lent = sound();
        damage(&mut lent);
        assert_letter(&lent, letter, rules);
    }
}

/// Number and letter of a run by itself.
fn ran(lent: &Lent, list: &[u8], room: usize) -> (u16, u8) {
    let ran = Reference::default().run(&mut lent.clone(), list, &mut vec![0; room]);
    (ran.number, ran.letter)
}

#[test]
fn other_numbers_come_without_a_letter() {
    for rules in ["A", "CD", "EFG", "GFEDCBA"] {
        let mut lent = broken(rules);
        assert_eq!(ran(&lent, &report(), 1023), (3, 0));
        assert_eq!(ran(&lent, &[3, 0, 5, 0], 1024), (4, 0));
        assert_eq!(ran(&lent, &report(), 1024).0, 5);
        lent.cards.push(ROW_FREE);
        assert_eq!(said(&Reference::default(), &lent), Ok((1, 0)));
    }
    assert_eq!(ran(&sound(), &flush(), 1024), (0, 0));
}
