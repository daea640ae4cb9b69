//! Wrong summary bits (note 6): on a live or frozen card they break rule C, before D and E; on a free card rule G. Check, run and
//! save refuse such a store with 5 and change nothing.

use crate::client::{digits, marks, table, Client};
use crate::saving::saved_into;
use crate::tables::{bits, summarize};
use reference::lent::*;

/// In place 0 a table of level 0; in 1 one of level 1, on which hangs place 2, with a value and a delete mark. Place 9 is free and
/// still holds a table.
fn sound() -> Client {
    let store = Client::with_tables(16, 4, &[(0, &[5, 258]), (1, &[10, 20])]);
    let frozen = [digits(&[12]), marks([15])].concat();
    let mut store = store.freeze(2, &frozen, &[(1, 0, 30)]);
    store.lent.area[9 * 1024..10 * 1024].copy_from_slice(&table(&[7]));
    store
}

/// Check, run and save refuse the store by this letter.
fn breaks(store: Client, letter: u8) {
    assert_eq!(saved_into(&store.lent, 4096), (5, u64::from(letter), Vec::new()));
    store.breaks(letter);
}

/// The store after some damage.
fn with(damage: impl FnOnce(&mut Lent)) -> Client {
    let mut store = sound();
    damage(&mut store.lent);
    store
}

/// A letter, and a damage to the store above that breaks its rule.
type Damage = (u8, fn(&mut Lent));

/// The cards of a live place on level 0, a live one with a link, and a frozen one.
const IN_USE: [usize; 3] = [0, 1, 2];
const FREE: [usize; 3] = [3, 9, 15];

fn flip(lent: &mut Lent, place: usize, bit: usize) {
    lent.cards[place][ROW_SUMMARY + bit / 64] ^= 1 << (bit % 64);
}

#[test]
fn every_bit_flipped_on_a_card_in_use_breaks_c() {
    assert_eq!(differential::check(&sound().lent), (0, 0));
    for place in IN_USE {
        for bit in 0..256 {
            breaks(with(|lent| flip(lent, place, bit)), b'C');
        }
    }
}

#[test]
fn every_bit_on_a_free_card_breaks_g() {
    for place in FREE {
        for bit in 0..256 {
            breaks(with(|lent| flip(lent, place, bit)), b'G');
        }
    }
    // Also where its place still holds a table with that bit.
    breaks(with(|lent| summarize(&mut lent.cards[9], [7])), b'G');
}

#[test]
fn none_all_and_those_of_another_table_break_c() {
    for place in IN_USE {
        breaks(with(|lent| lent.cards[place][ROW_SUMMARY..].fill(0)), b'C');
        breaks(with(|lent| lent.cards[place][ROW_SUMMARY..].fill(u64::MAX)), b'C');
        let other = (place + 1) % 3;
        breaks(
            with(|lent| {
                let bits = lent.cards[other][ROW_SUMMARY..].to_vec();
                lent.cards[place][ROW_SUMMARY..].copy_from_slice(&bits);
            }),
            b'C',
        );
    }
}

#[test]
fn bits_of_some_keys_and_of_more_keys_break_c() {
    // Without the key of the delete mark, and with a key that the table does not have.
    breaks(with(|lent| summarize(&mut lent.cards[2], [12])), b'C');
    breaks(with(|lent| summarize(&mut lent.cards[2], [12, 15, 16])), b'C');
    breaks(with(|lent| summarize(&mut lent.cards[0], [5])), b'C');
    // A key more whose bits are there already changes nothing: the twin of 5.
    let same = with(|lent| summarize(&mut lent.cards[0], [5, 258, 0x80_0085]));
    assert_eq!(bits(0x80_0085), [5, 5, 5]);
    assert_eq!(same.lent.difference(&sound().lent), None);
}

#[test]
fn words_or_bytes_in_another_order_break_c() {
    breaks(with(|lent| lent.cards[0][ROW_SUMMARY..].reverse()), b'C');
    for place in IN_USE {
        breaks(
            with(|lent| {
                let words = &mut lent.cards[place][ROW_SUMMARY..];
                words.iter_mut().for_each(|word| *word = word.swap_bytes());
            }),
            b'C',
        );
        breaks(
            with(|lent| {
                let words = &mut lent.cards[place][ROW_SUMMARY..];
                let byte = |byte: u8| byte.reverse_bits();
                let turned = |word: u64| u64::from_le_bytes(word.to_le_bytes().map(byte));
                words.iter_mut().for_each(|word| *word = turned(*word));
            }),
            b'C',
        );
    }
}

#[test]
fn another_table_under_the_same_bits_breaks_c() {
    // Place 0 holds other keys now, as good a table as before.
    breaks(with(|lent| lent.area[..1024].copy_from_slice(&table(&[5, 259]))), b'C');
    // With its own bits it is sound.
    let mut store = with(|lent| lent.area[..1024].copy_from_slice(&table(&[5, 259])));
    summarize(&mut store.lent.cards[0], [5, 259]);
    assert_eq!(differential::check(&store.lent), (0, 0));
}

#[test]
fn wrong_bits_come_before_d_e_f_and_g_and_after_a_and_b() {
    let others: [Damage; 6] = [
        (b'A', |lent| lent.head[HEAD_CURSOR] = 16),
        (b'B', |lent| lent.cards[4][ROW_STATE] = 3),
        (b'D', |lent| lent.memory[6] = 1),
        (b'E', |lent| lent.cards[1][ROW_LINKS + LINK_NUMBER] = 3),
        (b'F', |lent| {
            lent.cards[9][ROW_STATE] = STATE_FROZEN;
            summarize(&mut lent.cards[9], [7]);
        }),
        (b'G', |lent| flip(lent, 3, 77)),
    ];
    for (letter, damage) in others {
        breaks(with(damage), letter);
        for place in IN_USE {
            let both = with(|lent| {
                flip(lent, place, 200);
                damage(lent);
            });
            breaks(both, letter.min(b'C'));
        }
    }
}

#[test]
fn a_free_card_s_bits_come_last() {
    let others: [Damage; 4] = [
        (b'C', |lent| lent.area[2] = 31),
        (b'D', |lent| lent.memory[6] = 1),
        (b'E', |lent| lent.cards[1][ROW_LINKS + LINK_NUMBER] = 3),
        (b'F', |lent| {
            lent.cards[9][ROW_STATE] = STATE_FROZEN;
            summarize(&mut lent.cards[9], [7]);
        }),
    ];
    for (letter, damage) in others {
        let both = with(|lent| {
            flip(lent, 15, 255);
            damage(lent);
        });
        breaks(both, letter);
    }
}

#[test]
fn a_card_of_a_state_above_2_with_any_bits_breaks_b() {
    for place in [0, 2, 9] {
        let store = with(|lent| {
            lent.cards[place][ROW_STATE] = 3;
            lent.cards[place][ROW_SUMMARY..].fill(u64::MAX);
        });
        breaks(store, b'B');
    }
}
