//! Wrong numbers of links (note 2): each by itself breaks rule E, also where it is right in its low bits or in sum alone; a
//! number where no link is breaks rule G. Check and run refuse such a store with 5 and change nothing.

use crate::client::{digits, marks, Client, GREATEST};
use differential::check;
use reference::lent::{LINK_NUMBER, LINK_WORDS, ROW_LINKS, ROW_SUMMARY};
use reference::limits::CARD_LINKS;

/// The word of a row that holds the number of a link.
fn number_word(link: usize) -> usize {
    ROW_LINKS + LINK_WORDS * link + LINK_NUMBER
}

/// What the note says in numbers; the tests go by the names.
#[test]
fn a_link_has_four_words_and_eight_of_them_stand_before_the_summary() {
    assert_eq!((ROW_SUMMARY, LINK_WORDS), (34, 4));
    assert_eq!((number_word(0), number_word(CARD_LINKS - 1)), (5, ROW_SUMMARY - 1));
}

/// A table of eight entries in place 0, on which hang three entries of place 1, one of them a delete mark, and two of place 2.
/// A further entry of each stands outside of the ranges.
fn five_of_eight() -> Client {
    let own: Vec<u64> = (100..108).collect();
    let three = [digits(&[105, 106]), marks([107]), digits(&[500])].concat();
    let store = Client::with_tables(16, 8, &[(1, &own)]).freeze(1, &three, &[(0, 0, 200)]);
    store.freeze(2, &digits(&[115, 116, 500]), &[(0, 0, 200)])
}

/// The store with these numbers on its first links.
fn with_numbers(mut store: Client, numbers: &[u64]) -> Client {
    for (link, number) in numbers.iter().enumerate() {
        store.lent.cards[0][number_word(link)] = *number;
    }
    store
}

#[test]
fn only_the_right_number_is_sound() {
    assert_eq!(five_of_eight().links(0), [[1, 0, 200, 3], [2, 0, 200, 2]]);
    assert_eq!(check(&with_numbers(five_of_eight(), &[3, 2]).lent), (0, 0));
    for number in (0..=20).filter(|number| *number != 3) {
        with_numbers(five_of_eight(), &[number]).breaks(b'E');
    }
}

#[test]
fn a_number_one_too_small_or_too_large_breaks_e() {
    with_numbers(five_of_eight(), &[2]).breaks(b'E');
    with_numbers(five_of_eight(), &[4]).breaks(b'E');
    with_numbers(five_of_eight(), &[3, 1]).breaks(b'E');
    with_numbers(five_of_eight(), &[3, 3]).breaks(b'E');
}

#[test]
fn the_number_0_breaks_e() {
    with_numbers(five_of_eight(), &[0]).breaks(b'E');
    with_numbers(five_of_eight(), &[3, 0]).breaks(b'E');
    // Also where the range holds nothing, so that 0 is what it holds.
    let mut store = with_numbers(five_of_eight(), &[3, 0]);
    store.lent.cards[0][number_word(1) - 1] = 114;
    store.breaks(b'E');
}

#[test]
fn the_number_2_to_the_64_less_1_breaks_e() {
    with_numbers(five_of_eight(), &[GREATEST]).breaks(b'E');
    with_numbers(five_of_eight(), &[GREATEST, GREATEST]).breaks(b'E');
}

#[test]
fn a_number_right_in_its_low_bits_breaks_e() {
    for bit in [5, 8, 15, 16, 31, 32, 53, 63] {
        with_numbers(five_of_eight(), &[3 + (1 << bit)]).breaks(b'E');
        with_numbers(five_of_eight(), &[3, 2 + (1 << bit)]).breaks(b'E');
    }
}

#[test]
fn numbers_right_in_sum_alone_break_e() {
    with_numbers(five_of_eight(), &[4, 1]).breaks(b'E');
    with_numbers(five_of_eight(), &[2, 3]).breaks(b'E');
    with_numbers(five_of_eight(), &[5, 0]).breaks(b'E');
}

#[test]
fn sums_that_pass_16_32_or_64_bits_break_e() {
    for half in [1 << 15, 1 << 31, 1 << 63] {
        // The sum is 5 if the highest bit is lost.
        with_numbers(five_of_eight(), &[3 + half, 2 + half]).breaks(b'E');
    }
    for most in [0xFFFF, 0xFFFF_FFFF, GREATEST] {
        with_numbers(five_of_eight(), &[most, 6]).breaks(b'E');
        with_numbers(five_of_eight(), &[most, most]).breaks(b'E');
    }
}

/// A table of sixteen entries with as many links as a card has room for, each of one entry.
fn eight_links() -> Client {
    let own: Vec<u64> = (100..116).collect();
    (1..=CARD_LINKS).fold(Client::with_tables(16, 8, &[(3, &own)]), |store, place| {
        store.freeze(place, &digits(&[place as u64]), &[(0, 0, 200)])
    })
}

#[test]
fn eight_numbers_whose_sum_passes_a_word_break_e() {
    assert_eq!(eight_links().links(0).len(), 8);
    for eighth in [1 << 13, 1 << 29, 1 << 61] {
        with_numbers(eight_links(), &[1 + eighth; CARD_LINKS]).breaks(b'E');
    }
    with_numbers(eight_links(), &[GREATEST; CARD_LINKS]).breaks(b'E');
    // The last alone.
    with_numbers(eight_links(), &[1, 1, 1, 1, 1, 1, 1, 2]).breaks(b'E');
    with_numbers(eight_links(), &[1, 1, 1, 1, 1, 1, 1, 0]).breaks(b'E');
}

#[test]
fn the_number_of_another_reading_breaks_e() {
    // Of the whole frozen table, of values alone, and of what the newer link leaves to see.
    with_numbers(five_of_eight(), &[4]).breaks(b'E');
    with_numbers(five_of_eight(), &[2]).breaks(b'E');
    let store = Client::with_tables(16, 8, &[(1, &[100, 101, 102, 103])]);
    let store = store.freeze(1, &digits(&[5, 6]), &[(0, 0, 200)]);
    let store = store.freeze(2, &digits(&[6]), &[(0, 0, 200)]);
    assert_eq!(store.links(0), [[1, 0, 200, 2], [2, 0, 200, 1]]);
    with_numbers(store, &[1, 1]).breaks(b'E');
}

#[test]
fn a_number_in_a_link_not_in_use_breaks_g() {
    for number in [1, 3, 1 << 16, 1 << 32, GREATEST] {
        // Behind the two links of place 0, on the cards of a frozen place and of a free one.
        for (place, links) in [(0, 2), (1, 0), (9, 0)] {
            for link in links..CARD_LINKS {
                let mut store = five_of_eight();
                store.lent.cards[place][number_word(link)] = number;
                store.breaks(b'G');
            }
        }
    }
}
