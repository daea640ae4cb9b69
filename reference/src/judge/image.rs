//! Where a history begins at a store that is not new: the working derived from its memory.

use super::working::{bytes_of, links_of, Rows, Slice, Working};
use crate::lent::Lent;

fn number(bytes: &[u8], at: usize) -> usize {
    usize::from(u16::from_le_bytes([bytes[at], bytes[at + 1]]))
}

/// The rows of a place that is known to hold a table.
fn rows(bytes: &[u8]) -> Rows {
    let mut rows = Rows::new();
    let mut at = 8;
    for _ in 0..number(bytes, 4) {
        let length = number(bytes, at);
        let key = u64::from_le_bytes(bytes[at + 4..at + 12].try_into().expect("eight bytes"));
        let value = bytes[at + 12..at + length].to_vec();
        rows.push((key, (number(bytes, at + 2) == 1).then_some(value)));
        at += length;
    }
    rows
}

/// Reads a sound store; slices of one table stand oldest first, as on its card.
pub(super) fn working(lent: &Lent) -> Working {
    let places = lent.cards.len();
    let mut working = Working::of_new_store(places, lent.head[0] as usize);
    working.cursor = lent.head[1] as usize;
    for level in [1, 2] {
        if lent.head[2 * level] == 1 {
            working.marks.insert(level, lent.head[2 * level + 1]);
        }
    }
    for level in 0..4 {
        let items = lent.lists[level * places..].iter().take(lent.head[6 + level] as usize);
        working.levels[level] = items.map(|item| usize::from(*item)).collect();
    }
    working.memory = rows(&lent.memory);
    for (place, card) in lent.cards.iter().enumerate() {
        if card[0] != 0 {
            working.tables[place] = Some(rows(lent.place(place)));
        }
        // The number is not taken over: the slice list has none.
        for [frozen, low, high, _] in links_of(card) {
            let frozen = frozen as usize;
            working.slices.push(Slice { frozen, low, high, on: place });
            working.kept.insert(frozen, bytes_of(&rows(lent.place(frozen))));
        }
    }
    working
}
