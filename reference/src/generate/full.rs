//! Stores that are full of tables and links, at any size: what a benchmark of the check needs, and one with the longest book.

use super::random::Random;
use super::requests::any_value;
use crate::limits::{CARD_LINKS, PLACE_BYTES, TABLE_ENTRIES, VALUE_BYTES};
use crate::store::{new_store, Link, Place, Store};
use crate::table::{Entries, Entry, Key};

/// Live tables in a group, and frozen ones that hang a slice on each of them.
const LIVE: usize = 4;
const FROZEN: usize = 2;

/// Keys that a table's plot takes.
const PLOT: Key = 1000;

/// Groups of six places on level 3, four live tables with two links each, as many as there is room for.
pub fn full(random: &mut Random, places: usize) -> Store {
    let mut store = new_store(vec![0; places * PLACE_BYTES], LIVE);
    for group in 0..places / (LIVE + FROZEN) {
        let first = group * (LIVE + FROZEN);
        for on in 0..LIVE {
            let low = (group * LIVE + on) as Key * PLOT;
            store.settle(first + on, spread(random, low, PLOT / TABLE_ENTRIES as Key));
            store.levels[3].push(first + on);
        }
        for place in first + LIVE..first + LIVE + FROZEN {
            let low = (group * LIVE) as Key * PLOT;
            let table = spread(random, low, PLOT * LIVE as Key / TABLE_ENTRIES as Key);
            for on in 0..LIVE {
                let low = low + on as Key * PLOT;
                let high = low + PLOT - 1;
                let number = table.range(low..=high).count();
                if let Place::Live { links, .. } = &mut store.places[first + on] {
                    links.push(Link { place, low, high, number });
                }
            }
            store.settle_frozen(place, table);
        }
    }
    store
}

/// Groups of three places on level 3: two live tables with eight links each, one for each entry of the frozen one, as many as there
/// is room for. The memory has sixteen of the longest entries. No book of as many places is longer by much.
pub fn most_links(random: &mut Random, places: usize) -> Store {
    let mut store = new_store(vec![0; places * PLACE_BYTES], CARD_LINKS);
    for group in 0..places / 3 {
        let (first, place) = (3 * group, 3 * group + 2);
        let low = (2 * group) as Key * PLOT;
        let frozen = spread(random, low, 2 * PLOT / TABLE_ENTRIES as Key);
        let keys: Vec<Key> = frozen.keys().copied().collect();
        for (on, own) in keys.chunks(CARD_LINKS).enumerate() {
            let low = low + on as Key * PLOT;
            let table = spread(random, low, PLOT / TABLE_ENTRIES as Key);
            store.settle(first + on, table);
            store.levels[3].push(first + on);
            if let Place::Live { links, .. } = &mut store.places[first + on] {
                let link = |key: &Key| Link { place, low: *key, high: *key, number: 1 };
                links.extend(own.iter().map(link));
            }
        }
        store.settle_frozen(place, frozen);
    }
    let value = |random: &mut Random| Entry::Value(random.bytes(VALUE_BYTES));
    store.memory = (0..TABLE_ENTRIES).map(|key| (key as Key, value(random))).collect();
    store.marks = [Some(Key::MAX), Some(0)];
    store.cursor = places - 1;
    store
}

/// Sixteen values, one in each step from a key on.
fn spread(random: &mut Random, low: Key, step: Key) -> Entries {
    let key = |number: usize, random: &mut Random| {
        low + number as Key * step + random.below(step as usize) as Key
    };
    (0..TABLE_ENTRIES)
        .map(|number| (key(number, random), Entry::Value(any_value(random))))
        .collect()
}

#[cfg(test)]
mod tests {
    use super::*;
    use crate::rules::check;

    #[test]
    fn a_full_store_is_sound() {
        for places in [16, 64, 100] {
            let store = full(&mut Random::new(places as u64), places);
            assert!(store.free() < LIVE + FROZEN);
            assert!(check(&store.encode()).broken.is_empty());
        }
    }

    #[test]
    fn a_store_with_most_links_is_sound() {
        for places in [16, 18, 300] {
            let store = most_links(&mut Random::new(places as u64), places);
            assert!(store.free() < 3);
            let all = store.levels[3].iter().all(|place| store.live(*place).1.len() == CARD_LINKS);
            assert!(all && check(&store.encode()).broken.is_empty());
        }
    }
}
