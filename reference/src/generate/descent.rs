//! The way of delete marks down to level 2, as a list for a new store of 16 places: marks stay at a
//! merge on level 1 and go at one on level 2. Random lists that do so are several times as long.

use super::requests::{delete, flush, look_up, probe, put, report, scan, tidy, twin};
use crate::table::Key;

/// With this threshold a second link makes a table due, however light.
pub const THRESHOLD: u64 = 2;

/// Full tables on level 1: as many as its capacity.
const FULL: u64 = 8;

/// Keys of the table that comes to level 2. All but the last one are deleted.
const DELETED: std::ops::Range<Key> = 0..15;

/// A key of another table, whose delete mark goes on level 1.
const BESIDE: Key = 16;

/// Writes, a flush, and so many tidies.
fn load(writes: impl IntoIterator<Item = Vec<u8>>, tidies: usize) -> Vec<Vec<u8>> {
    writes.into_iter().chain([flush()]).chain(vec![tidy(); tidies]).collect()
}

/// The list. Every tidy in it is done.
pub fn descent() -> Vec<u8> {
    let mut list = Vec::new();
    for table in 0..FULL {
        // Level 0 keeps two tables. The first moves down; later ones are linked, and are due.
        let tidies = [0, 0, 1, 2][table.min(3) as usize];
        list.extend(load((16 * table..16 * table + 16).map(|key| put(key, b"v")), tidies));
    }
    // Two light links on the last table make it due and give a ninth.
    list.extend(load([put(16 * FULL, b"v")], 2));
    list.extend(load([put(16 * FULL + 1, b"v")], 2));
    list.extend(load(DELETED.chain([BESIDE]).map(delete), 1));
    // The first of the two links is there.
    list.push(probe(16 * FULL));
    // With the ninth, level 1 gives its first table to level 2.
    list.extend(load((1..=FULL).map(|table| put(16 * table + 5, b"w")), 3));
    list.extend([look_up(0), look_up(BESIDE), probe(0), probe(BESIDE), probe(37), probe(twin(37))]);
    // The deletes are linked and merged on level 1. Then every table behind the mark gains a link,
    // so that the choice goes round to the one with the delete marks. It is linked and merged.
    list.extend(load([put(900, b"")], 0));
    list.extend(load([put(901, b"")], 5));
    list.extend([look_up(0), look_up(15), look_up(BESIDE), scan(0, Key::MAX), report()]);
    list.extend([probe(0), probe(15), probe(BESIDE), probe(900), probe(twin(900))]);
    list.concat()
}
