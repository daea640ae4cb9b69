//! step_bench: prints what a flush and a tidy cost beside tables that no step touches: none, many with short values, and as
//! many with long ones. A step's cost may grow with the number of places, whose cards it looks through, but not with the
//! bytes of those tables.

use differential::run_in_place;
use reference::lent::Lent;
use reference::limits::{PLACE_BYTES, VALUE_BYTES};
use reference::store::new_store;
use reference::table::{Entry, Key};
use std::time::Instant;

/// Rounds of sixteen puts, a flush and four tidies in one list.
const ROUNDS: Key = 40;
const TIDIES: usize = 4;

/// A store with tables on level 3 far above the keys that the list puts, each of sixteen values.
fn far_tables(places: usize, tables: usize, value: usize) -> Lent {
    let mut store = new_store(vec![0; places * PLACE_BYTES], 4);
    for table in 0..tables {
        let low = (1 << 40) + table as Key * 1000;
        let entries = (0..16).map(|n| (low + n, Entry::Value(vec![7; value])));
        store.settle(table, entries.collect());
        store.levels[3].push(table);
    }
    store.encode()
}

/// Appends a request: length, kind, body.
fn push(list: &mut Vec<u8>, kind: u16, body: &[u8]) {
    list.extend(((4 + body.len()) as u16).to_le_bytes());
    list.extend(kind.to_le_bytes());
    list.extend(body);
}

fn rounds() -> Vec<u8> {
    let mut list = Vec::new();
    for round in 0..ROUNDS {
        for n in 0..16 {
            let key: Key = (round * 7919 + n * 613) % 4096;
            push(&mut list, 1, &[&key.to_le_bytes()[..], b"crack at 4 o'clock"].concat());
        }
        push(&mut list, 5, &[]);
        for _ in 0..TIDIES {
            push(&mut list, 6, &[]);
        }
    }
    list
}

/// The least time of some runs of a list, each from the same store, in microseconds.
fn least_time(store: &Lent, list: &[u8]) -> f64 {
    let mut answers = vec![0; 1 << 17];
    let mut once = || {
        let mut lent = store.clone();
        let began = Instant::now();
        let outcome = run_in_place(&mut lent, list, &mut answers);
        let time = began.elapsed().as_secs_f64() * 1e6;
        assert_eq!(outcome.number, 0);
        time
    };
    (0..15).map(|_| once()).fold(f64::INFINITY, f64::min)
}

fn main() {
    let list = rounds();
    println!(
        "places  untouched tables  value bytes  a round of 16 puts, flush, {TIDIES} tidies (us)"
    );
    for places in [256, 4096] {
        for (tables, value) in [(0, 0), (places / 2, 0), (places / 2, VALUE_BYTES)] {
            let store = far_tables(places, tables, value);
            let checked = least_time(&store, &[]);
            let round = (least_time(&store, &list) - checked) / ROUNDS as f64;
            println!("{places:6}  {tables:16}  {value:11}  {round:12.2}");
        }
    }
}
