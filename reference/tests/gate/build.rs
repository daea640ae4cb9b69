//! Small stores and byte strings for tests that work through examples.

use reference::lent::Lent;
use reference::limits::PLACE_BYTES;
use reference::rules::check;
use reference::run::{make, run, Outcome};
use reference::store::{new_store, Store};
use reference::table::{Entries, Entry, Key};

/// Bytes from a string of hexadecimal digits and blanks.
pub fn hex(text: &str) -> Vec<u8> {
    let digits: String = text.chars().filter(char::is_ascii_hexdigit).collect();
    let byte = |at: usize| u8::from_str_radix(&digits[at..at + 2], 16).expect("two digits");
    (0..digits.len()).step_by(2).map(byte).collect()
}

/// A new store in zeroed memory.
pub fn new_lent(places: usize, threshold: u64) -> Lent {
    let mut lent = Lent::zeroed(places);
    assert_eq!(make(&mut lent, threshold), 0);
    lent
}

/// A store with tables of these keys on these levels, in places from 0 up; a value is the key's
/// low byte.
pub fn store_of(places: usize, threshold: usize, tables: &[(usize, &[Key])]) -> Store {
    let mut store = new_store(vec![0; places * PLACE_BYTES], threshold);
    for (place, (level, keys)) in tables.iter().enumerate() {
        let table: Entries =
            keys.iter().map(|key| (*key, Entry::Value(vec![*key as u8]))).collect();
        store.settle(place, table);
        store.levels[*level].push(place);
    }
    store
}

/// The same as lent memory, which is sound.
pub fn lent_of(places: usize, threshold: usize, tables: &[(usize, &[Key])]) -> Lent {
    let lent = store_of(places, threshold, tables).encode();
    assert_eq!(check(&lent).number, 0);
    lent
}

/// Runs requests with room for all answers; the run is accepted and serves all.
pub fn serve(lent: &mut Lent, requests: &[Vec<u8>]) -> Outcome {
    let outcome = run(lent, &requests.concat(), 1024 * (1 + requests.len()));
    assert_eq!((outcome.number, outcome.served), (0, requests.len()));
    outcome
}
