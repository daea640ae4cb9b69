//! Every way to keep a store brings it back, and its bytes are as many as they must be.

use bench::kept::kept_times;

#[test]
fn every_way_brings_the_store_back() {
    // What comes back is compared within; a way that brings another store back ends it.
    let times = kept_times(3, 64, 2, true);
    let bytes: Vec<usize> = times.ways.iter().map(|way| way.bytes).collect();
    // Ten groups of four live tables with two links each, and two frozen ones; nothing in memory.
    let book = 32 + 64 * 4 + 80 * 20 + 4 * 2 + 40 * 2 + 2;
    assert_eq!(bytes[..4], [book, book + 64 * 1024, book, 64 * 1336 + 1112]);
    assert!(times.ways.iter().all(|way| way.save > 0.0 && way.open > 0.0));
    if times.ways.len() == 4 {
        println!("SQLite is skipped: the package libsqlite3-0 is not installed");
    }
    // Some of the keys are in two tables.
    assert!(bytes[4..].iter().all(|bytes| *bytes > 500 * 60), "{bytes:?}");
    assert_eq!(kept_times(3, 64, 1, false).ways.len(), 4);
}
