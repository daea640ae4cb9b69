//! Look-ups and scans: ends of the key range, ranges of all sorts, delete marks, more than sixteen values.

use crate::client::{digits, found, Ask, Client, Reply, GREATEST};

const NO_VALUE: Reply = Reply::Not(64);

fn value(text: &str) -> Reply {
    Reply::Value(text.into())
}

fn none() -> Reply {
    found([], "", 0)
}

/// The ends of the key range, wherever their entries stand.
fn look_at_both_ends(store: &mut Client) {
    let asks = [
        Ask::LookUp(0),
        Ask::LookUp(GREATEST),
        Ask::LookUp(1),
        Ask::LookUp(GREATEST - 1),
        Ask::Scan(0, 0),
        Ask::Scan(GREATEST, GREATEST),
        Ask::Scan(0, GREATEST),
        Ask::Scan(1, GREATEST - 1),
    ];
    let ends = [value("end"), value("end"), NO_VALUE, NO_VALUE];
    let ranges =
        [found([0], "end", 0), found([GREATEST], "end", 0), found([0, GREATEST], "end", 0), none()];
    assert_eq!(store.ask(&asks), [ends, ranges].concat());
}

#[test]
fn keys_0_and_greatest_are_ordinary() {
    let mut store = Client::new(16, 4);
    assert_eq!(
        store.ask(&[Ask::Put(0, "end"), Ask::Put(GREATEST, "end")]),
        [Reply::Done, Reply::Done]
    );
    look_at_both_ends(&mut store);
    // Delete marks under keys between them make the table heavier than two slices of the ends.
    store.ask(&[2, 3, 4].map(Ask::Delete));
    look_at_both_ends(&mut store);
    assert_eq!(store.ask_one(Ask::Flush), Reply::Done);
    look_at_both_ends(&mut store);
    // Older ends move to level 1, and the newer ones hang on them as slices.
    store.flush_table([0, GREATEST], "old");
    store.flush_table([0, GREATEST], "end");
    for step in [1, 2, 2] {
        assert_eq!(store.ask_one(Ask::Tidy), Reply::Step(step, 0));
        look_at_both_ends(&mut store);
        store.flush_table([0, GREATEST], "end");
    }
    look_at_both_ends(&mut store);
    let gone = [
        Ask::Delete(0),
        Ask::Delete(GREATEST),
        Ask::LookUp(0),
        Ask::LookUp(GREATEST),
        Ask::Scan(0, GREATEST),
    ];
    assert_eq!(store.ask(&gone), [Reply::Done, Reply::Done, NO_VALUE, NO_VALUE, none()]);
    store.ask(&[Ask::Flush]);
    assert_eq!(store.ask(&gone[2..]), [NO_VALUE, NO_VALUE, none()]);
}

#[test]
fn ranges_of_one_key() {
    let mut store = Client::new(16, 4);
    store.flush_table([10, 12], "t");
    store.ask(&[Ask::Put(20, "m"), Ask::Delete(12)]);
    let asks = [10, 11, 12, 20, 21].map(|key| Ask::Scan(key, key));
    let expected = [found([10], "t", 0), none(), none(), found([20], "m", 0), none()];
    assert_eq!(store.ask(&asks), expected);
}

/// Keys 10 to 160 and 1,010 to 1,160 in steps of ten, in two tables on level 1; keys 5,000 and 6,000 on level 0.
fn two_tables_below() -> Client {
    let mut store = Client::new(16, 1);
    store.flush_table((1..=16).map(|key| 10 * key), "v");
    store.flush_table((1..=16).map(|key| 1000 + 10 * key), "v");
    store.flush_table([5000], "v");
    assert_eq!(store.ask_one(Ask::Tidy), Reply::Step(1, 0));
    store.flush_table([6000], "v");
    assert_eq!(store.ask(&[Ask::Tidy, Ask::Tidy]), [Reply::Step(2, 0), Reply::Step(3, 1)]);
    assert_eq!(store.ask_one(Ask::Report), Reply::Counts([12, 2, 2, 0, 0, 0, 0, 0]));
    store
}

#[test]
fn ranges_that_begin_or_end_between_tables() {
    let mut store = two_tables_below();
    let asks = [
        Ask::Scan(500, 600),
        Ask::Scan(161, 1009),
        Ask::Scan(165, 1015),
        Ask::Scan(155, 500),
        Ask::Scan(160, 1010),
        Ask::Scan(0, 9),
        Ask::Scan(1161, 4999),
        Ask::Scan(1155, 5000),
        Ask::Scan(6001, GREATEST),
    ];
    let expected = [
        none(),
        none(),
        found([1010], "v", 0),
        found([160], "v", 0),
        found([160, 1010], "v", 0),
        none(),
        none(),
        found([1160, 5000], "v", 0),
        none(),
    ];
    assert_eq!(store.ask(&asks), expected);
}

#[test]
fn more_than_sixteen_values() {
    let mut store = two_tables_below();
    let first = || (1..=16).map(|key| 10 * key);
    let asks = [
        Ask::Scan(0, GREATEST),
        Ask::Scan(10, 160),
        Ask::Scan(10, 1009),
        Ask::Scan(10, 1010),
        Ask::Scan(11, 1010),
        Ask::Scan(11, 1020),
    ];
    let second = || (2..=16).map(|key| 10 * key).chain([1010]);
    let expected = [
        found(first(), "v", 1),
        found(first(), "v", 0),
        found(first(), "v", 0),
        found(first(), "v", 1),
        found(second(), "v", 0),
        found(second(), "v", 1),
    ];
    assert_eq!(store.ask(&asks), expected);
}

#[test]
fn a_further_key_that_is_deleted_is_not_more() {
    let mut store = Client::new(16, 4);
    store.flush_table(1..=16, "v");
    store.flush_table([17], "v");
    assert_eq!(store.ask_one(Ask::Scan(1, 17)), found(1..=16, "v", 1));
    store.ask(&[Ask::Delete(17)]);
    assert_eq!(store.ask_one(Ask::Scan(1, 17)), found(1..=16, "v", 0));
    // A deleted one among the sixteen makes room for the next.
    store.ask(&[Ask::Put(17, "v"), Ask::Delete(3)]);
    assert_eq!(store.ask_one(Ask::Scan(1, 17)), found([1, 2].into_iter().chain(4..=17), "v", 0));
    store.ask(&[Ask::Put(18, "v"), Ask::Delete(4)]);
    assert_eq!(store.ask_one(Ask::Scan(1, 18)), found([1, 2].into_iter().chain(5..=18), "v", 0));
}

#[test]
fn ranges_in_gaps_that_only_a_link_covers() {
    let mut store = Client::new(16, 4);
    store.flush_table([100, 110], "below");
    store.flush_table([5, 105, 200], "slice");
    store.flush_table([7000], "x");
    store.flush_table([8000], "x");
    assert_eq!(
        store.ask(&[Ask::Tidy, Ask::Report]),
        [Reply::Step(1, 0), Reply::Counts([12, 3, 1, 0, 0, 0, 0, 0])]
    );
    assert_eq!(
        store.ask(&[Ask::Tidy, Ask::Report]),
        [Reply::Step(2, 0), Reply::Counts([12, 2, 1, 0, 0, 1, 1, 0])]
    );
    let asks = [
        Ask::Scan(0, 50),
        Ask::Scan(5, 5),
        Ask::Scan(111, 300),
        Ask::Scan(101, 109),
        Ask::Scan(201, 6999),
        Ask::LookUp(200),
        Ask::LookUp(105),
        Ask::LookUp(100),
        Ask::LookUp(6),
    ];
    let expected = [
        found([5], "slice", 0),
        found([5], "slice", 0),
        found([200], "slice", 0),
        found([105], "slice", 0),
        none(),
        value("slice"),
        value("slice"),
        value("below"),
        NO_VALUE,
    ];
    assert_eq!(store.ask(&asks), expected);
}

#[test]
fn only_delete_marks_in_the_range() {
    let mut store = Client::new(16, 4);
    store.flush_table([1, 2, 3, 4], "v");
    store.ask(&[Ask::Delete(2), Ask::Delete(3), Ask::Delete(9)]);
    let asks = [Ask::Scan(2, 3), Ask::Scan(9, 9), Ask::Scan(1, 4), Ask::LookUp(2), Ask::LookUp(9)];
    let expected = [none(), none(), found([1, 4], "v", 0), NO_VALUE, NO_VALUE];
    assert_eq!(store.ask(&asks), expected);
    assert_eq!(store.ask_one(Ask::Flush), Reply::Done);
    assert_eq!(store.ask(&asks), expected);
}

#[test]
fn the_newer_entry_decides() {
    let mut store = Client::new(16, 4);
    store.flush_table([5], "oldest");
    store.flush_table([5], "older");
    assert_eq!(store.ask_one(Ask::LookUp(5)), value("older"));
    store.flush_table([6], "x");
    store.flush_table([5, 6], "newer");
    // Moved, then linked: the link is newer than the table, level 0 newer than both.
    assert_eq!(store.ask(&[Ask::Tidy, Ask::Tidy]), [Reply::Step(1, 0), Reply::Step(2, 0)]);
    assert_eq!(store.ask_one(Ask::LookUp(5)), value("newer"));
    store.ask(&[Ask::Put(5, "")]);
    assert_eq!(store.ask(&[Ask::LookUp(5), Ask::Scan(5, 5)]), [value(""), found([5], "", 0)]);
    store.ask(&[Ask::Delete(5)]);
    assert_eq!(store.ask(&[Ask::LookUp(5), Ask::Scan(0, 5)]), [NO_VALUE, none()]);
}

#[test]
fn the_newest_link_is_read_first() {
    let mut store = Client::new(16, 4);
    // Heavier than the two slices together, so that these wait.
    store.flush_table([100, 110, 120], "x");
    store.flush_table([5], "old");
    store.flush_table([5], "new");
    assert_eq!(store.ask_one(Ask::Tidy), Reply::Step(1, 0));
    store.flush_table([6], "x");
    assert_eq!(store.ask_one(Ask::Tidy), Reply::Step(2, 0));
    store.flush_table([7], "x");
    assert_eq!(store.ask_one(Ask::Tidy), Reply::Step(2, 0));
    // On the card they stand oldest first.
    assert_eq!(store.lent.cards[0][..10], [1, 2, 1, 0, GREATEST, 1, 2, 0, GREATEST, 1]);
    assert_eq!(store.ask(&[Ask::LookUp(5), Ask::Scan(5, 5)]), [value("new"), found([5], "new", 0)]);
}

#[test]
fn entries_outside_of_a_link_s_range_are_not_there() {
    let store = Client::with_tables(16, 4, &[(1, &[30])]);
    let mut store = store.freeze(1, &digits(&[5, 25]), &[(0, 21, 40)]);
    let shown = vec![(25, "25".to_string()), (30, "30".to_string())];
    let expected = [NO_VALUE, value("25"), Reply::Values { values: shown, more: 0 }];
    assert_eq!(store.ask(&[Ask::LookUp(5), Ask::LookUp(25), Ask::Scan(0, 100)]), expected);
}
