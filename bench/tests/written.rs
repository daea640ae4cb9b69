//! Upper-level driven compaction gives the right answers, and places written are counted as they can be by hand.

use bench::compare::Expected;
use bench::engines::Second;
use bench::lists::Listed;
use bench::places::{Steps, Watched, Written};
use bench::proved::Proved;
use bench::thresholds::{count, KEYS_A_PLACE};
use bench::upper::Upper;
use bench::workload::{Key, Put, Value, Workload};
use reference::limits::VALUE_BYTES;
use reference::rules::check;

fn workloads(keys: usize) -> [Workload; 2] {
    [Workload::uniform(1, keys, 500, 200), Workload::skewed(2, keys, 500, 200)]
}

fn led(store: &mut dyn Steps, puts: &[Put]) -> Written {
    let mut watched = Watched::new(store);
    watched.lead(puts, &mut |_| {});
    watched.written
}

#[test]
fn upper_level_driven_answers_are_right() {
    for workload in workloads(1500) {
        let mut upper = Upper::new(256);
        led(&mut upper, &workload.puts);
        Expected::of(&workload).compare(&workload, &mut upper).unwrap();
        let lent = upper.0.encode();
        assert!(check(&lent).broken.is_empty(), "{:?}", check(&lent).broken);
        assert!(lent.head[6..].iter().all(|tables| *tables > 0), "tables on all levels");
    }
}

/// The two survey stores write the same places, and less than the upper-level driven one, at once and in all: what the paper says.
#[test]
fn lower_level_driven_writes_less() {
    for workload in workloads(1500) {
        let lower = led(&mut Listed::new(Proved, 256), &workload.puts);
        let second = led(&mut Listed::new(Second, 256), &workload.puts);
        let upper = led(&mut Upper::new(256), &workload.puts);
        assert_eq!(lower, second);
        assert_eq!((lower.puts, lower.flushes), (upper.puts, upper.flushes));
        assert!(lower.places < upper.places && lower.most < upper.most, "{lower:?} {upper:?}");
        // Before the last link the others weigh less than their table, which has 16 at most. So a merge takes 16, 15 and 16
        // entries at most: three tables.
        assert!(lower.most <= 3, "{lower:?}");
    }
}

/// The area and the replies say the same for each threshold; and a threshold has its effect: more links before a merge are fewer
/// merges, so fewer steps and fewer places.
#[test]
fn counts_by_replies_are_those_found_in_the_area() {
    for workload in workloads(256 * KEYS_A_PLACE) {
        let counted = [1, 4, 8].map(|threshold| {
            let store = || Listed::with_threshold(Proved, 256, threshold);
            let counted = count(&mut store(), &workload.puts);
            assert_eq!(counted, led(&mut store(), &workload.puts), "threshold {threshold}");
            counted
        });
        let less =
            |pair: &[Written]| pair[0].tidies > pair[1].tidies && pair[0].places > pair[1].places;
        assert!(counted.windows(2).all(less), "{counted:?}");
    }
}

fn filled(byte: u8) -> Value {
    Value::of(&[byte; VALUE_BYTES])
}

/// Sixteen puts of keys that rise by a step.
fn rising(from: Key, step: Key) -> Vec<Put> {
    (0..16).map(|number| (from + number * step, filled(number as u8))).collect()
}

#[test]
fn places_are_counted_as_by_hand() {
    // Three tables fill level 0 over its two; the oldest moves to level 1, which is empty: no place is written.
    let three = [rising(0, 100), rising(10_000, 100), rising(20_000, 100)].concat();
    let mut upper = Upper::new(32);
    let written = led(&mut upper, &three);
    assert_eq!(written, Written { puts: 48, flushes: 3, tidies: 1, places: 3, most: 1 });
    // A fourth: the second oldest overlaps nothing below, so it moves beside the first.
    let written = led(&mut upper, &rising(50, 100));
    assert_eq!(written, Written { puts: 16, flushes: 1, tidies: 1, places: 1, most: 1 });
    // Two more: the third moves, then the one that overlaps the first goes down, and both are written as two tables.
    let written = led(&mut upper, &[rising(40_000, 100), rising(50_000, 100)].concat());
    assert_eq!(written, Written { puts: 32, flushes: 2, tidies: 2, places: 2 + 2, most: 2 });
    assert_eq!(upper.0.levels.each_ref().map(Vec::len), [2, 4, 0, 0]);
}

/// Sixteen puts of keys that rise by a hundred: so many from here on, the others from 10,000 further on.
fn apart(from: Key, count: usize) -> Vec<Put> {
    [&rising(from, 100)[..count], &rising(10_000 + from, 100)[count..]].concat()
}

/// Two tables on level 1 with sixteen keys each, from 0 and from 10,000 on, to which two others are linked after each other.
fn linked_twice(store: &mut Listed, others: [Vec<Put>; 2]) -> [Written; 2] {
    let [third, fourth] = others;
    // The oldest moves down.
    let written = led(store, &[rising(0, 100), rising(10_000, 100), third].concat());
    assert_eq!(written, Written { puts: 48, flushes: 3, tidies: 1, places: 3, most: 1 });
    // The second is linked to it and weighs as much, so the merge is due: 32 entries in two tables.
    let written = led(store, &fourth);
    assert_eq!(written, Written { puts: 16, flushes: 1, tidies: 2, places: 1 + 2, most: 2 });
    [20_000, 30_000].map(|from| led(store, &rising(from, 100)))
}

#[test]
fn a_link_writes_no_place_and_a_merge_its_results() {
    let mut proved = Listed::new(Proved, 32);
    let written = linked_twice(&mut proved, [apart(1, 8), apart(2, 8)]);
    // Eight entries on each table of sixteen: no merge.
    assert_eq!(written[0], Written { puts: 16, flushes: 1, tidies: 1, places: 1, most: 1 });
    // Sixteen on each: both are merged, 32 entries in two tables.
    assert_eq!(written[1], Written { puts: 16, flushes: 1, tidies: 3, places: 1 + 2 + 2, most: 2 });
}

#[test]
fn light_links_are_merged_at_the_threshold() {
    let mut proved = Listed::with_threshold(Proved, 32, 2);
    let written = linked_twice(&mut proved, [apart(1, 1), apart(2, 1)]);
    // One entry on a table of sixteen, and fifteen: no merge.
    assert_eq!(written[0], Written { puts: 16, flushes: 1, tidies: 1, places: 1, most: 1 });
    // Two links on each: both are merged, 18 entries in two tables, and 46 in three.
    assert_eq!(written[1], Written { puts: 16, flushes: 1, tidies: 3, places: 1 + 2 + 3, most: 3 });
}

#[test]
fn the_memory_table_takes_sixteen_keys_and_not_sixteen_puts() {
    let puts: Vec<Put> = (0..40).map(|number| (number % 20, filled(1))).collect();
    // Keys 0 to 15, then 16 to 19 with 0 to 11, then 12 to 19.
    let written = led(&mut Listed::new(Proved, 16), &puts);
    assert_eq!((written.puts, written.flushes), (40, 3));
    let puts: Vec<Put> = (0..40).map(|number| (number % 16, filled(1))).collect();
    assert_eq!(led(&mut Listed::new(Proved, 16), &puts).flushes, 1);
}

/// The same bytes written to the same place must count: here key 1 is put, flushed and merged away, again and again.
#[test]
fn a_table_written_over_an_equal_one_counts() {
    let mut upper = Upper::new(16);
    let mut watched = Watched::new(&mut upper);
    let same: Vec<Put> = vec![(1, filled(7))];
    for _ in 0..40 {
        watched.lead(&same, &mut |_| {});
    }
    // Each flush writes a place; from the fourth on each tidy merges two equal tables into an equal one.
    let written = watched.written;
    assert_eq!(written, Written { puts: 40, flushes: 40, tidies: 38, places: 40 + 37, most: 1 });
}
