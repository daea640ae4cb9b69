//! Probes by name (note 6): small stores, and what kind 8 says of some keys there, written out by hand. `every_probed_case` hands
//! the names to a macro, so that each becomes a test of the second implementation and one of any other.
//!
//! A key below 256 has one bit, the key itself. Others that stand here: 258 has the bits 3 and 4; 66051 has 0, 6 and 10; TWIN has
//! that of 5 alone; the greatest key has 0, 220 and 248.

use super::probes::Probes;
use super::sketch::Sketch;
use crate::table::Key;

/// Calls a macro with the names of all functions of this module that give cases.
#[macro_export]
macro_rules! every_probed_case {
    ($tests:ident) => {
        $tests! {
            a_new_store_opens_nothing
            memory_decides_and_opens_nothing
            the_newest_table_of_level_0_decides
            level_0_is_asked_whatever_its_keys_span
            a_table_without_all_three_bits_is_not_opened
            a_table_opened_in_vain_counts
            a_mark_decides_and_its_table_counts
            an_empty_value_is_found
            links_are_asked_newest_first_and_then_the_table
            a_link_is_asked_up_to_the_ends_of_its_range
            a_link_whose_range_lacks_the_key_is_not_asked
            the_span_chooses_the_table_where_own_keys_dont
            a_key_between_own_keys_and_a_range_is_asked_for
            a_key_in_no_span_opens_nothing
            a_frozen_place_is_asked_by_the_table_whose_span_holds_the_key
            the_first_of_all_levels_decides
            keys_at_the_ends_of_the_range
            bits_that_coincide_count_once
            the_most_tables_that_a_probe_can_open
            tables_beyond_one_byte_and_bits_beyond_two
        }
    };
}

/// A key with the one bit of 5.
const TWIN: Key = 0x80_00_85;

fn store() -> Sketch {
    Sketch::of(16, 4)
}

/// The same on each of levels 1 to 3.
fn on_lower_levels(probes: impl Fn(usize) -> Probes) -> Vec<Probes> {
    (1..4).map(probes).collect()
}

pub fn a_new_store_opens_nothing() -> Vec<Probes> {
    vec![Probes::of(store()).lacks(5, 0, 0).lacks(0, 0, 0).lacks(Key::MAX, 0, 0)]
}

pub fn memory_decides_and_opens_nothing() -> Vec<Probes> {
    let store = store().memory("5 x6 e7").live(0, 0, "5 6 7 8").live(1, 1, "5 6 7");
    vec![Probes::of(store).finds(5, 0, 0).lacks(6, 0, 0).finds_empty(7, 0, 0).finds(8, 1, 4)]
}

pub fn the_newest_table_of_level_0_decides() -> Vec<Probes> {
    let value = store().live(0, 0, "5 6").live(1, 0, "5").live(2, 0, "7");
    let mark = store().live(3, 0, "5 6").live(1, 0, "x5").live(2, 0, "7");
    vec![Probes::of(value).finds(5, 1, 1).finds(6, 1, 2), Probes::of(mark).lacks(5, 1, 1)]
}

pub fn level_0_is_asked_whatever_its_keys_span() -> Vec<Probes> {
    let store = store().live(0, 0, "5 9").live(1, 0, "8388741");
    vec![Probes::of(store).finds(5, 2, 3).finds(TWIN, 1, 1)]
}

pub fn a_table_without_all_three_bits_is_not_opened() -> Vec<Probes> {
    let two = store().live(0, 0, "0 6").live(1, 0, "0 10").live(2, 0, "6 10");
    let three = two.clone().live(3, 0, "0 6 10");
    let mut all = vec![Probes::of(two).lacks(66051, 0, 0), Probes::of(three).lacks(66051, 1, 3)];
    for level in 1..4 {
        // 70000 has the bits 96, 130 and 149.
        let two = store().live(0, level, "0 6 70000");
        let three = store().live(0, level, "0 6 10 70000");
        all.push(Probes::of(two).lacks(66051, 0, 0).finds(70000, 1, 5));
        all.push(Probes::of(three).lacks(66051, 1, 6).finds(70000, 1, 6));
    }
    all
}

pub fn a_table_opened_in_vain_counts() -> Vec<Probes> {
    let lower = |(level, below): (usize, usize)| {
        let store = store().live(0, level, "3 8388741").live(1, below, "5 6 7");
        Probes::of(store).finds(5, 2, 5).finds(3, 1, 2).finds(6, 1, 3)
    };
    [(0, 1), (0, 2), (0, 3), (1, 2), (1, 3), (2, 3)].map(lower).into()
}

pub fn a_mark_decides_and_its_table_counts() -> Vec<Probes> {
    let hidden = |level| Probes::of(store().live(0, level, "x5 6").live(1, level + 1, "5"));
    let mut all: Vec<Probes> =
        (0..3).map(|level| hidden(level).lacks(5, 1, 2).finds(6, 1, 2)).collect();
    all.push(Probes::of(store().live(0, 3, "x5 6")).lacks(5, 1, 2).finds(6, 1, 2));
    all.extend(on_lower_levels(|level| {
        let store = store().live(0, level, "5 6").frozen(1, "x5 7 8").link(0, [1, 0, 100, 3]);
        Probes::of(store).lacks(5, 1, 3).finds(7, 1, 3).finds(6, 1, 2)
    }));
    all
}

pub fn an_empty_value_is_found() -> Vec<Probes> {
    let own = |level| Probes::of(store().live(0, level, "e5 6")).finds_empty(5, 1, 2);
    let mut all: Vec<Probes> = (0..4).map(own).collect();
    all.extend(on_lower_levels(|level| {
        let store = store().live(0, level, "5 6").frozen(1, "e5").link(0, [1, 0, 100, 1]);
        Probes::of(store).finds_empty(5, 1, 1)
    }));
    all
}

pub fn links_are_asked_newest_first_and_then_the_table() -> Vec<Probes> {
    on_lower_levels(|level| {
        let two = store().live(0, level, "5 8").frozen(1, "5 9 10").frozen(2, "5");
        let two = two.link(0, [1, 0, 100, 3]).link(0, [2, 0, 100, 1]);
        // The newest has the bit of 5, from a key beyond its range.
        let three = two.frozen(3, "6 8388741").link(0, [3, 0, 100, 1]);
        Probes::of(three).finds(5, 2, 3).finds(9, 1, 3).finds(8, 1, 2).finds(6, 1, 2)
    })
}

pub fn a_link_is_asked_up_to_the_ends_of_its_range() -> Vec<Probes> {
    on_lower_levels(|level| {
        // 300 has the bits 45 and 46, 390 has 135 and 136; 299 and 391 are beyond the range.
        let store = store().live(0, level, "1 400").frozen(1, "299 300 390 391");
        let store = store.link(0, [1, 300, 390, 2]);
        Probes::of(store).finds(300, 1, 8).finds(390, 1, 8).lacks(299, 0, 0).lacks(391, 0, 0)
    })
}

pub fn a_link_whose_range_lacks_the_key_is_not_asked() -> Vec<Probes> {
    on_lower_levels(|level| {
        // 350 has the bits 95 and 96, 400 has 145 and 146.
        let store = store().live(0, level, "1 400").frozen(1, "3 4 258 350");
        let store = store.link(0, [1, 300, 390, 1]);
        Probes::of(store).lacks(258, 0, 0).lacks(3, 0, 0).finds(350, 1, 4).finds(400, 1, 3)
    })
}

pub fn the_span_chooses_the_table_where_own_keys_dont() -> Vec<Probes> {
    on_lower_levels(|level| {
        let store = store().live(0, level, "10 20 8388741").frozen(1, "4 25 9000000");
        let store = store.link(0, [1, 0, 9_000_000, 3]);
        // 9000000 has the bits 29, 131 and 157. 5 is below all own keys, and the table has its bit.
        Probes::of(store).lacks(5, 1, 3).finds(4, 1, 5).finds(25, 1, 5).finds(10, 1, 3)
    })
}

pub fn a_key_between_own_keys_and_a_range_is_asked_for() -> Vec<Probes> {
    on_lower_levels(|level| {
        let above = store().live(0, level, "3 4").frozen(1, "350").link(0, [1, 300, 400, 1]);
        Probes::of(above).lacks(258, 1, 2).lacks(5, 0, 0).finds(350, 1, 2)
    })
}

pub fn a_key_in_no_span_opens_nothing() -> Vec<Probes> {
    // 258, and a key above all, with the same bits.
    let above = 258 ^ 0x80_00_80;
    let mut all = on_lower_levels(|level| {
        let store = store().live(0, level, "3 4").live(1, level, "300 400");
        Probes::of(store).lacks(258, 0, 0).lacks(above, 0, 0).finds(3, 1, 2)
    });
    all.push(Probes::of(store().live(0, 0, "3 4")).lacks(258, 1, 2).lacks(above, 1, 2));
    all
}

pub fn a_frozen_place_is_asked_by_the_table_whose_span_holds_the_key() -> Vec<Probes> {
    let mut all = on_lower_levels(|level| {
        let store = store().live(0, level, "10").live(1, level, "50").frozen(2, "5 45");
        let store = store.link(0, [2, 0, 20, 1]).link(1, [2, 21, 60, 1]);
        Probes::of(store).finds(5, 1, 2).finds(45, 1, 2).finds(10, 1, 1).finds(50, 1, 1)
    });
    all.extend(on_lower_levels(|level| {
        let store = store().live(0, level, "10").frozen(1, "5 45");
        let store = store.link(0, [1, 0, 20, 1]).link(0, [1, 21, 60, 1]);
        Probes::of(store).finds(5, 1, 2).finds(45, 1, 2).lacks(46, 0, 0)
    }));
    all
}

pub fn the_first_of_all_levels_decides() -> Vec<Probes> {
    let tables = ["5", "5 6", "5 6 7", "5 6 7 8"];
    let from = |first: usize| {
        let lower = (first..4).fold(store(), |it, level| it.live(level, level, tables[level]));
        Probes::of(lower).finds(5, 1, first as u32 + 1).finds(8, 1, 4)
    };
    (0..4).map(from).collect()
}

pub fn keys_at_the_ends_of_the_range() -> Vec<Probes> {
    let ends = "0 18446744073709551615";
    let mut all: Vec<Probes> = (0..4).map(|it| Probes::of(store().live(0, it, ends))).collect();
    all.extend(on_lower_levels(|level| {
        let linked = store().live(0, level, "7").frozen(1, ends);
        Probes::of(linked.link(0, [1, 0, Key::MAX, 2])).finds(7, 1, 1)
    }));
    all.into_iter().map(|it| it.finds(0, 1, 3).finds(Key::MAX, 1, 3).lacks(1, 0, 0)).collect()
}

pub fn bits_that_coincide_count_once() -> Vec<Probes> {
    let own = |level| Probes::of(store().live(0, level, "5 8388741"));
    (0..4).map(|level| own(level).finds(5, 1, 1).finds(TWIN, 1, 1).lacks(6, 0, 0)).collect()
}

/// All tables of level 0, and on each other level a table with T links; the last one decides, or none does.
pub fn the_most_tables_that_a_probe_can_open() -> Vec<Probes> {
    let mut all = Vec::new();
    for threshold in 1..=8 {
        for (last, found) in [("3 5 8388741", true), ("3 8388741", false)] {
            let mut store = Sketch::of(32, threshold);
            let (mut place, on_0) = (3, 2);
            store = store.live(0, 0, "1 8388741").live(1, 0, "2 8388741");
            for level in 1..4 {
                let on = place;
                store = store.live(on, level, if level == 3 { last } else { "3 8388741" });
                for frozen in on + 1..=on + threshold as usize {
                    store = store.frozen(frozen, "4 8388741");
                    store = store.link(on, [frozen as u64, 0, Key::MAX, 2]);
                }
                place = on + threshold as usize + 1;
            }
            let most = on_0 + 3 * (threshold as u16 + 1);
            // Two bits in each table.
            let value = found.then(|| "5".to_string());
            all.push(Probes::of(store).says(5, value, most, 2 * u32::from(most)));
        }
    }
    all
}

/// All 2,100 tables of level 0 are opened in vain, with 32 bits each: 67,200.
pub fn tables_beyond_one_byte_and_bits_beyond_two() -> Vec<Probes> {
    const ONE: Key = 0x0102_0304_0506_0708;
    let keys: Vec<String> = (1..=16).map(|number| (number * ONE).to_string()).collect();
    let words = keys.join(" ");
    let store = (0..2100).fold(Sketch::of(4096, 4), |it, place| it.live(place, 0, &words));
    vec![Probes::of(store).lacks(ONE ^ 0x80_0080, 2100, 67_200).finds(ONE, 1, 32)]
}
