//! Merges with delete marks by name (note 5): small stores, and which marks stay and which go there,
//! written out by hand. `every_marked_case` hands the names to a macro, so that each becomes a test
//! of the second implementation and one of any other.

use super::sketch::{Case, Sketch};
use crate::table::Key;

/// Calls a macro with the names of all functions of this module that give cases.
#[macro_export]
macro_rules! every_marked_case {
    ($tests:ident) => {
        $tests! {
            a_mark_in_a_gap_between_two_spans_goes
            a_mark_at_the_first_key_of_a_span_stays
            a_mark_at_the_last_key_of_a_span_stays
            a_mark_just_outside_a_span_goes
            a_mark_within_a_span_stays_with_or_without_an_entry
            marks_at_the_ends_of_the_key_range_stay_where_a_span_reaches_them
            a_mark_between_own_keys_and_a_range_above_them_stays
            a_mark_between_a_range_and_own_keys_above_it_stays
            a_frozen_entry_outside_its_range_holds_no_mark
            a_mark_over_a_value_two_levels_down_stays
            higher_lying_levels_hold_no_mark
            every_mark_goes_on_level_3
            a_mark_that_goes_takes_the_older_values_with_it
            marks_of_the_table_itself_go_and_stay_alike
            a_merge_in_place_of_a_choice_drops_marks_too
            a_merge_may_come_to_nothing
            a_merge_to_nothing_wants_no_place
            a_frozen_place_stays_while_another_table_names_it
            marks_that_go_want_no_place
            one_place_too_few_even_without_the_marks_that_go
            marks_that_stay_want_places
        }
    };
}

/// The level of a merge, and one that lies lower.
const PAIRS: [(usize, usize); 3] = [(1, 2), (1, 3), (2, 3)];

/// A merge on a level: in place 0 the table, on which all of place 1 hangs, in place 8 the result.
/// What stands beside them stays.
fn merges(
    level: usize,
    [own, slice, result]: [&str; 3],
    beside: impl Fn(Sketch) -> Sketch,
) -> Case {
    let store = || beside(Sketch::of(16, 1));
    let link = [1, 0, Key::MAX, slice.split(' ').count() as u64];
    let before = store().live(0, level, own).frozen(1, slice).link(0, link).cursor(8);
    let after = store().former(0, own).former(1, slice).live(8, level, result).cursor(9);
    Case::merged(level, before, after)
}

/// The same where two tables lie lower, with spans 10 to 20 and 30 to 40, for each pair of levels.
fn over_two_spans(slice: &str, result: &str) -> Vec<Case> {
    let case = |(level, lower): (usize, usize)| {
        merges(level, ["50 60", slice, result], |store| {
            store.live(2, lower, "10 12 20").live(3, lower, "30 40")
        })
    };
    PAIRS.map(case).into()
}

/// The keys without a value, the same for all cases.
fn all_without(cases: Vec<Case>, keys: &[Key]) -> Vec<Case> {
    cases.into_iter().map(|case| case.without(keys)).collect()
}

pub fn a_mark_in_a_gap_between_two_spans_goes() -> Vec<Case> {
    all_without(over_two_spans("x25", "50 60"), &[25])
}

pub fn a_mark_at_the_first_key_of_a_span_stays() -> Vec<Case> {
    all_without(over_two_spans("x10 x30", "x10 x30 50 60"), &[10, 30])
}

pub fn a_mark_at_the_last_key_of_a_span_stays() -> Vec<Case> {
    all_without(over_two_spans("x20 x40", "x20 x40 50 60"), &[20, 40])
}

pub fn a_mark_just_outside_a_span_goes() -> Vec<Case> {
    all_without(over_two_spans("x9 x21 x29 x41", "50 60"), &[9, 21, 29, 41])
}

pub fn a_mark_within_a_span_stays_with_or_without_an_entry() -> Vec<Case> {
    all_without(over_two_spans("x12 x15 x35", "x12 x15 x35 50 60"), &[12, 15, 35])
}

pub fn marks_at_the_ends_of_the_key_range_stay_where_a_span_reaches_them() -> Vec<Case> {
    let slice = "x0 x18446744073709551615";
    let reached = "x0 50 60 x18446744073709551615";
    let mut cases = Vec::new();
    for (level, lower) in PAIRS {
        cases.push(merges(level, ["50 60", slice, reached], |store| {
            store.live(2, lower, "0 40").live(3, lower, "70 18446744073709551615")
        }));
        cases.push(merges(level, ["50 60", slice, "50 60"], |store| {
            store.live(2, lower, "1 40").live(3, lower, "70 18446744073709551614")
        }));
    }
    all_without(cases, &[0, Key::MAX])
}

pub fn a_mark_between_own_keys_and_a_range_above_them_stays() -> Vec<Case> {
    let words = ["50 60", "x0 x4 x5 x7 x10 x11", "x4 x5 x7 x10 50 60"];
    let case = |(level, lower): (usize, usize)| {
        merges(level, words, |store| {
            store.live(2, lower, "1 2 3").frozen(3, "6 8 10").link(2, [3, 6, 10, 3])
        })
    };
    all_without(PAIRS.map(case).into(), &[0, 4, 5, 7, 10, 11])
}

pub fn a_mark_between_a_range_and_own_keys_above_it_stays() -> Vec<Case> {
    let words = ["50 60", "x5 x6 x8 x15 x31", "x6 x8 x15 50 60"];
    let case = |(level, lower): (usize, usize)| {
        merges(level, words, |store| {
            store.live(2, lower, "20 30").frozen(3, "7 10").link(2, [3, 6, 10, 2])
        })
    };
    all_without(PAIRS.map(case).into(), &[5, 6, 8, 15, 31])
}

/// Place 3 has entries under 25 and 40, and none of them is part of the store.
pub fn a_frozen_entry_outside_its_range_holds_no_mark() -> Vec<Case> {
    let case = |(level, lower): (usize, usize)| {
        merges(level, ["50 60", "x11 x25 x40", "x11 50 60"], |store| {
            store.live(2, lower, "10 20").frozen(3, "15 25 40").link(2, [3, 12, 18, 1])
        })
    };
    all_without(PAIRS.map(case).into(), &[11, 25, 40])
}

pub fn a_mark_over_a_value_two_levels_down_stays() -> Vec<Case> {
    let case = merges(1, ["50 60", "x15 x25 x29", "x15 x25 50 60"], |store| {
        store.live(2, 2, "10 20").live(3, 3, "22 25 28")
    });
    vec![case.without(&[15, 25, 29])]
}

pub fn higher_lying_levels_hold_no_mark() -> Vec<Case> {
    let on_2 = merges(2, ["50 60", "x25 x26", "50 60"], |store| {
        store.live(2, 0, "20 25 30").live(3, 1, "24 27")
    });
    let on_3 = merges(3, ["50 60", "x25 x26", "50 60"], |store| {
        store.live(2, 0, "20 30").live(3, 1, "24 27").live(4, 2, "1 25 99")
    });
    vec![on_2.with(&[25]).without(&[26]), on_3.with(&[25]).without(&[26])]
}

pub fn every_mark_goes_on_level_3() -> Vec<Case> {
    let before = Sketch::of(16, 1).live(2, 3, "x10 20").live(0, 3, "50 x55 60").live(3, 3, "x90");
    let before = before.frozen(1, "x40 x50 x70").link(0, [1, 30, 80, 3]).cursor(8);
    let after = Sketch::of(16, 1).live(2, 3, "x10 20").live(8, 3, "60").live(3, 3, "x90");
    let after = after.former(0, "50 x55 60").former(1, "x40 x50 x70").cursor(9);
    vec![Case::merged(3, before, after).without(&[10, 40, 50, 55, 70, 90]).with(&[20, 60])]
}

/// Values under 20 in the table and under 30 in an older slice.
pub fn a_mark_that_goes_takes_the_older_values_with_it() -> Vec<Case> {
    let case = |level: usize| {
        let before = Sketch::of(16, 2).live(0, level, "20 50 60").frozen(1, "30 x40").cursor(8);
        let before = before.link(0, [1, 0, 45, 2]).frozen(2, "x20 x30 40");
        let after = Sketch::of(16, 2).former(0, "20 50 60").former(1, "30 x40").cursor(9);
        let after = after.former(2, "x20 x30 40").live(8, level, "40 50 60");
        Case::merged(level, before.link(0, [2, 0, Key::MAX, 3]), after)
            .without(&[20, 30])
            .with(&[40, 50, 60])
    };
    [1, 2, 3].map(case).into()
}

pub fn marks_of_the_table_itself_go_and_stay_alike() -> Vec<Case> {
    let case = |(level, lower): (usize, usize)| {
        merges(level, ["x25 x35 50 x70", "60", "x35 50 60"], |store| store.live(2, lower, "30 40"))
    };
    all_without(PAIRS.map(case).into(), &[25, 35, 70])
}

/// Nine tables on level 1, one above its capacity, each with a link of one mark and three entries.
pub fn a_merge_in_place_of_a_choice_drops_marks_too() -> Vec<Case> {
    let slice = "x105 x205 x305 x405 x505 x605 x705 x805 x905";
    let table = |hundred: u64| [0, 1, 2].map(|key| (100 * hundred + key).to_string()).join(" ");
    let linked = |store: Sketch, hundred: u64| {
        let link = [10, 100 * hundred, 100 * hundred + 9, 1];
        store.live(hundred as usize, 1, &table(hundred)).link(hundred as usize, link)
    };
    let store = || Sketch::of(16, 8).frozen(10, slice);
    let before = (1..10).fold(store().live(0, 2, "305"), linked).cursor(12);
    let merged = store().live(0, 2, "305").former(1, &table(1)).live(12, 1, &table(1)).cursor(13);
    vec![Case::merged(1, before, (2..10).fold(merged, linked)).without(&[105, 205, 305])]
}

/// The table in place 0 stands between two others of its level, and all its entries are deleted.
pub fn a_merge_may_come_to_nothing() -> Vec<Case> {
    let mut cases = Vec::new();
    for level in 1..4 {
        let first = || Sketch::of(16, 1).cursor(8).live(2, level, "10 20");
        let before = first().live(0, level, "50 60").live(3, level, "80 90");
        let before = before.frozen(1, "x50 x55 x60").link(0, [1, 40, 70, 3]);
        let after = first().former(0, "50 60").live(3, level, "80 90").former(1, "x50 x55 x60");
        let case = Case::merged(level, before, after);
        cases.push(case.without(&[50, 55, 60]).with(&[10, 20, 80, 90]));
        // Alone on its level, and in the store.
        let alone = Sketch::of(16, 1).cursor(8).live(0, level, "x50").frozen(1, "x50");
        let after = Sketch::of(16, 1).cursor(8).former(0, "x50").former(1, "x50");
        let case = Case::merged(level, alone.link(0, [1, 50, 50, 1]), after);
        cases.push(case.without(&[50]));
    }
    cases
}

/// So many tables of one value, one for each place, on level 3 behind all other keys here.
fn fill(store: Sketch, places: std::ops::Range<usize>) -> Sketch {
    places.fold(store, |store, place| store.live(place, 3, &(1000 + place).to_string()))
}

/// Keys in digits.
fn words(before: &str, keys: std::ops::RangeInclusive<u64>) -> String {
    keys.map(|key| format!("{before}{key} ")).collect()
}

pub fn a_merge_to_nothing_wants_no_place() -> Vec<Case> {
    let case = |level: usize| {
        let store = || Sketch::of(16, 1).cursor(15);
        let before = store().live(0, level, "50").frozen(1, "x50").link(0, [1, 0, 500, 1]);
        let after = store().former(0, "50").former(1, "x50");
        Case::merged(level, fill(before, 2..16), fill(after, 2..16)).without(&[50])
    };
    [1, 2, 3].map(case).into()
}

pub fn a_frozen_place_stays_while_another_table_names_it() -> Vec<Case> {
    let case = |level: usize| {
        let store = || Sketch::of(16, 1).cursor(8).frozen(1, "x50 85");
        let before = store().live(0, level, "50").link(0, [1, 40, 70, 1]);
        let after = store().former(0, "50");
        let other = |store: Sketch| store.live(3, level, "80 90").link(3, [1, 80, 90, 1]);
        Case::merged(level, other(before), other(after)).without(&[50]).with(&[80, 85, 90])
    };
    [1, 2, 3].map(case).into()
}

/// A full table in place 0, a full one of delete marks in place 1 that hangs on it, and of the
/// others those below this one live on level 3: thirty-two entries, and sixteen without the marks.
fn full(level: usize, used: usize) -> Sketch {
    let store = Sketch::of(16, 2).live(0, level, &words("", 101..=116)).cursor(15);
    let store = store.frozen(1, &words("x", 201..=216)).link(0, [1, 0, 500, 16]);
    fill(store, 2..used)
}

pub fn marks_that_go_want_no_place() -> Vec<Case> {
    let case = |level: usize| {
        let after = Sketch::of(16, 2).former(0, &words("", 101..=116)).cursor(0);
        let after = after.former(1, &words("x", 201..=216)).live(15, level, &words("", 101..=116));
        Case::merged(level, full(level, 15), fill(after, 2..15)).without(&[201, 216]).with(&[101])
    };
    [1, 2, 3].map(case).into()
}

pub fn one_place_too_few_even_without_the_marks_that_go() -> Vec<Case> {
    let cases = |level: usize| {
        let seventeen = full(level, 14).frozen(14, "300").link(0, [14, 0, 500, 1]);
        // One table and no place; two tables, three with the marks, and one place.
        [Case::refused(full(level, 16)), Case::refused(seventeen)]
    };
    [1, 2, 3].map(cases).into_iter().flatten().map(|case| case.without(&[201])).collect()
}

/// As above with one place free, and one mark that stays, so that two tables come out.
pub fn marks_that_stay_want_places() -> Vec<Case> {
    let case = |(level, lower): (usize, usize)| {
        let store = full(level, 2).live(2, lower, "205");
        Case::refused(fill(store, 3..15)).without(&[205]).with(&[116])
    };
    PAIRS.map(case).into()
}
