//! What becomes of summary bits at each step, by name (note 6): small stores before and after a flush or a tidy, to the byte.
//! `every_summed_case` hands the names to a macro, as `every_probed_case` does.

use super::sketch::{Case, Sketch};
use crate::table::Key;

/// Calls a macro with the names of all functions of this module that give cases.
#[macro_export]
macro_rules! every_summed_case {
    ($tests:ident) => {
        $tests! {
            a_flush_writes_the_bits_of_values_and_delete_marks
            a_move_keeps_the_bits
            a_link_keeps_the_bits_of_both_tables
            a_merge_writes_the_bits_of_its_results_and_clears_those_of_what_it_frees
            a_merge_to_nothing_clears_all_bits
            a_frozen_card_keeps_its_bits_while_another_link_names_it
        }
    };
}

pub fn a_flush_writes_the_bits_of_values_and_delete_marks() -> Vec<Case> {
    let one = |words: &str| {
        // The place still holds a former table, whose bits are not on its card.
        let before = Sketch::of(16, 4).former(0, "9 10").memory(words);
        let after = Sketch::of(16, 4).live(0, 0, words).cursor(1);
        Case::flushed(before, after)
    };
    vec![one("5 258"), one("x5 6"), one("x66051"), one("e0 18446744073709551615")]
}

pub fn a_move_keeps_the_bits() -> Vec<Case> {
    let from_0 = |store: Sketch| store.live(1, 0, "x6").live(2, 0, "258");
    let first = Case::tidied(
        1,
        0,
        from_0(Sketch::of(16, 2).live(0, 0, "5 66051")),
        from_0(Sketch::of(16, 2)).live(0, 1, "5 66051"),
    );
    // Nine tables on level 1 are one above its capacity; the first of all moves, and its greatest key becomes the mark.
    let on_1 = |store: Sketch| {
        (1..9).fold(store, |it, place| it.live(place, 1, &format!("{}", 300 * place)))
    };
    let second = Case::tidied(
        1,
        1,
        on_1(Sketch::of(16, 2).live(0, 1, "5 258")),
        on_1(Sketch::of(16, 2)).live(0, 2, "5 258").mark(1, 258),
    );
    vec![first, second]
}

pub fn a_link_keeps_the_bits_of_both_tables() -> Vec<Case> {
    let beside = |store: Sketch| store.live(1, 0, "x6").live(2, 0, "258").live(3, 1, "10 20 30");
    let before = beside(Sketch::of(16, 4).live(0, 0, "5 x25"));
    let after = beside(Sketch::of(16, 4)).frozen(0, "5 x25").link(3, [0, 0, Key::MAX, 2]);
    vec![Case::tidied(2, 0, before, after).with(&[5, 10]).without(&[25])]
}

pub fn a_merge_writes_the_bits_of_its_results_and_clears_those_of_what_it_frees() -> Vec<Case> {
    let merged = |level: usize, own: &str, slice: &str, number: u64, results: [&str; 2]| {
        let before = Sketch::of(16, 1).live(0, level, own).frozen(1, slice).cursor(8);
        let mut after =
            Sketch::of(16, 1).former(0, own).former(1, slice).live(8, level, results[0]);
        after = match results[1] {
            "" => after.cursor(9),
            second => after.live(9, level, second).cursor(10),
        };
        Case::merged(level, before.link(0, [1, 0, Key::MAX, number]), after)
    };
    let nine = "1 2 3 4 5 6 7 8 9";
    let (more, rest) = ("258 259 260 261 262 263 264 265", "265");
    let full = "1 2 3 4 5 6 7 8 9 258 259 260 261 262 263 264";
    let one = |level| merged(level, "10 20", "5 x20 258", 3, ["5 10 258", ""]);
    let two = |level| merged(level, nine, more, 8, [full, rest]);
    (1..4).flat_map(|level| [one(level), two(level)]).collect()
}

pub fn a_merge_to_nothing_clears_all_bits() -> Vec<Case> {
    let case = |level: usize| {
        let before = Sketch::of(16, 1).live(0, level, "10").frozen(1, "x10 x258").cursor(8);
        let after = Sketch::of(16, 1).former(0, "10").former(1, "x10 x258").cursor(8);
        Case::merged(level, before.link(0, [1, 0, Key::MAX, 2]), after)
    };
    (1..4).map(case).collect()
}

pub fn a_frozen_card_keeps_its_bits_while_another_link_names_it() -> Vec<Case> {
    let case = |level: usize| {
        let beside = |store: Sketch| {
            store.live(2, level, "500").frozen(1, "5 600").link(2, [1, 400, 700, 1])
        };
        let before =
            beside(Sketch::of(16, 1).live(0, level, "10")).link(0, [1, 0, 20, 1]).cursor(8);
        let after = Sketch::of(16, 1).former(0, "10").live(8, level, "5 10");
        Case::merged(level, before, beside(after).cursor(9)).with(&[5, 10, 500, 600])
    };
    (1..4).map(case).collect()
}
