//! Which level a tidy relieves, by name (note 7): stores whose tables have one entry each, on levels at their capacities, above
//! them and beside others, with what one tidy makes of them written out by hand. The numbers are those that document 01 lists; none
//! is worked out here. `every_relieved_case` hands the names to a macro, as `every_marked_case` does.

use super::sketch::{Case, Sketch};
use crate::lent::Lent;
use crate::table::Key;
use std::ops::Range;

/// Calls a macro with the names of all functions of this module that give cases.
#[macro_export]
macro_rules! every_relieved_case {
    ($tests:ident) => {
        $tests! {
            a_level_at_its_capacity_is_left
            a_level_one_above_its_capacity_gives_its_first_table
            of_two_levels_the_fuller_by_live_over_capacity_is_relieved
            level_3_has_no_capacity
        }
    };
}

/// Levels with their capacities.
const LISTED: [(usize, usize); 3] = [(0, 2), (1, 8), (2, 32)];

/// Room for far more tables on level 3 than the shift would allow it, were it applied there.
const PLACES: usize = 600;
const DEEP: Range<usize> = 100..600;

/// A table on a level in each of these places; its one key is the place's number.
fn tables(store: Sketch, level: usize, places: Range<usize>) -> Sketch {
    places.fold(store, |store, place| store.live(place, level, &place.to_string()))
}

/// Tables on each of these levels.
fn levels(lists: &[(usize, Range<usize>)]) -> Sketch {
    let store = Sketch::of(PLACES, 4);
    lists.iter().fold(store, |store, (level, places)| tables(store, *level, places.clone()))
}

/// The lists without the first table of this level, and its place. That a choice took it shows in the level's mark.
fn without_first(lists: &[(usize, Range<usize>)], level: usize) -> (Sketch, usize) {
    let mut lists = lists.to_vec();
    let (_, places) = lists.iter_mut().find(|list| list.0 == level).expect("a level with tables");
    let first = places.next().expect("a table");
    let store = levels(&lists);
    (if level == 0 { store } else { store.mark(level, first as Key) }, first)
}

/// The first table of this level moves to the next one, which is empty.
fn moves(lists: &[(usize, Range<usize>)], level: usize) -> Case {
    let (store, first) = without_first(lists, level);
    let after = store.live(first, level + 1, &first.to_string());
    Case::tidied(1, level, levels(lists), after)
}

/// The first table of this level is linked to the first one of the next, whose keys and places are higher and which has several.
fn links(lists: &[(usize, Range<usize>)], level: usize) -> Case {
    let (store, first) = without_first(lists, level);
    let below = lists.iter().find(|list| list.0 == level + 1).expect("tables below").1.start;
    let after = store.frozen(first, &first.to_string());
    let after = after.link(below, [first as u64, 0, below as Key, 1]);
    Case::tidied(2, level, levels(lists), after)
}

pub fn a_level_at_its_capacity_is_left() -> Vec<Case> {
    let alone = LISTED.map(|(level, most)| Case::idle(levels(&[(level, 0..most)])));
    let all = Case::idle(levels(&[(0, 0..2), (1, 2..10), (2, 10..42)]));
    alone.into_iter().chain([all]).collect()
}

pub fn a_level_one_above_its_capacity_gives_its_first_table() -> Vec<Case> {
    let alone = LISTED.map(|(level, most)| moves(&[(level, 0..most + 1)], level));
    // Beside levels at their capacities.
    let beside = [
        links(&[(0, 0..3), (1, 3..11), (2, 11..43)], 0),
        links(&[(0, 0..2), (1, 2..11), (2, 11..43)], 1),
        moves(&[(0, 0..2), (1, 2..10), (2, 10..43)], 2),
    ];
    alone.into_iter().chain(beside).collect()
}

/// Of each two levels once where both are equally full and the lower number is relieved, and once with one table more.
pub fn of_two_levels_the_fuller_by_live_over_capacity_is_relieved() -> Vec<Case> {
    vec![
        links(&[(0, 0..3), (1, 3..15)], 0),
        moves(&[(0, 0..3), (1, 3..16)], 1),
        moves(&[(0, 0..3), (2, 3..51)], 0),
        moves(&[(0, 0..3), (2, 3..52)], 2),
        links(&[(1, 0..9), (2, 9..45)], 1),
        moves(&[(1, 0..9), (2, 9..46)], 2),
    ]
}

/// However many tables it has, it is never above one, and no other level gives way to it.
pub fn level_3_has_no_capacity() -> Vec<Case> {
    vec![
        Case::idle(levels(&[(3, 100..229)])),
        Case::idle(levels(&[(0, 0..2), (1, 2..10), (2, 10..42), (3, DEEP)])),
        moves(&[(0, 0..3), (3, DEEP)], 0),
        moves(&[(1, 0..9), (3, DEEP)], 1),
        links(&[(2, 0..33), (3, DEEP)], 2),
    ]
}

/// A store with 150 tables on level 3, in which a tidy links.
pub fn deep() -> Lent {
    let store = tables(tables(Sketch::of(160, 4), 0, 0..3), 1, 3..5);
    tables(store, 3, 5..155).lent()
}
