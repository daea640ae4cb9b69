//! What is special about a planted store, so that a test run can count it.

use crate::limits::{TABLE_ENTRIES, VALUE_BYTES};
use crate::store::{Link, Place, Store};
use crate::table::{greatest, least, Entries};

/// A feature by name, with the test for it.
pub type Feature = (&'static str, fn(&Store) -> bool);

/// The features that planted stores must have shown.
pub const FEATURES: [Feature; 10] = [
    ("tables on all four levels", |store| store.levels.iter().all(|list| !list.is_empty())),
    ("a range beyond a table's own keys", |store| {
        tables(store).any(|place| {
            let table = store.live(place).0;
            store.span(place) != (least(table), greatest(table))
        })
    }),
    ("a frozen place on several tables", |store| {
        let named = |place| store.live(place).1.iter().map(move |link| (link.place, place));
        let pairs: Vec<(usize, usize)> = tables(store).flat_map(named).collect();
        pairs
            .iter()
            .any(|(frozen, on)| pairs.iter().any(|other| other.0 == *frozen && other.1 != *on))
    }),
    ("two slices of one place on one table", |store| {
        let twice = |links: &[Link]| {
            (1..links.len()).any(|at| links[..at].iter().any(|link| link.place == links[at].place))
        };
        tables(store).any(|place| twice(store.live(place).1))
    }),
    ("a frozen entry in no range", |store| {
        let links: Vec<&Link> = tables(store).flat_map(|place| store.live(place).1).collect();
        links.iter().any(|link| {
            let shown =
                |key| links.iter().any(|other| other.place == link.place && other.holds(key));
            store.frozen(link.place).keys().any(|key| !shown(*key))
        })
    }),
    ("a mark at a least own key", |store| {
        [1, 2].iter().any(|level| {
            let own = store.levels[*level].iter().map(|place| least(store.live(*place).0));
            store.mark(*level).is_some_and(|mark| own.into_iter().any(|key| key == mark))
        })
    }),
    ("no place free", |store| store.free() == 0),
    ("a live table as long as can be", |store| {
        tables(store).any(|place| is_longest(store.live(place).0))
    }),
    ("a frozen table as long as can be", |store| {
        let frozen = |place: &Place| matches!(place, Place::Frozen { table } if is_longest(table));
        store.places.iter().any(frozen)
    }),
    ("a memory table as long as can be", |store| is_longest(&store.memory)),
];

fn is_longest(entries: &Entries) -> bool {
    let longest = |value: &[u8]| value.len() == VALUE_BYTES;
    entries.len() == TABLE_ENTRIES && entries.values().all(|it| it.value().is_some_and(longest))
}

fn tables(store: &Store) -> impl Iterator<Item = usize> + '_ {
    store.levels.iter().flatten().copied()
}
