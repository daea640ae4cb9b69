//! Where keys stand in a picture: by their order among all keys that are there, each as wide as the next.

use crate::words::{counted, percent};
use std::collections::BTreeSet;
use zilgwern::{Entry, Key, Summary, Table, View};

/// All keys of a store, rising.
pub struct Scale {
    keys: Vec<Key>,
}

impl Scale {
    pub fn of(view: &View) -> Scale {
        let tables = view.levels.iter().flatten().chain(&view.frozen);
        let entries = tables.flat_map(|table| &table.entries).chain(&view.memory);
        let mut keys: Vec<Key> = entries.map(|entry| entry.key).collect();
        keys.sort();
        keys.dedup();
        Scale { keys }
    }

    /// Where a range of keys begins and ends, both from 0 to 1.
    pub fn range(&self, low: Key, high: Key) -> (f64, f64) {
        let all = self.keys.len().max(1) as f64;
        let before = self.keys.partition_point(|key| *key < low) as f64;
        let until = self.keys.partition_point(|key| *key <= high) as f64;
        (before / all, until.max(before) / all)
    }

    /// The least and the greatest key, if there is any.
    pub fn ends(&self) -> Option<(Key, Key)> {
        Some((*self.keys.first()?, *self.keys.last()?))
    }
}

/// The least and the greatest key of entries, if there are any.
pub fn extent(entries: &[Entry]) -> Option<(Key, Key)> {
    Some((entries.first()?.key, entries.last()?.key))
}

/// A table's entries; where it has links, what they weigh against that. As much or more makes a merge due.
pub fn weighed(table: &Table) -> String {
    let own = table.entries.len();
    match table.links[..] {
        [] => own.to_string(),
        _ => format!("{}/{own}", table.weight()),
    }
}

/// Frozen tables whose links hang on a level, by place.
pub fn frozen_on(view: &View, level: usize) -> Vec<&Table> {
    let links = view.levels[level].iter().flat_map(|table| &table.links);
    let named: BTreeSet<usize> = links.map(|link| link.place).collect();
    view.frozen.iter().filter(|table| named.contains(&table.place)).collect()
}

/// What is known of each place: the level of a live table, frozen, or neither.
#[derive(Clone, Copy, PartialEq, Eq, Debug)]
pub enum State {
    Free,
    Live(usize),
    Frozen,
}

pub fn states(view: &View) -> Vec<State> {
    let mut states = vec![State::Free; view.places];
    for (level, tables) in view.levels.iter().enumerate() {
        tables.iter().for_each(|table| states[table.place] = State::Live(level));
    }
    view.frozen.iter().for_each(|table| states[table.place] = State::Frozen);
    states
}

/// Live tables that a level may hold before a tidy takes one away; level 3 has no such limit.
fn capacity(level: usize) -> Option<usize> {
    (level < 3).then(|| 2 << (2 * level))
}

/// How many tables a level has, and its capacity.
pub fn fill(view: &View, level: usize) -> String {
    let tables = counted(view.levels[level].len(), "table", "tables");
    capacity(level).map_or(tables.clone(), |most| format!("{tables} (capacity {most})"))
}

/// The first line of both pictures.
pub fn title(view: &View) -> String {
    let live: usize = view.levels.iter().map(Vec::len).sum();
    let links: usize = view.levels.iter().flatten().map(|table| table.links.len()).sum();
    let (free, frozen) = (view.free(), view.frozen.len());
    let places = format!("{} places: {free} free, {live} live, {frozen} frozen", view.places);
    format!("{places}; {}", counted(links, "link", "links"))
}

/// Where delete marks are, if there are any: in memory, and on each level, slices included.
pub fn delete_marks(view: &View) -> Option<String> {
    let memory = view.memory.iter().filter(|entry| entry.value.is_none()).count();
    let levels =
        (0..view.levels.len()).map(|level| (view.delete_marks(level), format!("on level {level}")));
    let counts = std::iter::once((memory, "in memory".to_owned())).chain(levels);
    let words: Vec<String> = counts
        .filter(|(count, _)| *count > 0)
        .map(|(count, place)| format!("{count} {place}"))
        .collect();
    (!words.is_empty()).then(|| format!("delete marks: {}", words.join(", ")))
}

/// How full the summaries of live and frozen tables are, if there are any.
pub fn summary_bits(view: &View) -> Option<String> {
    let tables = view.levels.iter().flatten().chain(&view.frozen);
    let set: Vec<usize> = tables.map(|table| table.summary.bits_set()).collect();
    let most = set.iter().max()?;
    let average = percent(set.iter().sum(), set.len() * Summary::BITS);
    let (bits, most) = (Summary::BITS, percent(*most, Summary::BITS));
    Some(format!("summary bits set: {average} % of {bits} on average, at most {most} %"))
}
