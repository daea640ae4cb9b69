//! Which merges are due, worked from the slice list alone; and what tidies met on the way, for counting what a test run
//! reached.

use super::met;
use super::working::{Row, Slice, Working};
use std::collections::BTreeSet;

/// By what a merge is due.
#[derive(Clone, Copy, PartialEq, Eq, Debug)]
pub enum Trigger {
    /// T links that weigh less than the table.
    Count,
    /// Fewer than T links that weigh at least as much as the table.
    Weight,
    Both,
}

/// A table of levels 1 to 3, with what hangs on it.
pub(super) struct Loaded {
    pub level: usize,
    pub place: usize,
    /// How many entries the table has.
    own: usize,
    links: usize,
    /// The sum of the links' numbers.
    weight: usize,
    pub due: Option<Trigger>,
}

impl Working {
    /// The rows of a slice: those of its frozen place in its range, delete marks too.
    pub(super) fn sliced<'a>(&'a self, slice: &'a Slice) -> impl Iterator<Item = &'a Row> {
        let rows = self.rows(slice.frozen).iter();
        rows.filter(|row| slice.low <= row.0 && row.0 <= slice.high)
    }

    /// For each place how many slices hang on it, and the sum of their numbers.
    fn loads(&self) -> Vec<(usize, usize)> {
        let mut loads = vec![(0, 0); self.tables.len()];
        for slice in &self.slices {
            let (links, weight) = &mut loads[slice.on];
            *links += 1;
            *weight += self.sliced(slice).count();
        }
        loads
    }

    /// The tables of levels 1 to 3 in the order in which due ones are merged.
    pub(super) fn loaded(&self) -> Vec<Loaded> {
        let loads = self.loads();
        let listed = (1..4).flat_map(|level| self.levels[level].iter().map(move |it| (level, *it)));
        let load = |(level, place): (usize, usize)| {
            let (own, (links, weight)) = (self.rows(place).len(), loads[place]);
            let due = match (links >= self.threshold, weight >= own) {
                (true, true) => Some(Trigger::Both),
                (true, false) => Some(Trigger::Count),
                (false, true) => Some(Trigger::Weight),
                (false, false) => None,
            };
            Loaded { level, place, own, links, weight, due }
        };
        listed.map(load).collect()
    }

    /// What a tidy has met that merges the due table at this position, or finds none due.
    pub(super) fn meet_due(&mut self, loaded: &[Loaded], first: Option<usize>) {
        let passed = &loaded[..first.unwrap_or(loaded.len())];
        if passed.iter().any(|table| table.links > 0 && table.weight + 1 == table.own) {
            self.met.push(met::ONE_BELOW);
        }
        let Some(first) = first else {
            return;
        };
        let table = &loaded[first];
        if table.due == Some(Trigger::Weight) {
            self.meet_weight(table);
        }
        for later in &loaded[first + 1..] {
            let one_level = later.level == table.level;
            self.met.extend(match (table.due, later.due, one_level) {
                (Some(Trigger::Weight), Some(Trigger::Count), true) => Some(met::WEIGHT_BY_KEY),
                (Some(Trigger::Weight), Some(Trigger::Count), false) => Some(met::WEIGHT_BY_LEVEL),
                (Some(Trigger::Count), Some(Trigger::Weight), true) => Some(met::COUNT_BY_KEY),
                (Some(Trigger::Count), Some(Trigger::Weight), false) => Some(met::COUNT_BY_LEVEL),
                _ => None,
            });
        }
    }

    /// What is special about a table that is due by weight alone.
    fn meet_weight(&mut self, table: &Loaded) {
        let slices = self.slices.iter().filter(|slice| slice.on == table.place);
        let rows: Vec<&Row> = slices.flat_map(|slice| self.sliced(slice)).collect();
        let values = rows.iter().filter(|row| row.1.is_some()).count();
        let keys: BTreeSet<u64> = rows.iter().map(|row| row.0).collect();
        let seen = [
            (table.weight == table.own, met::JUST_DUE),
            ((table.own, table.links) == (1, 1), met::FIRST_LINK),
            (values < table.own, met::BY_MARKS),
            (keys.len() < table.own, met::BY_HIDDEN),
        ];
        self.met.extend(seen.iter().filter(|(is_so, _)| *is_so).map(|(_, name)| *name));
    }

    /// What a link from a level has met, seen from its newest slices, of which there are so many.
    pub(super) fn meet_links(&mut self, from: usize, links: usize) {
        let made = &self.slices[self.slices.len() - links..];
        let rows: Vec<&Row> = made.iter().flat_map(|slice| self.sliced(slice)).collect();
        // Newer than a table of level 0 is what follows it there, and the memory; newer than others are the levels above.
        let above = self.levels[..from.max(1)].iter().flatten().map(|place| self.rows(*place));
        let newer: BTreeSet<u64> = above.chain([&self.memory]).flatten().map(|row| row.0).collect();
        let seen = [
            (rows.iter().any(|row| row.1.is_none()), met::MARK_COUNTED),
            (rows.iter().any(|row| newer.contains(&row.0)), met::HIDDEN_COUNTED),
        ];
        self.met.extend(seen.iter().filter(|(is_so, _)| *is_so).map(|(_, name)| *name));
    }
}
