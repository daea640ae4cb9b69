//! Upper-level driven compaction, for comparison: the second implementation with the same levels, capacities and choices, but a
//! chosen table is merged at once with all tables of the level below whose keys overlap its own.

use crate::engine::{Engine, SeeEntry, SeeValue};
use crate::places::Steps;
use crate::workload::{Key, Put};
use reference::limits::{LEVELS, PLACE_BYTES, TABLE_ENTRIES};
use reference::store::{new_store, Place, Store};
use reference::table::{greatest, least, Entries, Entry};
use reference::tidy::Step;
use std::ops::Range;

pub struct Upper(pub Store);

impl Upper {
    pub fn new(places: usize) -> Upper {
        // No table ever has a link, so the threshold is without effect.
        Upper(new_store(vec![0; places * PLACE_BYTES], 1))
    }

    /// The positions of the tables of a level that overlap these keys; an empty range where they would stand if there are none.
    fn overlapping(&self, level: usize, low: Key, high: Key) -> Range<usize> {
        let list = &self.0.levels[level];
        let start = list.partition_point(|place| greatest(self.0.live(*place).0) < low);
        let end = list.partition_point(|place| least(self.0.live(*place).0) <= high);
        start..end.max(start)
    }

    /// Merges entries into the tables at these positions of a level.
    fn merge(&mut self, level: usize, range: Range<usize>, newer: Entries) {
        let old: Vec<usize> = self.0.levels[level][range.clone()].to_vec();
        let mut entries = Entries::new();
        for place in &old {
            entries.extend(self.0.live(*place).0.clone());
        }
        entries.extend(newer);
        if level == LEVELS - 1 {
            entries.retain(|_, entry| *entry != Entry::DeleteMark);
        }
        let entries: Vec<(Key, Entry)> = entries.into_iter().collect();
        let parts = entries.chunks(TABLE_ENTRIES);
        let results: Vec<usize> =
            parts.map(|part| self.write(part.iter().cloned().collect())).collect();
        self.0.levels[level].splice(range, results);
        old.iter().for_each(|place| self.0.places[*place] = Place::Free);
    }

    /// Writes a table to the first free place from the cursor on, going round.
    fn write(&mut self, table: Entries) -> usize {
        let count = self.0.places.len();
        let mut round = (self.0.cursor..count).chain(0..self.0.cursor);
        let free = round.find(|place| self.0.places[*place] == Place::Free);
        let place = free.expect("the store is large enough for its keys");
        self.0.cursor = (place + 1) % count;
        self.0.settle(place, table);
        place
    }

    /// Takes a chosen table down; where it overlaps nothing it moves as it is.
    fn down(&mut self, level: usize, place: usize) {
        let table = self.0.live(place).0.clone();
        if level > 0 {
            self.0.set_mark(level, greatest(&table));
        }
        self.0.levels[level].retain(|other| *other != place);
        let range = self.overlapping(level + 1, least(&table), greatest(&table));
        if range.is_empty() {
            self.0.levels[level + 1].insert(range.start, place);
            return;
        }
        self.merge(level + 1, range, table);
        self.0.places[place] = Place::Free;
    }
}

impl Steps for Upper {
    fn only_put(&mut self, batch: &[Put]) {
        for (key, value) in batch {
            self.0.memory.insert(*key, Entry::Value(value.to_vec()));
        }
        assert!(self.0.memory.len() <= TABLE_ENTRIES, "more keys than the memory table holds");
    }

    fn flush(&mut self) {
        assert_eq!(self.0.flush(), 0, "upper-level driven: result of a flush");
    }

    fn tidy(&mut self) -> bool {
        let step = self.0.name_step();
        match &step {
            Step::Idle => return false,
            Step::Moved { .. } => self.0.do_step(&step),
            Step::Linked { level, place, .. } => self.down(*level, *place),
            Step::Refused { .. } | Step::Merged { .. } => unreachable!("no table has links"),
        }
        true
    }

    fn area(&mut self) -> &mut [u8] {
        &mut self.0.area
    }

    fn is_free(&self, place: usize) -> bool {
        self.0.places[place] == Place::Free
    }
}

impl Engine for Upper {
    fn name(&self) -> &'static str {
        "upper-level driven"
    }

    fn put(&mut self, batch: &[Put]) {
        for part in batch.chunks(TABLE_ENTRIES) {
            self.only_put(part);
            self.flush();
            while self.tidy() {}
        }
    }

    fn look_up(&mut self, keys: &[Key], see: &mut SeeValue) {
        keys.iter().for_each(|key| see(self.0.look_up(*key)));
    }

    fn scan(&mut self, from: &[Key], see: &mut SeeEntry) {
        for (number, low) in from.iter().enumerate() {
            for (key, value) in &self.0.scan(*low, Key::MAX).values {
                see(number, *key, value);
            }
        }
    }
}
