//! The working's puts, deletes, flushes and tidies: what the rules link and merge.

use super::due::Trigger;
use super::marks::{Marks, Sifted};
use super::met;
use super::working::{bytes_of, Rows, Slice, Working};
use crate::limits::{capacity, TABLE_ENTRIES};
use std::collections::{BTreeMap, BTreeSet};

/// What a put, delete, flush or tidy did by the rules.
#[derive(Clone, Copy, PartialEq, Eq, Debug)]
pub enum Deed {
    Written,
    WriteRefused,
    /// There was nothing to flush or to tidy.
    Idle,
    Flushed,
    FlushRefused,
    Moved {
        from: usize,
    },
    Linked {
        from: usize,
        links: usize,
    },
    Merged {
        on: usize,
        /// None for a merge in place of a choice.
        due: Option<Trigger>,
        tables: usize,
        marks: Marks,
    },
    MergeRefused {
        on: usize,
        due: Option<Trigger>,
        marks: Marks,
    },
}

impl Working {
    /// Works one request through the rules; reads and malformed requests do nothing.
    pub fn serve(&mut self, kind: u16, body: &[u8]) -> Option<Deed> {
        if !(matches!(kind, 1 | 2 | 5 | 6) && Working::well_formed(kind, body)) {
            return None;
        }
        match kind {
            5 => Some(self.flush()),
            6 => Some(self.tidy().unwrap_or(Deed::Idle)),
            _ => {
                let (key, value) = body.split_at(8);
                let key = u64::from_le_bytes(key.try_into().expect("eight bytes"));
                let written = self.write(key, (kind == 1).then_some(value));
                Some(if written { Deed::Written } else { Deed::WriteRefused })
            }
        }
    }

    fn flush(&mut self) -> Deed {
        if self.memory.is_empty() {
            return Deed::Idle;
        }
        if self.free() == 0 {
            return Deed::FlushRefused;
        }
        let rows = std::mem::take(&mut self.memory);
        let place = self.settle(rows);
        self.levels[0].push(place);
        Deed::Flushed
    }

    /// One step, or none if there is nothing to do.
    fn tidy(&mut self) -> Option<Deed> {
        let loaded = self.loaded();
        let first = loaded.iter().position(|table| table.due.is_some());
        self.meet_due(&loaded, first);
        if let Some(table) = first.map(|first| &loaded[first]) {
            return Some(self.merge(table.level, table.place, table.due));
        }
        self.meet_levels();
        let from = self.fullest()?;
        let order = self.order(from);
        let linked: BTreeSet<usize> = self.slices.iter().map(|slice| slice.on).collect();
        let Some(chosen) = order.iter().copied().find(|place| !linked.contains(place)) else {
            return Some(self.merge(from, order[0], None));
        };
        let rows = self.rows(chosen).clone();
        if from > 0 {
            self.marks.insert(from, rows[rows.len() - 1].0);
        }
        self.levels[from].retain(|place| *place != chosen);
        if self.levels[from + 1].is_empty() {
            self.levels[from + 1].push(chosen);
            return Some(Deed::Moved { from });
        }
        let links = self.link(chosen, &rows, from + 1);
        self.meet_links(from, links);
        Some(Deed::Linked { from, links })
    }

    /// What a tidy meets on the levels where no merge is due.
    fn meet_levels(&mut self) {
        for (level, [at, above]) in met::OF_LEVELS.into_iter().enumerate() {
            match self.levels[level].len().checked_sub(capacity(level)) {
                Some(0) => self.met.push(at),
                Some(1) => self.met.push(above),
                _ => {}
            }
        }
        if self.levels[3].len() > 128 {
            self.met.push(met::DEEP);
        }
    }

    /// The level above capacity with the greatest live/capacity; the lower number among equals.
    fn fullest(&self) -> Option<usize> {
        let live = |level: usize| self.levels[level].len();
        let mut fullest: Option<usize> = None;
        for level in 0..3 {
            let fuller = |other| live(level) * capacity(other) > live(other) * capacity(level);
            if live(level) > capacity(level) && fullest.is_none_or(fuller) {
                fullest = Some(level);
            }
        }
        fullest
    }

    /// The tables of a level in the order in which they are considered.
    fn order(&self, level: usize) -> Vec<usize> {
        let mut order = self.levels[level].clone();
        if let Some(mark) = self.marks.get(&level) {
            let start = order.iter().position(|place| self.rows(*place)[0].0 > *mark);
            order.rotate_left(start.unwrap_or(0));
        } else if level == 0 {
            order.truncate(1);
        }
        order
    }

    /// The tables of a level, in key order, each with the greatest of its own keys and range ends.
    fn span_ends(&self, level: usize) -> Vec<(usize, u64)> {
        let hanging = self.hanging();
        let slices = |place: &usize| hanging.get(place).map_or(&[][..], |slices| slices);
        let end = |place: &usize| (*place, self.hull(*place, slices(place)).1);
        self.levels[level].iter().map(end).collect()
    }

    /// Adds the slices of a frozen table to the list and keeps its bytes.
    fn link(&mut self, frozen: usize, rows: &Rows, level: usize) -> usize {
        let ends = self.span_ends(level);
        let before = self.slices.len();
        for (at, (on, end)) in ends.iter().enumerate() {
            let low = if at == 0 { 0 } else { ends[at - 1].1 + 1 };
            let high = if at + 1 == ends.len() { u64::MAX } else { *end };
            if rows.iter().any(|row| low <= row.0 && row.0 <= high) {
                self.slices.push(Slice { frozen, low, high, on: *on });
            }
        }
        self.kept.insert(frozen, bytes_of(rows));
        self.slices.len() - before
    }

    /// Merges a table with its slices, or does nothing if the free places don't suffice.
    fn merge(&mut self, on: usize, place: usize, due: Option<Trigger>) -> Deed {
        let mut rows = self.union(place);
        let with_marks = rows.len().div_ceil(TABLE_ENTRIES);
        let Sifted { dropped, kept, met } = self.sift(on, &mut rows);
        let results: Vec<Rows> = rows.chunks(TABLE_ENTRIES).map(<[_]>::to_vec).collect();
        let (tables, free) = (results.len(), self.free());
        let marks = Marks { dropped, kept, made_room: tables <= free && free < with_marks };
        if tables > free {
            return Deed::MergeRefused { on, due, marks };
        }
        self.met.extend(met);
        let settled: Vec<usize> = results.into_iter().map(|rows| self.settle(rows)).collect();
        let was_frozen: BTreeSet<usize> = self.slices.iter().map(|slice| slice.frozen).collect();
        self.slices.retain(|slice| slice.on != place);
        let still: BTreeSet<usize> = self.slices.iter().map(|slice| slice.frozen).collect();
        for freed in was_frozen.difference(&still) {
            self.tables[*freed] = None;
            self.kept.remove(freed);
        }
        self.tables[place] = None;
        let list = std::mem::take(&mut self.levels[on]);
        for listed in list {
            if listed == place {
                self.levels[on].extend(&settled);
            } else {
                self.levels[on].push(listed);
            }
        }
        Deed::Merged { on, due, tables, marks }
    }

    /// The rows of a table and of what hangs on it, the newest for each key; delete marks too.
    fn union(&self, place: usize) -> Rows {
        let mut union: BTreeMap<u64, &Option<Vec<u8>>> = BTreeMap::new();
        // Newest first, so that what is there already stays.
        for slice in self.slices.iter().rev().filter(|slice| slice.on == place) {
            for (key, value) in self.sliced(slice) {
                union.entry(*key).or_insert(value);
            }
        }
        for (key, value) in self.rows(place) {
            union.entry(*key).or_insert(value);
        }
        union.into_iter().map(|(key, value)| (key, value.clone())).collect()
    }
}
