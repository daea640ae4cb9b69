//! What a merge comes to: its entries, with the delete marks that stay, the places it needs and
//! those it frees.

use crate::limits::{LEVELS, TABLE_ENTRIES};
use crate::slip::Slip;
use crate::store::{Link, Store};
use crate::table::{greatest, least, Entries, Entry, Key};
use std::ops::Range;

impl Store {
    /// How many tables come out of a merge.
    pub fn places_needed(&self, level: usize, place: usize) -> usize {
        let entries = match self.slip {
            Some(Slip::NeedCountedBeforeNewerWins) => {
                let (table, links) = self.live(place);
                let slice =
                    |link: &Link| self.frozen(link.place).range(link.low..=link.high).count();
                table.len() + links.iter().map(slice).sum::<usize>()
            }
            Some(Slip::NeedCountedBeforeMarksGo) => self.merged_with_marks(level, place).len(),
            _ => self.merged(level, place).len(),
        };
        entries.div_ceil(TABLE_ENTRIES)
    }

    /// Old places that a merge frees before it writes: none, so they don't count as free.
    pub fn freed_early(&self, place: usize) -> Vec<usize> {
        match self.slip {
            Some(Slip::OldPlaceReused) => vec![place],
            Some(Slip::OldPlacesFreedFirst) => {
                [vec![place], self.left_without_links(place)].concat()
            }
            _ => Vec::new(),
        }
    }

    /// The entries that a merge of this table writes.
    pub fn merged(&self, level: usize, place: usize) -> Entries {
        let mut entries = self.merged_with_marks(level, place);
        entries.retain(|key, entry| *entry != Entry::DeleteMark || !self.drops_mark(level, *key));
        entries
    }

    /// Whether a merge on this level drops a delete mark under this key: exactly if no table on a
    /// lower-lying level has a span holding it. Below level 3 there is none.
    pub fn drops_mark(&self, level: usize, key: Key) -> bool {
        let last = level == LEVELS - 1;
        let mut lower = self.lower_lying(level);
        match self.slip {
            Some(Slip::EveryMarkDropped) => true,
            Some(Slip::MarksGoOnLevel3Alone) => last,
            Some(Slip::MarksStayOnLevel3) if last => false,
            Some(Slip::OneFreeLevelIsEnough) if !last => {
                lower.any(|level| !self.spans_key(level, key))
            }
            _ => !lower.any(|level| self.spans_key(level, key)),
        }
    }

    /// The lower-lying levels: all of greater number.
    fn lower_lying(&self, level: usize) -> Range<usize> {
        match self.slip {
            Some(Slip::OwnLevelLowerLying) => level..LEVELS,
            Some(Slip::NextLevelAloneAsked) => level + 1..LEVELS.min(level + 2),
            _ => level + 1..LEVELS,
        }
    }

    /// Whether a table on this level, 1 to 3, has a span holding the key. A span is one stretch: it
    /// also holds keys between the table's own ones and a link's range, and keys without an entry.
    fn spans_key(&self, level: usize, key: Key) -> bool {
        let Some(place) = self.spanning(level, key) else {
            return false;
        };
        let (table, links) = self.live(place);
        let own = (least(table)..=greatest(table)).contains(&key);
        let mut holding = links.iter().filter(|link| link.holds(key));
        match self.slip {
            Some(Slip::SpanOfOwnKeys) => own,
            Some(Slip::SpanOfSingleRanges) => own || holding.next().is_some(),
            Some(Slip::SpanOfExactKeys) => {
                table.contains_key(&key)
                    || holding.any(|link| self.frozen(link.place).contains_key(&key))
            }
            _ => true,
        }
    }

    /// The table's entries and those in its links' ranges, the newer winning.
    fn merged_with_marks(&self, level: usize, place: usize) -> Entries {
        let (table, links) = self.live(place);
        let mut entries = table.clone();
        for link in links {
            let whole = self.slips(Slip::WholeFrozenTableMerged);
            let (low, high) = if whole { (Key::MIN, Key::MAX) } else { (link.low, link.high) };
            for (key, entry) in self.frozen(link.place).range(low..=high) {
                let skipped = match self.slip {
                    Some(Slip::OlderEntryWins) => entries.contains_key(key),
                    Some(Slip::MarksGoBeforeNewerWins) => {
                        *entry == Entry::DeleteMark && self.drops_mark(level, *key)
                    }
                    _ => false,
                };
                if skipped {
                    continue;
                }
                entries.insert(*key, entry.clone());
            }
        }
        entries
    }

    /// The frozen places that no link names any more once this table's links are gone.
    pub fn left_without_links(&self, place: usize) -> Vec<usize> {
        let named_elsewhere = |frozen: usize| {
            let others = self.levels.iter().flatten().filter(|other| **other != place);
            others.flat_map(|other| self.live(*other).1).any(|link| link.place == frozen)
        };
        let mut left: Vec<usize> = Vec::new();
        for link in self.live(place).1 {
            let named = named_elsewhere(link.place) && !self.slips(Slip::FrozenFreedWhileNamed);
            if !named && !left.contains(&link.place) {
                left.push(link.place);
            }
        }
        left
    }
}
