//! Reading as without summaries: look up, scan and report, in the order's read order. Look-ups are served by `probe`.

use crate::limits::{LEVELS, SCAN_VALUES};
use crate::slip::Slip;
use crate::store::{Link, Place, Store};
use crate::table::{Entries, Entry, Key};
use std::collections::btree_map::Range;
use std::iter::Peekable;

/// What a scan gives: the first values of the range and whether a further one exists.
pub struct Scanned {
    pub values: Vec<(Key, Vec<u8>)>,
    pub more: bool,
}

impl Store {
    /// The value that the first entry met in the read order gives, with every table opened.
    pub fn look_up_plainly(&self, key: Key) -> Option<&[u8]> {
        self.deciding_entry(key).and_then(Entry::value)
    }

    /// The first entry met: memory, level 0 newest first, then levels 1, 2 and 3.
    fn deciding_entry(&self, key: Key) -> Option<&Entry> {
        let in_level_0 = |place: usize| self.live(place).0.get(&key);
        self.memory
            .get(&key)
            .or_else(|| self.level_0_newest_first().into_iter().find_map(in_level_0))
            .or_else(|| (1..LEVELS).find_map(|level| self.entry_in_level(level, key)))
    }

    /// On levels 1 to 3: the links whose range holds the key, newest first, then the table.
    fn entry_in_level(&self, level: usize, key: Key) -> Option<&Entry> {
        let (table, links) = self.live(self.spanning(level, key)?);
        let links = self.newest_first(links).into_iter().filter(|link| link.holds(key));
        let mut slices = links.filter_map(|link| self.frozen(link.place).get(&key));
        slices.next().or_else(|| table.get(&key))
    }

    pub(crate) fn level_0_newest_first(&self) -> Vec<usize> {
        if self.slips(Slip::OldestLevel0TableReadFirst) {
            return self.levels[0].clone();
        }
        self.levels[0].iter().rev().copied().collect()
    }

    pub(crate) fn newest_first<'a>(&self, links: &'a [Link]) -> Vec<&'a Link> {
        if self.slips(Slip::OldestLinkReadFirst) {
            return links.iter().collect();
        }
        links.iter().rev().collect()
    }

    /// The one table of levels 1 to 3 whose span holds the key; spans are apart (rule G).
    pub(crate) fn spanning(&self, level: usize, key: Key) -> Option<usize> {
        let list = &self.levels[level];
        let place = *list.get(self.first_ending_from(level, key))?;
        (self.span(place).0 <= key).then_some(place)
    }

    /// The position of the first table of a lower level whose span does not end below the key.
    fn first_ending_from(&self, level: usize, key: Key) -> usize {
        self.levels[level].partition_point(|place| self.span(*place).1 < key)
    }

    /// The first values of a range, merged from all sources; the newest source decides each key.
    pub fn scan(&self, low: Key, high: Key) -> Scanned {
        let mut sources = self.sources(low, high);
        let mut values = Vec::new();
        let mut counted = 0;
        while counted <= SCAN_VALUES {
            let keys = sources.iter_mut().filter_map(|source| source.peek().map(|(key, _)| **key));
            let Some(key) = keys.min() else { break };
            let mut met = Vec::new();
            for source in &mut sources {
                let next = source.next_if(|(next, _)| **next == key);
                met.extend(next.map(|(_, entry)| entry));
            }
            let value = self.decided(&met);
            values.extend(value.map(|value| (key, value.to_vec())));
            counted += usize::from(value.is_some() || self.slips(Slip::ScanCountsDeleteMarks));
        }
        let more = match self.slips(Slip::ScanMoreAtSixteen) {
            true => values.len() >= SCAN_VALUES,
            false => values.len() > SCAN_VALUES,
        };
        values.truncate(SCAN_VALUES);
        Scanned { values, more }
    }

    /// What the entries of one key come to, newest first: the first decides.
    fn decided<'a>(&self, met: &[&'a Entry]) -> Option<&'a [u8]> {
        if self.slips(Slip::ScanReadsThroughMarks) {
            return met.iter().find_map(|entry| entry.value());
        }
        met.first().and_then(|entry| entry.value())
    }

    /// All entries that a range can show, newest source first.
    fn sources(&self, low: Key, high: Key) -> Vec<Peekable<Range<'_, Key, Entry>>> {
        let mut sources = vec![(&self.memory, low, high)];
        let level_0 = self.level_0_newest_first().into_iter();
        sources.extend(level_0.map(|place| (self.live(place).0, low, high)));
        for level in 1..LEVELS {
            for place in &self.levels[level][self.first_ending_from(level, low)..] {
                if self.span(*place).0 > high {
                    break;
                }
                let (table, links) = self.live(*place);
                let links = self.newest_first(links).into_iter();
                sources.extend(links.map(|link| self.clip(link, low, high)));
                sources.push((table, low, high));
            }
        }
        let end = if self.slips(Slip::ScanLeavesHighOut) { high.saturating_sub(1) } else { high };
        let open = |(table, low, high)| part(table, low, end.min(high));
        sources.into_iter().map(open).collect()
    }

    /// The part of a link's slice that lies in a range.
    fn clip(&self, link: &Link, low: Key, high: Key) -> (&Entries, Key, Key) {
        let table = self.frozen(link.place);
        if self.slips(Slip::ScanReadsWholeFrozenTables) {
            return (table, low, high);
        }
        (table, low.max(link.low), high.min(link.high))
    }

    /// Free places, live tables on levels 0 to 3, frozen places, links, memory entries.
    pub fn report(&self) -> [u16; 8] {
        let frozen =
            self.places.iter().filter(|place| matches!(place, Place::Frozen { .. })).count();
        let links = self.levels.iter().flatten().map(|place| self.live(*place).1.len()).sum();
        let links = if self.slips(Slip::ReportCountsFrozenNotLinks) { frozen } else { links };
        let [zero, one, two, three] = &self.levels;
        [
            self.free(),
            zero.len(),
            one.len(),
            two.len(),
            three.len(),
            frozen,
            links,
            self.memory.len(),
        ]
        .map(|count| count as u16)
    }
}

/// The entries of a table from low to high; none where low is above high.
fn part(table: &Entries, low: Key, high: Key) -> Peekable<Range<'_, Key, Entry>> {
    // The map itself would not take a range upside down.
    let range = if low <= high { table.range(low..=high) } else { Range::default() };
    range.peekable()
}
