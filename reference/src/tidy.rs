//! Naming the step that a tidy takes, without doing it.

use crate::limits::{capacity, LEVELS};
use crate::slip::Slip;
use crate::store::{Link, Store};
use crate::table::{greatest, least, Entries, Entry, Key};
use std::cmp::Ordering;

/// Why a table is merged.
#[derive(Clone, Copy, PartialEq, Eq, Debug)]
pub enum Cause {
    Due,
    InPlaceOfChoice,
}

/// What a tidy does; the reply and the store after it both follow from this name.
#[derive(Clone, PartialEq, Eq, Debug)]
pub enum Step {
    Idle,
    /// The merge wants more places than are free.
    Refused {
        level: usize,
        place: usize,
        cause: Cause,
    },
    Moved {
        level: usize,
        place: usize,
    },
    /// The new links with the places of the tables that they hang on.
    Linked {
        level: usize,
        place: usize,
        links: Vec<(usize, Link)>,
    },
    Merged {
        level: usize,
        place: usize,
        cause: Cause,
    },
}

/// What the choice in a level comes to.
enum Choice {
    Table(usize),
    MergeInstead(usize),
}

impl Store {
    /// The step that a tidy takes now.
    pub fn name_step(&self) -> Step {
        if let Some((level, place)) = self.due_merge() {
            return self.merge_or_refusal(level, place, Cause::Due);
        }
        let Some(level) = self.fullest_level() else {
            return Step::Idle;
        };
        match self.choose(level) {
            Choice::MergeInstead(place) => {
                self.merge_or_refusal(level, place, Cause::InPlaceOfChoice)
            }
            Choice::Table(place) if self.levels[level + 1].is_empty() => {
                Step::Moved { level, place }
            }
            Choice::Table(place) => {
                let links = self.new_links(place, level + 1);
                Step::Linked { level, place, links }
            }
        }
    }

    /// Whether a table has so many links that a merge is due.
    fn due_by_count(&self, place: usize) -> bool {
        let links = self.live(place).1.len();
        if self.slips(Slip::DueOneLinkLate) {
            return links > self.threshold;
        }
        links >= self.threshold
    }

    /// Whether a table's links weigh so much that a merge is due. Without links they weigh nothing, and a table has an entry.
    fn due_by_weight(&self, place: usize) -> bool {
        let (table, links) = self.live(place);
        let weight: usize = links.iter().map(|link| link.number).sum();
        if self.slips(Slip::DueAboveOwnCount) {
            return weight > table.len();
        }
        weight >= table.len()
    }

    /// Whether a merge of this table is due.
    fn due(&self, place: usize) -> bool {
        self.due_by_count(place) || self.due_by_weight(place)
    }

    /// The due table of the lowest level number, there with the lowest keys.
    fn due_merge(&self) -> Option<(usize, usize)> {
        let mut all = self.levels.iter().flatten();
        let count_first =
            self.slips(Slip::DueByCountFirst) && all.any(|place| self.due_by_count(*place));
        let is_due = |place: &&usize| match count_first {
            true => self.due_by_count(**place),
            false => self.due(**place),
        };
        let in_level = |level: usize| {
            let mut due = self.levels[level].iter().filter(is_due);
            let found =
                if self.slips(Slip::DueHighestKeysFirst) { due.next_back() } else { due.next() };
            found.map(|place| (level, *place))
        };
        if self.slips(Slip::DueHighestLevelFirst) {
            return (1..LEVELS).rev().find_map(in_level);
        }
        (1..LEVELS).find_map(in_level)
    }

    /// The capacity of level 0, 1 or 2.
    fn capacity_of(&self, level: usize) -> usize {
        match self.slip {
            Some(Slip::CapacityShiftedOnce) => 2 << level,
            Some(Slip::CapacityFromLevelOne) => 2 << (2 * (level + 1)),
            _ => capacity(level),
        }
    }

    /// Of levels 0 to 2 above capacity the one with the greatest live/capacity, ties to the lower.
    fn fullest_level(&self) -> Option<usize> {
        let live = |level: usize| self.levels[level].len();
        if self.slips(Slip::LastLevelHasCapacity) && live(LEVELS - 1) > 128 {
            return None;
        }
        let above = |level: &usize| {
            let most = self.capacity_of(*level);
            live(*level) > most || self.slips(Slip::CapacityReachedIsAbove) && live(*level) == most
        };
        (0..LEVELS - 1).filter(above).reduce(|best, level| {
            match self.compare_fullness(best, level) {
                Ordering::Less => level,
                Ordering::Equal if self.slips(Slip::TiesToHigherLevel) => level,
                _ => best,
            }
        })
    }

    /// Compares live/capacity of two levels exactly, by multiplying crosswise.
    fn compare_fullness(&self, one: usize, other: usize) -> Ordering {
        let [(live, most), (other_live, other_most)] =
            [one, other].map(|level| (self.levels[level].len(), self.capacity_of(level)));
        if self.slips(Slip::RatiosAsWholeNumbers) {
            return (live / most).cmp(&(other_live / other_most));
        }
        (live * other_most).cmp(&(other_live * most))
    }

    fn choose(&self, level: usize) -> Choice {
        let list = &self.levels[level];
        if level == 0 {
            let newer_first = self.slips(Slip::NewerLevel0TableFirst);
            return Choice::Table(if newer_first { list[list.len() - 1] } else { list[0] });
        }
        let start = self.first_above_mark(level);
        let rest = if self.slips(Slip::ChoiceNotGoingRound) { 0 } else { start };
        let mut going_round = list[start..].iter().chain(&list[..rest]);
        match going_round.find(|place| self.live(**place).1.is_empty()) {
            Some(place) => Choice::Table(*place),
            None => Choice::MergeInstead(list[start]),
        }
    }

    /// The position of the first table whose least own key exceeds the mark, else the first of all.
    fn first_above_mark(&self, level: usize) -> usize {
        let Some(mark) = self.mark(level) else {
            return 0;
        };
        let beyond = |place: &usize| {
            let least_own = least(self.live(*place).0);
            match self.slip {
                Some(Slip::ChoiceAtMark) => least_own >= mark,
                Some(Slip::ChoiceBySpanStart) => self.span(*place).0 > mark,
                _ => least_own > mark,
            }
        };
        self.levels[level].iter().position(beyond).unwrap_or(0)
    }

    /// The links that a chosen table makes on the tables of the level below it.
    fn new_links(&self, chosen: usize, below: usize) -> Vec<(usize, Link)> {
        let table = self.live(chosen).0;
        let has_entry = |(_, link): &(usize, Link)| {
            self.slips(Slip::LinksWithoutEntries) || table.keys().any(|key| link.holds(*key))
        };
        let ranges = self.responsibilities(below).into_iter();
        let links = ranges.map(|(on, low, high)| {
            let number = self.number(table, low, high);
            (on, Link { place: chosen, low, high, number })
        });
        links.filter(has_entry).collect()
    }

    /// How many entries of a table lie in a range; delete marks count, and so do entries that a newer one hides.
    fn number(&self, table: &Entries, low: Key, high: Key) -> usize {
        let values_alone = self.slips(Slip::NumberWithoutDeleteMarks);
        let counts = |(key, entry): &(&Key, &Entry)| {
            (low..=high).contains(*key) && (entry.value().is_some() || !values_alone)
        };
        table.iter().filter(counts).count()
    }

    /// For each table of a level the range of keys that it is responsible for: together all keys.
    fn responsibilities(&self, level: usize) -> Vec<(usize, Key, Key)> {
        let list = &self.levels[level];
        let span = |place: usize| match self.slips(Slip::ResponsibleByOwnKeys) {
            true => (least(self.live(place).0), greatest(self.live(place).0)),
            false => self.span(place),
        };
        let mut ranges = Vec::new();
        let mut low = Key::MIN;
        for (position, place) in list.iter().enumerate() {
            let (start, end) = span(*place);
            let last = position + 1 == list.len() && !self.slips(Slip::LastRangeToSpanEnd);
            let high = if last { Key::MAX } else { end };
            let from_start = match self.slip {
                Some(Slip::KeysBetweenTablesUnlinked) => position > 0,
                Some(Slip::FirstRangeFromSpanStart) => position == 0,
                _ => false,
            };
            ranges.push((*place, if from_start { start } else { low }, high));
            // After the last range, which ends at the greatest key, nothing follows.
            low = high.wrapping_add(1);
        }
        ranges
    }

    /// A merge is refused when more tables come out of it than places are free.
    fn merge_or_refusal(&self, level: usize, place: usize, cause: Cause) -> Step {
        let free = self.free() + self.freed_early(place).len();
        if self.places_needed(level, place) > free {
            return Step::Refused { level, place, cause };
        }
        Step::Merged { level, place, cause }
    }
}
