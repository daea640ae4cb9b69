//! Doing what is named: taking places, flush, move, link and merge.

use crate::limits::{LEVELS, PLACE_BYTES, TABLE_ENTRIES};
use crate::slip::Slip;
use crate::store::{Link, Place, Store};
use crate::summary::NO_BITS;
use crate::table::{greatest, Entries, Entry, Key};
use crate::tidy::{Cause, Step};

impl Store {
    /// Writes the memory table to level 0; 65 if it is empty, 20 if no place is free.
    pub fn flush(&mut self) -> u16 {
        let place_first = self.slips(Slip::EmptyFlushWantsPlace) && self.free() == 0;
        if self.memory.is_empty() && !place_first {
            return 65;
        }
        if self.free() == 0 {
            return 20;
        }
        let place = self.write_table(self.memory.clone());
        if !self.slips(Slip::FlushKeepsMemory) {
            self.memory.clear();
        }
        self.levels[0].push(place);
        0
    }

    /// Writes a live table without links to the next free place.
    fn write_table(&mut self, table: Entries) -> usize {
        let place = self.take_place();
        self.settle(place, table);
        place
    }

    /// The first free place counting up from the cursor, going round; the cursor follows it.
    fn take_place(&mut self) -> usize {
        let count = self.places.len();
        let mut going_round = (self.cursor..count).chain(0..self.cursor);
        let free = going_round.find(|place| self.places[*place] == Place::Free);
        let place = free.expect("free places were counted");
        self.cursor = match self.slip {
            Some(Slip::CursorNotWrapping) => place + 1,
            Some(Slip::CursorReset) => 0,
            Some(Slip::CursorAtTakenPlace) => place,
            _ => (place + 1) % count,
        };
        place
    }

    /// Does the step that was named for this store.
    pub fn do_step(&mut self, step: &Step) {
        match step {
            Step::Idle | Step::Refused { .. } => {}
            Step::Moved { level, place } => {
                if !self.slips(Slip::MarkNotSetOnMove) {
                    self.pass_mark(*level, *place);
                }
                self.move_down(*level, *place);
            }
            Step::Linked { level, place, links } => {
                self.pass_mark(*level, *place);
                self.link(*level, *place, links);
            }
            Step::Merged { level, place, cause } => {
                let choice = *cause == Cause::InPlaceOfChoice;
                if choice && self.slips(Slip::MarkSetByMergeInPlaceOfChoice) {
                    self.pass_mark(*level, *place);
                }
                self.merge(*level, *place);
            }
        }
    }

    /// The mark of the chosen table's level becomes its greatest own key; level 0 has no mark.
    fn pass_mark(&mut self, level: usize, place: usize) {
        if level > 0 {
            self.set_mark(level, greatest(self.live(place).0));
        }
    }

    fn take_from_list(&mut self, level: usize, place: usize) -> usize {
        let position = self.levels[level].iter().position(|listed| *listed == place);
        let position = position.expect("the step names a listed table");
        self.levels[level].remove(position);
        position
    }

    /// The table joins the next level, which is empty; its place, its bits and its delete marks stay.
    fn move_down(&mut self, level: usize, place: usize) {
        self.take_from_list(level, place);
        if self.slips(Slip::MovedCardLosesBits) {
            self.summaries[place] = NO_BITS;
        }
        self.levels[level + 1].push(place);
        if self.slips(Slip::MoveDropsMarks) && level + 1 == LEVELS - 1 {
            let mut table = self.live(place).0.clone();
            table.retain(|_, entry| *entry != Entry::DeleteMark);
            self.settle(place, table);
        }
    }

    /// The chosen table leaves its level frozen, with its bits, and its slices hang on the tables below.
    fn link(&mut self, level: usize, place: usize, links: &[(usize, Link)]) {
        self.take_from_list(level, place);
        if self.slips(Slip::FrozenCardLosesBits) {
            self.summaries[place] = NO_BITS;
        }
        let table = self.live(place).0.clone();
        self.places[place] = Place::Frozen { table };
        let in_front = self.slips(Slip::NewLinkInFront);
        for (on, link) in links {
            if let Place::Live { links, .. } = &mut self.places[*on] {
                let position = if in_front { 0 } else { links.len() };
                links.insert(position, link.clone());
            }
        }
    }

    /// Writes the results where the old table stood, then frees what is no longer needed.
    fn merge(&mut self, level: usize, place: usize) {
        let entries: Vec<(Key, Entry)> = self.merged(level, place).into_iter().collect();
        let mut freed = vec![place];
        if !self.slips(Slip::FrozenNeverFreed) {
            freed.extend(self.left_without_links(place));
        }
        let early = self.freed_early(place);
        freed.retain(|place| !early.contains(place));
        let position = self.take_from_list(level, place);
        self.free_places(&early);
        let mut results = Vec::new();
        for part in entries.chunks(TABLE_ENTRIES) {
            results.push(self.write_table(part.iter().cloned().collect()));
        }
        let at_end = self.slips(Slip::ResultsAtListEnd);
        let position = if at_end { self.levels[level].len() } else { position };
        self.levels[level].splice(position..position, results);
        self.free_places(&freed);
    }

    /// Freed places keep their bytes until they are taken again; their cards lose their bits.
    fn free_places(&mut self, freed: &[usize]) {
        for place in freed {
            self.places[*place] = Place::Free;
            if self.slips(Slip::FreedPlaceCleared) {
                self.area[place * PLACE_BYTES..][..PLACE_BYTES].fill(0);
            }
        }
    }
}
