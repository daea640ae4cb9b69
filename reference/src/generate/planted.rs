//! Arbitrary sound stores: tables, links and marks planted at random within rules A to G.

use super::keys::Keys;
use super::random::Random;
use super::requests::Lengths;
use super::weigh::Balance;
use crate::limits::{capacity, CARD_LINKS, LEVELS, PLACE_BYTES, TABLE_ENTRIES};
use crate::store::{new_store, Link, Place, Store};
use crate::table::{greatest, least, Entries, Entry, Key};

/// A table of levels 1 to 3 and the keys that its span may take.
pub(super) struct Plot {
    pub(super) place: usize,
    pub(super) points: Vec<Key>,
    low: Key,
    high: Key,
}

/// A store in the making.
pub(super) struct Garden<'a> {
    pub(super) random: &'a mut Random,
    keys: Keys,
    pub(super) store: Store,
    /// Places that are still to be planted, in no order.
    ground: Vec<usize>,
    pub(super) plots: [Vec<Plot>; LEVELS],
    /// Of eight entries so many are delete marks.
    marks_in_eight: usize,
    lengths: Lengths,
    /// Level 1 or 2 in some stores: alone above its capacity, and each of its tables has one link and outweighs it, so that tidy
    /// has no table to choose and merges one in place of a choice.
    crowded: Option<usize>,
    pub(super) balance: Balance,
}

/// Plants a store of so many places with keys of this set.
pub fn planted(random: &mut Random, places: usize, keys: Keys) -> Store {
    plant(random, places, keys, false)
}

/// The same where half of the entries or more are delete marks, on all levels.
pub fn planted_with_marks(random: &mut Random, places: usize, keys: Keys) -> Store {
    plant(random, places, keys, true)
}

fn plant(random: &mut Random, places: usize, keys: Keys, rich_in_marks: bool) -> Store {
    let threshold = 1 + random.below(CARD_LINKS);
    let store = new_store(random.bytes(places * PLACE_BYTES), threshold);
    let mut ground: Vec<usize> = (0..places).collect();
    random.shuffle(&mut ground);
    // Some stores are full, some nearly, some have room.
    let spare = *random.pick(&[0, 0, 1, 2, 3, places / 4, places / 2]);
    ground.truncate(places - spare);
    let lengths = Lengths::drawn(random);
    let marks_in_eight = match lengths {
        _ if rich_in_marks => *random.pick(&[4, 6, 7, 8]),
        Lengths::Any => *random.pick(&[1, 2, 2, 6, 8]),
        Lengths::Longest => 0,
    };
    // Level 2 needs so many places to be crowded.
    let levels: &[usize] = if ground.len() > 60 { &[1, 2] } else { &[1] };
    let crowded = random.once_in(6).then(|| *random.pick(levels));
    let any = *random.pick(&[Balance::Any, Balance::Even, Balance::Light]);
    let balance = crowded.map_or(any, |_| Balance::Light);
    let mut garden = Garden {
        random,
        keys,
        store,
        ground,
        plots: Default::default(),
        marks_in_eight,
        lengths,
        crowded,
        balance,
    };
    garden.plant_levels();
    garden.plant_frozen();
    garden.weigh();
    if garden.crowded.is_none() && garden.random.once_in(2) {
        // What is left goes to level 0, so that no more than the spare places are free.
        garden.plant_level_0(garden.ground.len());
    }
    garden.plant_head();
    garden.store
}

impl Garden<'_> {
    /// Tables on all levels, often more than a level's capacity; some places stay for frozen ones.
    fn plant_levels(&mut self) {
        let mut levels = [0, 1, 2, 3];
        self.random.shuffle(&mut levels);
        // A crowded level takes its places before the others do.
        levels.sort_by_key(|level| Some(*level) != self.crowded);
        let kept = self.random.below(self.ground.len() / 2 + 1);
        for level in levels {
            let most = [6, 16, 48, 24][level];
            let any = self.random.below(most + 1);
            // Empty levels let tables move, levels just above capacity make tidy choose there.
            let full = if level < LEVELS - 1 { capacity(level) } else { 1 };
            let wanted = match self.crowded {
                Some(crowded) if level == crowded => full + 1,
                Some(_) if level < LEVELS - 1 => any.min(full),
                Some(_) => any,
                None => *self.random.pick(&[0, full, full + 1, any, any]),
            };
            let count = wanted.min(self.ground.len() - kept);
            match level {
                0 => self.plant_level_0(count),
                _ => self.plant_level(level, count),
            }
        }
    }

    fn plant_level_0(&mut self, count: usize) {
        for _ in 0..count {
            let size = 1 + self.random.below(TABLE_ENTRIES);
            let keys = self.keys.draw_set(self.random, size);
            let place = self.plant_table(keys.into_iter().collect());
            self.store.levels[0].push(place);
        }
    }

    /// Cuts a rising row of keys into plots and plants a table in each.
    fn plant_level(&mut self, level: usize, count: usize) {
        // A table that outweighs its links wants many keys.
        let densities: &[usize] = if self.crowded == Some(level) { &[20] } else { &[3, 8, 20] };
        let density = *self.random.pick(densities);
        let points: Vec<Key> =
            self.keys.draw_set(self.random, count * density).into_iter().collect();
        let count = count.min(points.len());
        let mut low = Key::MIN;
        for number in 0..count {
            let part = |number: usize| number * points.len() / count;
            let points = points[part(number)..part(number + 1)].to_vec();
            let last = points[points.len() - 1];
            let high = if number + 1 == count { Key::MAX } else { last };
            let mut own: Vec<Key> = points.clone();
            self.random.shuffle(&mut own);
            own.truncate(1 + self.random.below(TABLE_ENTRIES));
            let place = self.plant_table(own);
            self.store.levels[level].push(place);
            self.plots[level].push(Plot { place, points, low, high });
            low = last + u64::from(last < Key::MAX);
        }
    }

    fn plant_table(&mut self, keys: Vec<Key>) -> usize {
        let place = self.ground.pop().expect("counted before");
        let table: Entries = keys.into_iter().map(|key| (key, self.any_entry())).collect();
        self.store.settle(place, table);
        place
    }

    pub(super) fn any_entry(&mut self) -> Entry {
        if self.random.below(8) < self.marks_in_eight {
            return Entry::DeleteMark;
        }
        Entry::Value(self.lengths.value(self.random))
    }

    /// Frozen tables with links on some tables of one level each.
    fn plant_frozen(&mut self) {
        let tries = self.random.below(2 * self.ground.len() + 1);
        // With links on one level alone, merges there are not held up by merges on others.
        let any: &[usize] = self.random.pick::<&[usize]>(&[&[1, 2, 3], &[1], &[2], &[3]]);
        let crowded = self.crowded;
        let levels = crowded.as_ref().map_or(any, std::slice::from_ref);
        // Where every table of a level has links, tidy merges in place of a choice.
        let cover = crowded.is_some() || self.random.once_in(2);
        let tries = if cover { self.ground.len() } else { tries };
        for _ in 0..tries {
            let level = *self.random.pick(levels);
            if self.ground.is_empty() || self.plots[level].is_empty() {
                continue;
            }
            let place = self.ground[self.ground.len() - 1];
            let mut table = Entries::new();
            let anywhere = self.random.below(self.plots[level].len());
            let bare = self.plots[level].iter().position(|plot| self.is_bare(plot.place));
            if crowded.is_some() && bare.is_none() {
                return;
            }
            let first = if cover { bare.unwrap_or(anywhere) } else { anywhere };
            let hung = 1 + self.random.below(6);
            for number in (first..self.plots[level].len()).take(hung) {
                self.hang(place, level, number, &mut table);
            }
            if !table.is_empty() {
                self.add_unseen(&mut table);
                self.number_links(place, &table);
                self.store.settle_frozen(place, table);
                self.ground.pop();
            }
        }
    }

    fn is_bare(&self, place: usize) -> bool {
        self.store.live(place).1.is_empty()
    }

    /// Hangs a slice, sometimes two, of a frozen table on a table that has room for links.
    fn hang(&mut self, place: usize, level: usize, number: usize, table: &mut Entries) {
        let plot = &self.plots[level][number];
        let (on, region_high) = (plot.place, plot.high);
        let start = *self.random.pick(&plot.points);
        let low = if self.random.once_in(3) { plot.low } else { start };
        let end = *self.random.pick(&plot.points);
        let high = if self.random.once_in(3) { region_high } else { end.max(start) };
        self.add_link(Link { place, low, high, number: 0 }, on, start, table);
        if high < region_high && self.crowded.is_none() && self.random.once_in(3) {
            let rest = Link { place, low: high + 1, high: region_high, number: 0 };
            self.add_link(rest, on, high + 1, table);
        }
    }

    /// Adds a link with at least this key among the entries of its range.
    fn add_link(&mut self, link: Link, on: usize, key: Key, table: &mut Entries) {
        let entry = self.any_entry();
        let more = self.keys.draw_set(self.random, 3);
        let more: Vec<(Key, Entry)> = more.into_iter().map(|key| (key, self.any_entry())).collect();
        let threshold = self.store.threshold;
        if let Place::Live { links, .. } = &mut self.store.places[on] {
            if links.len() == threshold || table.len() + 4 > TABLE_ENTRIES {
                return;
            }
            table.insert(key, entry);
            table.extend(more.into_iter().filter(|(key, _)| link.holds(*key)));
            links.push(link);
        }
    }

    /// Gives the links that name a place their numbers, now that its table is whole.
    fn number_links(&mut self, named: usize, table: &Entries) {
        let links = self.store.places.iter_mut().filter_map(|place| match place {
            Place::Live { links, .. } => Some(links),
            _ => None,
        });
        for link in links.flatten().filter(|link| link.place == named) {
            link.number = table.keys().filter(|key| link.holds(**key)).count();
        }
    }

    /// Entries that may lie in no link's range and are then not part of the store's content.
    fn add_unseen(&mut self, table: &mut Entries) {
        let tries = match self.lengths {
            Lengths::Any => self.random.below(6),
            // Until the table is full, but for keys that come twice.
            Lengths::Longest => 2 * TABLE_ENTRIES,
        };
        for _ in 0..tries {
            if table.len() < TABLE_ENTRIES {
                let key = self.keys.draw(self.random);
                let entry = self.any_entry();
                table.entry(key).or_insert(entry);
            }
        }
    }

    /// Cursor, marks and memory. Marks often stand at, or one below, a table's own least key.
    fn plant_head(&mut self) {
        self.store.cursor = self.random.below(self.store.places.len());
        for level in [1, 2] {
            let table = match self.store.levels[level].as_slice() {
                [] => continue,
                list => self.store.live(*self.random.pick(list)).0,
            };
            let (first, last) = (least(table), greatest(table));
            self.store.marks[level - 1] = match self.random.below(6) {
                0 => None,
                1 => Some(first),
                2 => Some(last),
                3 | 4 => Some(first.saturating_sub(1)),
                _ => Some(self.keys.draw(self.random)),
            };
        }
        let size = self.random.below(TABLE_ENTRIES + 1);
        for key in self.keys.draw_set(self.random, size) {
            let entry = self.any_entry();
            self.store.memory.insert(key, entry);
        }
    }
}
