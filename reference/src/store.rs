//! The decoded store, and its way from and to lent memory.

use crate::lent::*;
use crate::limits::{LEVELS, PLACE_BYTES};
use crate::rules::{check_with_slip, Verdict};
use crate::slip::Slip;
use crate::summary::{summary_of_table, Summary, NO_BITS};
use crate::table::{greatest, least, owned, read_table, table_bytes, Entries, Key};

/// A slice link: a frozen place, a key range, both ends included, and the number of the place's entries in it.
#[derive(Clone, PartialEq, Eq, Debug)]
pub struct Link {
    pub place: usize,
    pub low: Key,
    pub high: Key,
    pub number: usize,
}

impl Link {
    pub fn holds(&self, key: Key) -> bool {
        (self.low..=self.high).contains(&key)
    }
}

/// A place with its card and its table.
#[derive(Clone, PartialEq, Eq, Debug)]
pub enum Place {
    Free,
    Live { table: Entries, links: Vec<Link> },
    Frozen { table: Entries },
}

/// A sound store, decoded. The area is carried along, because free places keep their bytes.
#[derive(Clone, PartialEq, Eq, Debug)]
pub struct Store {
    pub threshold: usize,
    pub cursor: usize,
    /// Marks of levels 1 and 2.
    pub marks: [Option<Key>; 2],
    /// Places of the live tables: level 0 oldest first, levels 1 to 3 by key.
    pub levels: [Vec<usize>; LEVELS],
    pub memory: Entries,
    pub places: Vec<Place>,
    /// The summary on each place's card; what stands here for a free place is not on its card.
    pub summaries: Vec<Summary>,
    pub area: Vec<u8>,
    /// The planted mistake, if this store is a mutant.
    pub slip: Option<Slip>,
}

impl Store {
    /// Decodes lent memory if it is a sound store.
    pub fn decode(lent: &Lent) -> Result<Store, Verdict> {
        Store::decode_with_slip(lent, None)
    }

    /// The same as a mutant does it.
    pub fn decode_with_slip(lent: &Lent, slip: Option<Slip>) -> Result<Store, Verdict> {
        let verdict = check_with_slip(lent, slip);
        if verdict.number != 0 {
            return Err(verdict);
        }
        let count = lent.cards.len();
        let mark = |level: usize| {
            let flag = HEAD_MARKS + 2 * (level - 1);
            (lent.head[flag] == 1).then_some(lent.head[flag + 1])
        };
        let list = |level: usize| {
            let length = lent.head[HEAD_LENGTHS + level] as usize;
            let items = &lent.lists[level * count..][..length];
            items.iter().map(|item| usize::from(*item)).collect()
        };
        Ok(Store {
            threshold: lent.head[HEAD_THRESHOLD] as usize,
            cursor: lent.head[HEAD_CURSOR] as usize,
            marks: [mark(1), mark(2)],
            levels: [list(0), list(1), list(2), list(3)],
            memory: read(&lent.memory, 0),
            places: (0..count).map(|place| decode_place(lent, place)).collect(),
            summaries: (0..count).map(|place| lent.summary(place)).collect(),
            area: lent.area.clone(),
            slip,
        })
    }

    /// All the lent memory that this store stands for.
    pub fn encode(self) -> Lent {
        let count = self.places.len();
        let cards = (0..count).map(|place| self.encode_card(place)).collect();
        let mut lent =
            Lent { area: self.area, cards, memory: table_bytes(&self.memory), ..Lent::zeroed(0) };
        lent.lists = vec![0; LEVELS * count];
        lent.head[HEAD_THRESHOLD] = self.threshold as u64;
        lent.head[HEAD_CURSOR] = self.cursor as u64;
        for (number, mark) in self.marks.iter().enumerate() {
            let flag = HEAD_MARKS + 2 * number;
            lent.head[flag] = u64::from(mark.is_some());
            lent.head[flag + 1] = mark.unwrap_or(0);
        }
        for (level, list) in self.levels.iter().enumerate() {
            lent.head[HEAD_LENGTHS + level] = list.len() as u64;
            for (item, place) in lent.lists[level * count..].iter_mut().zip(list) {
                *item = *place as u16;
            }
        }
        lent
    }

    /// The card of a place. A free one has no bits.
    fn encode_card(&self, place: usize) -> Row {
        let mut row = ROW_FREE;
        row[ROW_STATE] = match &self.places[place] {
            Place::Free => STATE_FREE,
            Place::Frozen { .. } => STATE_FROZEN,
            Place::Live { .. } => STATE_LIVE,
        };
        if row[ROW_STATE] != STATE_FREE || self.slips(Slip::BitsLeftOnFreedCard) {
            put_summary(&mut row, &self.summaries[place]);
        }
        if let Place::Live { links, .. } = &self.places[place] {
            row[ROW_COUNT] = links.len() as u64;
            for (words, link) in row[ROW_LINKS..ROW_SUMMARY].chunks_mut(LINK_WORDS).zip(links) {
                words[LINK_PLACE] = link.place as u64;
                words[LINK_LOW] = link.low;
                words[LINK_HIGH] = link.high;
                words[LINK_NUMBER] = link.number as u64;
            }
        }
        row
    }

    /// Whether this store has the given slip planted.
    pub fn slips(&self, slip: Slip) -> bool {
        self.slip == Some(slip)
    }

    /// The mark of level 1 or 2; the other levels have none.
    pub fn mark(&self, level: usize) -> Option<Key> {
        self.marks[self.mark_number(level)]
    }

    pub fn set_mark(&mut self, level: usize, key: Key) {
        self.marks[self.mark_number(level)] = Some(key);
    }

    fn mark_number(&self, level: usize) -> usize {
        if self.slips(Slip::OneMarkForBothLevels) {
            return 0;
        }
        level - 1
    }

    /// Table and links of a listed place.
    pub fn live(&self, place: usize) -> (&Entries, &[Link]) {
        match &self.places[place] {
            Place::Live { table, links } => (table, links),
            _ => unreachable!("rule B: a list names live places"),
        }
    }

    /// The table of a place that a link names.
    pub fn frozen(&self, place: usize) -> &Entries {
        match &self.places[place] {
            Place::Frozen { table } => table,
            _ => unreachable!("rule F: a link names frozen places"),
        }
    }

    /// The table of a place that a list or a link names.
    pub fn table(&self, place: usize) -> &Entries {
        match &self.places[place] {
            Place::Live { table, .. } | Place::Frozen { table } => table,
            Place::Free => unreachable!("rules B and F: what is named holds a table"),
        }
    }

    /// From the least to the greatest of a table's own keys and its links' range ends.
    pub fn span(&self, place: usize) -> (Key, Key) {
        let (table, links) = self.live(place);
        let low = links.iter().map(|link| link.low).min();
        let high = links.iter().map(|link| link.high).max();
        let (first, last) = (least(table), greatest(table));
        (low.map_or(first, |low| low.min(first)), high.map_or(last, |high| high.max(last)))
    }

    /// Writes a table's bytes to a place.
    pub fn write_bytes(&mut self, place: usize, table: &Entries) {
        self.area[place * PLACE_BYTES..][..PLACE_BYTES].copy_from_slice(&table_bytes(table));
    }

    /// Writes a table's bytes to a place, and its bits to the card.
    pub fn write_with_bits(&mut self, place: usize, table: &Entries) {
        self.write_bytes(place, table);
        self.summaries[place] = summary_of_table(table, self.slip);
    }

    /// Makes a place hold a live table without links.
    pub fn settle(&mut self, place: usize, table: Entries) {
        self.write_with_bits(place, &table);
        self.places[place] = Place::Live { table, links: Vec::new() };
    }

    /// Makes a place hold a frozen table, which links name already or will.
    pub fn settle_frozen(&mut self, place: usize, table: Entries) {
        self.write_with_bits(place, &table);
        self.places[place] = Place::Frozen { table };
    }

    /// How many places are free.
    pub fn free(&self) -> usize {
        self.places.iter().filter(|place| **place == Place::Free).count()
    }
}

/// The entries of a place of a sound store.
fn read(bytes: &[u8], fewest: usize) -> Entries {
    owned(&read_table(bytes, fewest).expect("rules C and D"))
}

fn decode_place(lent: &Lent, place: usize) -> Place {
    match lent.cards[place][ROW_STATE] {
        STATE_LIVE => Place::Live {
            table: read(lent.place(place), 1),
            links: lent.links(place).map(decode_link).collect(),
        },
        STATE_FROZEN => Place::Frozen { table: read(lent.place(place), 1) },
        _ => Place::Free,
    }
}

fn decode_link(words: &[u64]) -> Link {
    Link {
        place: words[LINK_PLACE] as usize,
        low: words[LINK_LOW],
        high: words[LINK_HIGH],
        number: words[LINK_NUMBER] as usize,
    }
}

/// A new store over an area whose bytes stay as found.
pub fn new_store(area: Vec<u8>, threshold: usize) -> Store {
    Store {
        threshold,
        cursor: 0,
        marks: [None, None],
        levels: Default::default(),
        memory: Entries::new(),
        places: vec![Place::Free; area.len() / PLACE_BYTES],
        summaries: vec![NO_BITS; area.len() / PLACE_BYTES],
        area,
        slip: None,
    }
}
