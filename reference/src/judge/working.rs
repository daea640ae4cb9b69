//! The slice list of demand 3, and the working of the order's rules that feeds it. It reads
//! requests alone, never the cards or the area of the store that was run.

use super::LatestWrites;
use crate::lent::{Lent, Row as Card, LINK_WORDS, ROW_LINKS};
use crate::limits::{ENTRY_HEAD, PLACE_BYTES, TABLE_ENTRIES, VALUE_BYTES};
use std::collections::{BTreeMap, BTreeSet};

/// A key with its value; none for a delete mark.
pub type Row = (u64, Option<Vec<u8>>);

/// Keys rising.
pub type Rows = Vec<Row>;

/// One item of the slice list: a frozen place, a range, and the place that the slice hangs on.
#[derive(Clone, PartialEq, Eq, Debug)]
pub struct Slice {
    pub frozen: usize,
    pub low: u64,
    pub high: u64,
    pub on: usize,
}

/// What the rules give for the requests so far. Links are kept in the slice list alone.
#[derive(Clone)]
pub struct Working {
    pub(super) threshold: usize,
    pub(super) cursor: usize,
    /// Mark by level.
    pub(super) marks: BTreeMap<usize, u64>,
    pub(super) memory: Rows,
    pub(super) levels: Vec<Vec<usize>>,
    /// Contents by place, live or frozen; none if free.
    pub(super) tables: Vec<Option<Rows>>,
    /// In the order in which the links were made.
    pub(super) slices: Vec<Slice>,
    /// What each frozen place held when it was linked.
    pub(super) kept: BTreeMap<usize, Vec<u8>>,
    /// What the latest request met, for counting; see `met`.
    pub(super) met: Vec<&'static str>,
}

impl Working {
    pub fn of_new_store(places: usize, threshold: usize) -> Working {
        Working {
            threshold,
            cursor: 0,
            marks: BTreeMap::new(),
            memory: Rows::new(),
            levels: vec![Vec::new(); 4],
            tables: vec![None; places],
            slices: Vec::new(),
            kept: BTreeMap::new(),
            met: Vec::new(),
        }
    }

    /// Adds free places behind the others; all else is kept.
    pub(super) fn grow(&mut self, places: usize) {
        assert!(places >= self.tables.len(), "no place goes at an opening");
        self.tables.resize(places, None);
    }

    /// Inserts or replaces a memory entry; false if there is none to replace and no room for one.
    pub(super) fn write(&mut self, key: u64, value: Option<&[u8]>) -> bool {
        let value = value.map(<[u8]>::to_vec);
        match self.memory.binary_search_by_key(&key, |row| row.0) {
            Ok(found) => self.memory[found].1 = value,
            Err(gap) if self.memory.len() < TABLE_ENTRIES => self.memory.insert(gap, (key, value)),
            Err(_) => return false,
        }
        true
    }

    pub(super) fn free(&self) -> usize {
        self.tables.iter().filter(|table| table.is_none()).count()
    }

    /// Puts rows into the first free place from the cursor on, going round.
    pub(super) fn settle(&mut self, rows: Rows) -> usize {
        let places = self.tables.len();
        let mut place = self.cursor;
        while self.tables[place].is_some() {
            place = (place + 1) % places;
        }
        self.tables[place] = Some(rows);
        self.cursor = (place + 1) % places;
        place
    }

    pub(super) fn rows(&self, place: usize) -> &Rows {
        self.tables[place].as_ref().expect("the working names tables only")
    }

    /// Slices by the place that they hang on, oldest first.
    pub(super) fn hanging(&self) -> BTreeMap<usize, Vec<&Slice>> {
        let mut hanging: BTreeMap<usize, Vec<&Slice>> = BTreeMap::new();
        for slice in &self.slices {
            hanging.entry(slice.on).or_default().push(slice);
        }
        hanging
    }

    /// Whether the body's length fits the kind, which is one of the eight.
    pub(super) fn well_formed(kind: u16, body: &[u8]) -> bool {
        match kind {
            1 => (8..=8 + VALUE_BYTES).contains(&body.len()),
            2 | 3 | 8 => body.len() == 8,
            4 => body.len() == 16,
            _ => body.is_empty(),
        }
    }

    /// The map that a store shows at the beginning of its history: oldest first, newer over it.
    pub fn latest_writes(&self) -> LatestWrites {
        let mut latest = LatestWrites::default();
        let hanging = self.hanging();
        for level in (1..4).rev() {
            for place in &self.levels[level] {
                apply(&mut latest, self.rows(*place), 0, u64::MAX);
                for slice in hanging.get(place).into_iter().flatten() {
                    apply(&mut latest, self.rows(slice.frozen), slice.low, slice.high);
                }
            }
        }
        for place in &self.levels[0] {
            apply(&mut latest, self.rows(*place), 0, u64::MAX);
        }
        apply(&mut latest, &self.memory, 0, u64::MAX);
        latest
    }

    /// Compares cards and frozen bytes of the store that was run with the slice list.
    pub fn compare(&self, after: &Lent) -> Result<(), String> {
        let frozen: BTreeSet<usize> = self.slices.iter().map(|slice| slice.frozen).collect();
        let hanging = self.hanging();
        if after.cards.len() != self.tables.len() {
            return Err("the number of cards changed".into());
        }
        for (place, card) in after.cards.iter().enumerate() {
            if (card[0] == 2) != frozen.contains(&place) {
                return Err(format!(
                    "place {place}: state {}, the slice list says otherwise",
                    card[0]
                ));
            }
            let slices = hanging.get(&place).map_or(&[][..], |slices| slices);
            if slices.len() > self.threshold || card[1] > self.threshold as u64 {
                return Err(format!("place {place}: more links than the threshold"));
            }
            if links_of(card) != self.words_of(slices) {
                return Err(format!(
                    "place {place}: links {:?}, slices {slices:?}",
                    links_of(card)
                ));
            }
        }
        for place in frozen {
            if after.place(place) != self.kept[&place] {
                return Err(format!("place {place}: not the bytes that were linked"));
            }
        }
        Ok(())
    }

    /// Slices as the words of links: frozen place, range, and how many entries the place held in it when it was linked.
    fn words_of(&self, slices: &[&Slice]) -> Vec<LinkWords> {
        let words = |slice: &&Slice| {
            let number = self.sliced(slice).count();
            [slice.frozen as u64, slice.low, slice.high, number as u64]
        };
        slices.iter().map(words).collect()
    }
}

/// A link on a card: place, low, high and number.
pub(super) type LinkWords = [u64; LINK_WORDS];

/// The links in use of a card, which follow its state and their count.
pub(super) fn links_of(card: &Card) -> Vec<LinkWords> {
    let words = card[ROW_LINKS..].chunks_exact(LINK_WORDS).take(card[1].min(8) as usize);
    words.map(|link| link.try_into().expect("the words of a link")).collect()
}

fn apply(latest: &mut LatestWrites, rows: &Rows, low: u64, high: u64) {
    for (key, value) in rows.iter().filter(|row| low <= row.0 && row.0 <= high) {
        match value {
            Some(value) => latest.set(*key, value),
            None => latest.take(*key),
        };
    }
}

/// The bytes of a place that holds these rows.
pub(super) fn bytes_of(rows: &Rows) -> Vec<u8> {
    let mut bytes = vec![0, 0, 32, 0, rows.len() as u8, 0, 0, 0];
    for (key, value) in rows {
        let kind: u16 = if value.is_some() { 1 } else { 2 };
        let value = value.as_deref().unwrap_or_default();
        bytes.extend(((ENTRY_HEAD + value.len()) as u16).to_le_bytes());
        bytes.extend(kind.to_le_bytes());
        bytes.extend(key.to_le_bytes());
        bytes.extend(value);
    }
    let length = bytes.len() as u16;
    bytes[..2].copy_from_slice(&length.to_le_bytes());
    bytes.resize(PLACE_BYTES, 0);
    bytes
}
