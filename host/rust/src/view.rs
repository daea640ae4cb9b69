//! What stands where in a store, read from its memory: for pictures and for those who want to see how it works.

use crate::bytes::{pair, take_whole, word};
use crate::memory::{LEVELS, TABLE_BYTES};
use crate::{Key, Memory, Summary};
use zilgwern_sys::{LINK_WORDS, ROW_LINKS, ROW_SUMMARY};

/// An entry of a table; a delete mark has no value.
#[derive(Clone, PartialEq, Eq, Debug)]
pub struct Entry {
    /// Of the entry.
    pub key: Key,
    /// None is a delete mark.
    pub value: Option<Vec<u8>>,
}

/// A link: a frozen place's entries with keys from low to high, both included, belong to the table that has the link.
#[derive(Clone, Copy, PartialEq, Eq, Debug)]
pub struct Link {
    /// The frozen place.
    pub place: usize,
    /// The first key of the range.
    pub low: Key,
    /// The last key of the range.
    pub high: Key,
    /// How many of the frozen place's entries the range has, delete marks and entries that a newer one hides included.
    pub number: usize,
}

impl Link {
    /// Whether the range has this key.
    pub fn holds(&self, key: Key) -> bool {
        (self.low..=self.high).contains(&key)
    }
}

/// A live or frozen table.
#[derive(Clone, PartialEq, Eq, Debug)]
pub struct Table {
    /// Where it stands.
    pub place: usize,
    /// One to sixteen, keys rising.
    pub entries: Vec<Entry>,
    /// Oldest first; a frozen table has none.
    pub links: Vec<Link>,
    /// On its card: the bits of its own keys.
    pub summary: Summary,
}

impl Table {
    /// From the least to the greatest of the table's own keys and its links' range ends.
    pub fn span(&self) -> (Key, Key) {
        let own = self.entries.iter().map(|entry| entry.key);
        let ends = own.chain(self.links.iter().flat_map(|link| [link.low, link.high]));
        let (low, high) = (ends.clone().min(), ends.max());
        (low.unwrap_or(Key::LEAST), high.unwrap_or(Key::GREATEST))
    }

    /// Whether the span holds this key.
    pub fn spans(&self, key: Key) -> bool {
        (self.span().0..=self.span().1).contains(&key)
    }

    /// The entries that its links hold, all together.
    pub fn weight(&self) -> usize {
        self.links.iter().map(|link| link.number).sum()
    }
}

/// A store, spread out.
///
/// ```
/// use zilgwern::{Key, Store};
///
/// let mut store = Store::owned(16, 4)?;
/// store.put(5, b"A")?;
/// store.put(9, b"B")?;
/// store.flush()?;
/// store.delete(9)?;
/// let view = store.view();
/// assert_eq!(view.levels[0][0].span(), (Key(5), Key(9)));
/// assert_eq!((view.places, view.threshold, view.cursor), (16, 4, 1));
/// assert_eq!(view.memory[0].value, None);
/// # Ok::<(), zilgwern::Error>(())
/// ```
#[derive(Clone, PartialEq, Eq, Debug)]
pub struct View {
    /// The number of places.
    pub places: usize,
    /// So many links make a merge due; so do fewer that weigh as much as their table.
    pub threshold: u64,
    /// The place from which the next free one is looked for.
    pub cursor: usize,
    /// Of levels 1 and 2: the key behind which a tidy goes on choosing.
    pub marks: [Option<Key>; 2],
    /// Level 0 oldest first, the others by key.
    pub levels: [Vec<Table>; LEVELS],
    /// By place.
    pub frozen: Vec<Table>,
    /// The memory table's, keys rising.
    pub memory: Vec<Entry>,
}

impl View {
    /// Reads a sound store's memory.
    pub(crate) fn of(memory: &Memory) -> View {
        let places = memory.cards.len();
        let mark = |at: usize| (memory.head[at] == 1).then_some(Key(memory.head[at + 1]));
        let level = |level: usize| {
            let items = memory.lists[level * places..].iter().take(memory.head[6 + level] as usize);
            items.map(|place| table(memory, usize::from(*place))).collect()
        };
        let frozen = (0..places).filter(|place| memory.cards[*place][0] == 2);
        View {
            places,
            threshold: memory.head[0],
            cursor: memory.head[1] as usize,
            marks: [mark(2), mark(4)],
            levels: std::array::from_fn(level),
            frozen: frozen.map(|place| table(memory, place)).collect(),
            memory: entries(&memory.memory),
        }
    }

    /// The places that no table stands in.
    pub fn free(&self) -> usize {
        self.places - self.frozen.len() - self.levels.iter().map(Vec::len).sum::<usize>()
    }

    /// Whether a merge of this table is due: it has as many links as the threshold says, or they weigh as many entries as it has
    /// itself, or more.
    pub fn is_due(&self, table: &Table) -> bool {
        table.links.len() as u64 >= self.threshold || table.weight() >= table.entries.len()
    }

    /// The frozen table in a place.
    pub(crate) fn frozen_at(&self, place: usize) -> Option<&Table> {
        let found = self.frozen.binary_search_by_key(&place, |table| table.place);
        found.ok().map(|at| &self.frozen[at])
    }

    /// The entries of a frozen table that a link holds.
    pub fn slice(&self, link: &Link) -> &[Entry] {
        let entries = self.frozen_at(link.place).map_or(&[][..], |table| &table.entries);
        let from = entries.partition_point(|entry| entry.key < link.low);
        let until = entries.partition_point(|entry| entry.key <= link.high);
        &entries[from..until.max(from)]
    }

    /// How many delete marks wait on a level: in its tables, and in the slices that its links hold.
    pub fn delete_marks(&self, level: usize) -> usize {
        let waiting = |table: &Table| {
            let slices = table.links.iter().flat_map(|link| self.slice(link));
            slices.chain(&table.entries).filter(|entry| entry.value.is_none()).count()
        };
        self.levels[level].iter().map(waiting).sum()
    }

    /// Whether a merge on a level would drop a delete mark under this key: no table on a level of greater number has a span that
    /// holds it.
    ///
    /// ```
    /// use zilgwern::{Key, Store};
    ///
    /// let mut store = Store::owned(16, 4)?;
    /// store.put(5, b"A")?;
    /// store.flush()?;
    /// store.delete(5)?;
    /// store.flush()?;
    /// // On level 3, and wherever nothing lies below, every mark goes.
    /// assert!(store.view().drops_mark(1, Key(5)));
    /// assert_eq!(store.view().delete_marks(0), 1);
    /// # Ok::<(), zilgwern::Error>(())
    /// ```
    pub fn drops_mark(&self, level: usize, key: Key) -> bool {
        let mut lower = self.levels[level + 1..].iter().flatten();
        !lower.any(|table| table.spans(key))
    }

    /// The level and the place of each table with a link to this place.
    pub fn linked_from(&self, place: usize) -> Vec<(usize, usize)> {
        let levels = self.levels.iter().enumerate();
        let tables = levels.flat_map(|(level, tables)| tables.iter().map(move |on| (level, on)));
        tables
            .filter(|(_, on)| on.links.iter().any(|link| link.place == place))
            .map(|(level, on)| (level, on.place))
            .collect()
    }
}

fn table(memory: &Memory, place: usize) -> Table {
    let card = &memory.cards[place];
    let link = |at: &[u64]| Link {
        place: at[0] as usize,
        low: Key(at[1]),
        high: Key(at[2]),
        number: at[3] as usize,
    };
    Table {
        place,
        entries: entries(&memory.area[place * TABLE_BYTES..][..TABLE_BYTES]),
        links: card[ROW_LINKS..ROW_SUMMARY]
            .chunks_exact(LINK_WORDS)
            .take(card[1] as usize)
            .map(link)
            .collect(),
        summary: Summary::of_row(card),
    }
}

/// The entries in the bytes of a table.
pub(crate) fn entries(table: &[u8]) -> Vec<Entry> {
    let mut rest = table.get(8..usize::from(pair(table, 0))).unwrap_or(&[]);
    let next = || take_whole(&mut rest, 12);
    let entry = |entry: &[u8]| Entry {
        key: Key(word(entry, 4)),
        value: (pair(entry, 2) == 1).then(|| entry[12..].to_vec()),
    };
    std::iter::from_fn(next).map(entry).collect()
}
