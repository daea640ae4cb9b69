//! The book as bytes (note 4): what saving writes, and which bytes are of that form. Kept apart from `store`, since bytes of this
//! form may well stand for a store that is not sound.

use crate::lent::*;
use crate::limits::{CARD_LINKS, LEVELS, PLACES, PLACE_BYTES, TABLE_ENTRIES};
use crate::slip::Slip;
use crate::store::{Place, Store};
use crate::summary::summary_of;
use crate::table::{push_entry, put_table, read_entry, read_table, Key};

/// The kind of a saved book.
pub const BOOK_KIND: u16 = 48;

/// Bytes of the length of the whole, which comes first.
pub const LENGTH_BYTES: usize = 4;

/// Bytes before the first card.
pub const FRONT_BYTES: usize = LENGTH_BYTES + 4 * 2 + 2 * (2 + 8);

/// Bytes of a card without links, and of a link.
pub const CARD_BYTES: usize = 4;
pub const LINK_BYTES: usize = 2 + 8 + 8 + 2;

/// Bytes of a saved book of so many places that has no links, tables or memory entries: no book of as many is shorter.
pub fn least_bytes(places: usize) -> usize {
    FRONT_BYTES + places * CARD_BYTES + 2 * LEVELS + 2
}

/// Bytes that are of the form, taken apart.
#[derive(Clone, PartialEq, Eq, Debug)]
pub struct Form<'a> {
    threshold: u16,
    cursor: u16,
    marks: [Option<Key>; 2],
    /// One row for each saved place.
    cards: Vec<Row>,
    lists: [Vec<u16>; LEVELS],
    /// The memory entries, each as its bytes; nothing is said of their keys.
    memory: Vec<&'a [u8]>,
}

/// What comes next in some bytes; none where they end too early.
struct Reader<'a> {
    rest: &'a [u8],
}

impl<'a> Reader<'a> {
    fn take(&mut self, count: usize) -> Option<&'a [u8]> {
        let (front, rest) = self.rest.split_at_checked(count)?;
        self.rest = rest;
        Some(front)
    }

    fn number(&mut self) -> Option<u16> {
        Some(u16::from_le_bytes(self.take(2)?.try_into().ok()?))
    }

    fn key(&mut self) -> Option<Key> {
        Some(u64::from_le_bytes(self.take(8)?.try_into().ok()?))
    }

    /// A number that is at most this.
    fn at_most(&mut self, most: usize) -> Option<usize> {
        self.number().map(usize::from).filter(|number| *number <= most)
    }

    fn mark(&mut self) -> Option<Option<Key>> {
        match (self.number()?, self.key()?) {
            (0, 0) => Some(None),
            (1, key) => Some(Some(key)),
            _ => None,
        }
    }

    fn card(&mut self) -> Option<Row> {
        let mut row = ROW_FREE;
        row[ROW_STATE] = self.at_most(STATE_FROZEN as usize)? as u64;
        let count = self.at_most(CARD_LINKS)?;
        row[ROW_COUNT] = count as u64;
        for words in row[ROW_LINKS..ROW_SUMMARY].chunks_mut(LINK_WORDS).take(count) {
            words[LINK_PLACE] = u64::from(self.number()?);
            words[LINK_LOW] = self.key()?;
            words[LINK_HIGH] = self.key()?;
            words[LINK_NUMBER] = u64::from(self.number()?);
        }
        Some(row)
    }

    fn list(&mut self, most: usize) -> Option<Vec<u16>> {
        (0..self.at_most(most)?).map(|_| self.number()).collect()
    }

    fn entry(&mut self) -> Option<&'a [u8]> {
        let (size, _, _) = read_entry(self.rest)?;
        self.take(size)
    }

    fn memory(&mut self) -> Option<Vec<&'a [u8]>> {
        (0..self.at_most(TABLE_ENTRIES)?).map(|_| self.entry()).collect()
    }
}

impl<'a> Form<'a> {
    /// Takes bytes apart, or none if they are not of the form (21).
    pub fn read(bytes: &'a [u8], slip: Option<Slip>) -> Option<Form<'a>> {
        let mut reader = Reader { rest: bytes };
        let length = u32::from_le_bytes(reader.take(LENGTH_BYTES)?.try_into().ok()?);
        if length as usize != bytes.len() || reader.number()? != BOOK_KIND {
            return None;
        }
        let places = usize::from(reader.number()?);
        if !PLACES.contains(&places) {
            return None;
        }
        let most_listed =
            if slip == Some(Slip::SavedListCountAnyPlaces) { *PLACES.end() } else { places };
        let form = Form {
            threshold: reader.number()?,
            cursor: reader.number()?,
            marks: [reader.mark()?, reader.mark()?],
            cards: (0..places).map(|_| reader.card()).collect::<Option<_>>()?,
            lists: [
                reader.list(most_listed)?,
                reader.list(most_listed)?,
                reader.list(most_listed)?,
                reader.list(most_listed)?,
            ],
            memory: reader.memory()?,
        };
        reader.rest.is_empty().then_some(form)
    }

    /// How many places were saved.
    pub fn places(&self) -> usize {
        self.cards.len()
    }

    /// The store as opened over an area of at least as many places; the added ones are free. The bytes hold no summaries: they
    /// are worked out from the area.
    pub fn over(&self, area: Vec<u8>, slip: Option<Slip>) -> Lent {
        let places = area.len() / PLACE_BYTES;
        let mut lent = Lent { area, ..Lent::zeroed(0) };
        lent.cards = self.cards.clone();
        lent.cards.resize(places, ROW_FREE);
        work_out_bits(&mut lent, slip);
        lent.lists = vec![0; LEVELS * places];
        lent.head[HEAD_THRESHOLD] = u64::from(self.threshold);
        lent.head[HEAD_CURSOR] = match slip {
            Some(Slip::CursorToAddedPlaces) if places > self.places() => self.places() as u64,
            _ => u64::from(self.cursor),
        };
        for (number, mark) in self.marks.iter().enumerate() {
            let flag = HEAD_MARKS + 2 * number;
            lent.head[flag] = u64::from(mark.is_some());
            lent.head[flag + 1] = mark.unwrap_or(0);
        }
        for (level, list) in self.lists.iter().enumerate() {
            lent.head[HEAD_LENGTHS + level] = list.len() as u64;
            let own = &mut lent.lists[level * places..][..places];
            own.iter_mut().zip(list).for_each(|(item, place)| *item = *place);
        }
        lent.memory = put_table(&self.memory);
        lent
    }
}

/// Gives each live or frozen card the summary of the table in its place; where that holds none, the card keeps no bits.
fn work_out_bits(lent: &mut Lent, slip: Option<Slip>) {
    if slip == Some(Slip::OpenLeavesBitsOut) {
        return;
    }
    for place in 0..lent.cards.len() {
        let in_use = lent.cards[place][ROW_STATE] != STATE_FREE;
        if in_use || slip == Some(Slip::OpenGivesFreeCardsBits) {
            let shown = read_table(lent.place(place), 1).unwrap_or_default();
            let summary = summary_of(shown.iter().map(|(key, _)| *key));
            put_summary(&mut lent.cards[place], &summary);
        }
    }
}

/// Writes numbers one behind the other.
#[derive(Default)]
struct Writer {
    bytes: Vec<u8>,
}

impl Writer {
    fn number(&mut self, number: usize) {
        let number = u16::try_from(number).expect("the numbers of a sound book fit two bytes");
        self.bytes.extend(number.to_le_bytes());
    }

    fn key(&mut self, key: Key) {
        self.bytes.extend(key.to_le_bytes());
    }
}

impl Store {
    /// The bytes that stand for this store's book.
    pub fn book_bytes(&self) -> Vec<u8> {
        let mut out = Writer { bytes: vec![0; LENGTH_BYTES] };
        out.number(usize::from(BOOK_KIND));
        out.number(self.places.len());
        out.number(self.threshold);
        out.number(self.cursor);
        for mark in self.marks {
            out.number(usize::from(mark.is_some()));
            out.key(mark.unwrap_or(0));
        }
        for place in &self.places {
            let (state, links) = match place {
                Place::Free => (STATE_FREE, &[][..]),
                Place::Live { links, .. } => (STATE_LIVE, &links[..]),
                Place::Frozen { .. } => (STATE_FROZEN, &[][..]),
            };
            out.number(state as usize);
            out.number(links.len());
            for link in links {
                out.number(link.place);
                out.key(link.low);
                out.key(link.high);
                out.number(link.number);
            }
        }
        for list in &self.levels {
            out.number(list.len());
            list.iter().for_each(|place| out.number(*place));
        }
        out.number(self.memory.len());
        for (key, entry) in &self.memory {
            push_entry(&mut out.bytes, *key, entry.value());
        }
        let length = out.bytes.len() as u32;
        out.bytes[..LENGTH_BYTES].copy_from_slice(&length.to_le_bytes());
        out.bytes
    }
}
