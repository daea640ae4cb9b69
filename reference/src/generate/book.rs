//! A saved book taken apart, field by field, so that any field can be made wrong. Written apart from `saved`: over the words of
//! the lent memory, and with what opening makes of them. So each of the two is checked by the other.

use crate::lent::*;
use crate::limits::{CARD_LINKS, ENTRY_BYTES, LEVELS, PLACE_BYTES, TABLE_ENTRIES};
use crate::summary::summary_of;
use crate::table::{read_table, Key};

/// Things after their count, which may be a wrong one.
#[derive(Clone, PartialEq, Eq, Debug, Default)]
pub struct Counted<T> {
    pub count: u16,
    pub items: Vec<T>,
}

impl<T> Counted<T> {
    fn of(items: Vec<T>) -> Counted<T> {
        Counted { count: items.len() as u16, items }
    }

    /// Adds one and counts it.
    pub fn push(&mut self, item: T) {
        self.items.push(item);
        self.count += 1;
    }
}

/// Place, low, high and number.
pub type BookLink = (u16, Key, Key, u16);

/// State and links of a card.
#[derive(Clone, PartialEq, Eq, Debug, Default)]
pub struct Card {
    pub state: u16,
    pub links: Counted<BookLink>,
}

/// All fields of a saved book in their order.
#[derive(Clone, PartialEq, Eq, Debug)]
pub struct Book {
    /// Added to the length of the whole, without carry beyond four bytes.
    pub longer: u32,
    pub kind: u16,
    pub places: u16,
    pub threshold: u16,
    pub cursor: u16,
    /// Flag and key.
    pub marks: [(u16, Key); 2],
    pub cards: Vec<Card>,
    pub lists: [Counted<u16>; LEVELS],
    /// Entries as their bytes.
    pub memory: Counted<Vec<u8>>,
    /// Bytes behind the last entry.
    pub behind: Vec<u8>,
}

/// The most bytes that the saved book of a sound store of so many places has: eight links on every card, every place listed once,
/// sixteen of the longest entries.
pub fn longest_bytes(places: usize) -> usize {
    32 + places * (4 + 20 * CARD_LINKS) + 2 * LEVELS + 2 * places + 2 + TABLE_ENTRIES * ENTRY_BYTES
}

fn narrow(word: u64) -> Option<u16> {
    u16::try_from(word).ok()
}

impl Book {
    /// The book of lent memory of fitting sizes, sound or not; none where a word has no place in the form. What stands beyond
    /// counts and lengths is left out.
    pub fn of(lent: &Lent) -> Option<Book> {
        let mark = |at: usize| match lent.head[at..at + 2] {
            [0, 0] => Some((0, 0)),
            [1, key] => Some((1, key)),
            _ => None,
        };
        let list = |level: usize| {
            let length = lent.head[HEAD_LENGTHS + level];
            (length <= lent.cards.len() as u64).then(|| Counted::of(lent.list(level).to_vec()))
        };
        Some(Book {
            longer: 0,
            kind: 48,
            places: lent.cards.len() as u16,
            threshold: narrow(lent.head[HEAD_THRESHOLD])?,
            cursor: narrow(lent.head[HEAD_CURSOR])?,
            marks: [mark(HEAD_MARKS)?, mark(HEAD_MARKS + 2)?],
            cards: (0..lent.cards.len()).map(|place| card(lent, place)).collect::<Option<_>>()?,
            lists: [list(0)?, list(1)?, list(2)?, list(3)?],
            memory: Counted::of(entries(&lent.memory)?),
            behind: Vec::new(),
        })
    }

    /// The book of a sound store, which always has one.
    pub fn of_sound(lent: &Lent) -> Book {
        Book::of(lent).expect("the words of a sound store fit")
    }

    pub fn bytes(&self) -> Vec<u8> {
        let mut bytes = vec![0; 4];
        let pair = |bytes: &mut Vec<u8>, number: u16| bytes.extend(number.to_le_bytes());
        [self.kind, self.places, self.threshold, self.cursor]
            .into_iter()
            .for_each(|number| pair(&mut bytes, number));
        for (flag, key) in self.marks {
            pair(&mut bytes, flag);
            bytes.extend(key.to_le_bytes());
        }
        for card in &self.cards {
            pair(&mut bytes, card.state);
            pair(&mut bytes, card.links.count);
            for (place, low, high, number) in &card.links.items {
                pair(&mut bytes, *place);
                bytes.extend(low.to_le_bytes());
                bytes.extend(high.to_le_bytes());
                pair(&mut bytes, *number);
            }
        }
        for list in &self.lists {
            pair(&mut bytes, list.count);
            list.items.iter().for_each(|item| pair(&mut bytes, *item));
        }
        pair(&mut bytes, self.memory.count);
        bytes.extend(self.memory.items.concat());
        bytes.extend(&self.behind);
        let length = (bytes.len() as u32).wrapping_add(self.longer);
        bytes[..4].copy_from_slice(&length.to_le_bytes());
        bytes
    }

    /// The store as opened over an area of at least as many places, which may well not be sound; none of the fields is wrong in
    /// itself. The bits of live and frozen cards are those of the tables in the area.
    pub fn opened(&self, area: &[u8]) -> Lent {
        let places = area.len() / PLACE_BYTES;
        let mut lent = Lent::zeroed(places);
        lent.area.copy_from_slice(area);
        let [(flag_1, key_1), (flag_2, key_2)] = self.marks;
        let (threshold, cursor) = (self.threshold.into(), self.cursor.into());
        lent.head[..6].copy_from_slice(&[
            threshold,
            cursor,
            flag_1.into(),
            key_1,
            flag_2.into(),
            key_2,
        ]);
        for (place, (row, card)) in lent.cards.iter_mut().zip(&self.cards).enumerate() {
            row[..2].copy_from_slice(&[card.state.into(), card.links.count.into()]);
            for (link, (place, low, high, number)) in card.links.items.iter().enumerate() {
                let words = [u64::from(*place), *low, *high, u64::from(*number)];
                row[2 + 4 * link..][..4].copy_from_slice(&words);
            }
            let bytes = &area[place * PLACE_BYTES..][..PLACE_BYTES];
            if let Some(table) = read_table(bytes, 1).filter(|_| card.state != 0) {
                put_summary(row, &summary_of(table.iter().map(|(key, _)| *key)));
            }
        }
        for (level, list) in self.lists.iter().enumerate() {
            lent.head[6 + level] = list.count.into();
            lent.lists[level * places..][..list.items.len()].copy_from_slice(&list.items);
        }
        let used = self.memory.items.concat();
        lent.memory[..2].copy_from_slice(&(8 + used.len() as u16).to_le_bytes());
        lent.memory[2] = 32;
        lent.memory[4..6].copy_from_slice(&self.memory.count.to_le_bytes());
        lent.memory[8..8 + used.len()].copy_from_slice(&used);
        lent
    }
}

fn card(lent: &Lent, place: usize) -> Option<Card> {
    let row = &lent.cards[place];
    if row[0] > 2 || row[1] > 8 {
        return None;
    }
    let link = |words: &[u64]| Some((narrow(words[0])?, words[1], words[2], narrow(words[3])?));
    let links =
        row[2..ROW_SUMMARY].chunks(4).take(row[1] as usize).map(link).collect::<Option<_>>()?;
    Some(Card { state: row[0] as u16, links: Counted::of(links) })
}

/// The entries of a memory table as bytes, whatever their keys; none where one is not of the form.
fn entries(memory: &[u8; PLACE_BYTES]) -> Option<Vec<Vec<u8>>> {
    let pair =
        |at: usize| Some(usize::from(u16::from_le_bytes([*memory.get(at)?, *memory.get(at + 1)?])));
    let count = pair(4).filter(|count| *count <= TABLE_ENTRIES)?;
    let (mut entries, mut at) = (Vec::new(), 8);
    for _ in 0..count {
        let length = pair(at)?;
        let fits = match pair(at + 2)? {
            1 => (12..=ENTRY_BYTES).contains(&length),
            2 => length == 12,
            _ => false,
        };
        entries.push(memory.get(at..at + length).filter(|_| fits)?.to_vec());
        at += length;
    }
    Some(entries)
}
