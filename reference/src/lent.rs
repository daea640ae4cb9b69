//! The lent memory as the host sees it: bytes and numbers of any content, sound or not.

use crate::limits::{CARD_LINKS, LEVELS, PLACES, PLACE_BYTES, SUMMARY_BYTES};
use crate::summary::Summary;

/// One row of a card: state, link count, then place, low, high and number of eight links, then the summary.
pub type Row = [u64; ROW_WORDS];

/// Word of a row that holds the state.
pub const ROW_STATE: usize = 0;
/// Word of a row that holds the number of links.
pub const ROW_COUNT: usize = 1;
/// First word of the links of a row.
pub const ROW_LINKS: usize = 2;
/// First word of the summary of a row: its bytes, lowest first, eight to a word.
pub const ROW_SUMMARY: usize = ROW_LINKS + LINK_WORDS * CARD_LINKS;
/// Words of a row.
pub const ROW_WORDS: usize = ROW_SUMMARY + SUMMARY_BYTES / WORD_BYTES;
/// The row of a free place.
pub const ROW_FREE: Row = [0; ROW_WORDS];

/// Bytes of a word.
const WORD_BYTES: usize = 8;

/// Words of a link, and which of them is which.
pub const LINK_WORDS: usize = 4;
pub const LINK_PLACE: usize = 0;
pub const LINK_LOW: usize = 1;
pub const LINK_HIGH: usize = 2;
pub const LINK_NUMBER: usize = 3;

pub const STATE_FREE: u64 = 0;
pub const STATE_LIVE: u64 = 1;
pub const STATE_FROZEN: u64 = 2;

/// Word of the head that holds the threshold.
pub const HEAD_THRESHOLD: usize = 0;
/// Word of the head that holds the place cursor.
pub const HEAD_CURSOR: usize = 1;
/// First of the head's words for marks: flag and key of level 1, then of level 2.
pub const HEAD_MARKS: usize = 2;
/// First of the four words of the head that hold the lengths of the level lists.
pub const HEAD_LENGTHS: usize = 6;

/// The five pieces of memory that a host lends to the store.
#[derive(Clone, PartialEq, Eq, Debug)]
pub struct Lent {
    pub area: Vec<u8>,
    pub cards: Vec<Row>,
    /// Four lists of P items, level after level.
    pub lists: Vec<u16>,
    pub head: [u64; HEAD_LENGTHS + LEVELS],
    pub memory: [u8; PLACE_BYTES],
}

impl Lent {
    /// Memory of the right sizes for this many places, all of it zero. This is not a store yet.
    pub fn zeroed(places: usize) -> Lent {
        Lent {
            area: vec![0; places * PLACE_BYTES],
            cards: vec![ROW_FREE; places],
            lists: vec![0; LEVELS * places],
            head: [0; HEAD_LENGTHS + LEVELS],
            memory: [0; PLACE_BYTES],
        }
    }

    /// The number of places, or none where the sizes are refused with number 1.
    pub fn places(&self) -> Option<usize> {
        let places = self.area.len() / PLACE_BYTES;
        let fits = self.area.len().is_multiple_of(PLACE_BYTES)
            && PLACES.contains(&places)
            && self.cards.len() == places
            && self.lists.len() == LEVELS * places;
        fits.then_some(places)
    }

    /// The bytes of one place.
    pub fn place(&self, place: usize) -> &[u8] {
        &self.area[place * PLACE_BYTES..][..PLACE_BYTES]
    }

    /// The items in use of a level's list; of a length beyond P only P items are there.
    pub fn list(&self, level: usize) -> &[u16] {
        let places = self.cards.len();
        let length = self.head[HEAD_LENGTHS + level].min(places as u64);
        &self.lists[level * places..][..length as usize]
    }

    /// The links on a card, each as its words; of a count beyond a row's room only that many are there.
    pub fn links(&self, place: usize) -> impl Iterator<Item = &[u64]> {
        let row = &self.cards[place];
        let count = row[ROW_COUNT].min(CARD_LINKS as u64) as usize;
        row[ROW_LINKS..ROW_SUMMARY].chunks(LINK_WORDS).take(count)
    }

    /// The summary on a card.
    pub fn summary(&self, place: usize) -> Summary {
        summary_of_row(&self.cards[place])
    }

    /// The first difference to another image in words, for reports of failed tests.
    pub fn difference(&self, other: &Lent) -> Option<String> {
        if self.head != other.head {
            return Some(format!("head {:?} and {:?}", self.head, other.head));
        }
        if self.memory != other.memory {
            return Some("memory table".into());
        }
        if self.lists != other.lists {
            return Some("level lists".into());
        }
        let card = self.cards.iter().zip(&other.cards).position(|(a, b)| a != b);
        if let Some(place) = card {
            return Some(format!("card of place {place}"));
        }
        let byte = self.area.iter().zip(&other.area).position(|(a, b)| a != b);
        if let Some(byte) = byte {
            return Some(format!("bytes of place {}", byte / PLACE_BYTES));
        }
        (self != other).then(|| "sizes".into())
    }
}

/// The summary of a row as its bytes.
pub fn summary_of_row(row: &Row) -> Summary {
    let bytes: Vec<u8> = row[ROW_SUMMARY..].iter().flat_map(|word| word.to_le_bytes()).collect();
    bytes.try_into().expect("four words are the bytes of a summary")
}

/// Writes a summary to its words of a row.
pub fn put_summary(row: &mut Row, summary: &Summary) {
    for (word, bytes) in row[ROW_SUMMARY..].iter_mut().zip(summary.chunks(WORD_BYTES)) {
        *word = u64::from_le_bytes(bytes.try_into().expect("eight bytes are a word"));
    }
}
