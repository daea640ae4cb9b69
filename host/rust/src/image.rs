//! A store's memory as plain bytes and back, in the forms that these have had. To keep a store, its area and its saved book are the
//! better way: they have the customer's format, and no row of a card is in them.

use crate::bytes::{pair, word};
use crate::memory::{HEAD_BYTES, LEVELS, TABLE_BYTES};
use crate::view::entries;
use crate::{Memory, Refused, Summary, PLACES};
use zilgwern_sys::{CARD_LINKS, ROW_SUMMARY, ROW_WORDS};

/// The last word of the bytes says their form: a length alone may be that of two forms.
const FORM_BYTES: usize = size_of::<u64>();

/// A form by its number and the words that a row had in it.
struct Form {
    number: u64,
    row_words: usize,
}

/// Form 3 is that of surveyctl's files, area and saved book.
const NOW: Form = Form { number: 4, row_words: ROW_WORDS };

/// Before cards had summaries.
const FORM_2: Form = Form { number: 2, row_words: ROW_SUMMARY };

/// Before links had numbers. No word said the form: the memory table came last, which ends with zeros in a sound store.
const FORM_1: Form = Form { number: 0, row_words: ROW_SUMMARY - CARD_LINKS };

impl Form {
    const fn row_bytes(&self) -> usize {
        self.row_words * size_of::<u64>()
    }

    /// Bytes of a place, its card and its items in the lists.
    const fn bytes_a_place(&self) -> usize {
        TABLE_BYTES + self.row_bytes() + 2 * LEVELS
    }

    const fn byte_count(&self, places: usize) -> usize {
        self.bytes_a_place() * places + HEAD_BYTES + TABLE_BYTES + FORM_BYTES
    }

    /// The pieces from bytes of this form; what it lacks of a row is zero.
    fn read(&self, bytes: &[u8]) -> Result<Memory, Refused> {
        let (bytes, form) = bytes.split_last_chunk().ok_or(Refused::Sizes)?;
        let of_places = bytes.len().checked_sub(HEAD_BYTES + TABLE_BYTES).ok_or(Refused::Sizes)?;
        if *form != self.number.to_le_bytes() || !of_places.is_multiple_of(self.bytes_a_place()) {
            return Err(Refused::Sizes);
        }
        let places = of_places / self.bytes_a_place();
        let (area, rest) = bytes.split_at(TABLE_BYTES * places);
        let (cards, rest) = rest.split_at(self.row_bytes() * places);
        let (lists, rest) = rest.split_at(2 * LEVELS * places);
        let (head, memory) = rest.split_at(HEAD_BYTES);
        let row = |bytes: &[u8]| {
            std::array::from_fn(|at| if at < self.row_words { word(bytes, 8 * at) } else { 0 })
        };
        Ok(Memory {
            area: area.to_vec(),
            cards: cards.chunks_exact(self.row_bytes()).map(row).collect(),
            lists: lists.chunks_exact(2).map(|item| pair(item, 0)).collect(),
            head: std::array::from_fn(|at| word(head, 8 * at)),
            memory: memory.try_into().expect("a table's bytes"),
        })
    }
}

impl Memory {
    /// How many bytes `to_bytes` gives for so many places.
    pub const fn byte_count(places: usize) -> usize {
        NOW.byte_count(places)
    }

    /// The plain bytes of what is lent, piece after piece: area, cards, lists, head, memory table; then a word that says their
    /// form, 4. Numbers are little-endian. This is an image of the memory, any memory, as it lies; to keep a store, keep its area
    /// and what [`Store::save`](crate::Store::save) gives.
    ///
    /// ```
    /// use zilgwern::{Memory, Refused, Store};
    ///
    /// let mut store = Store::owned(16, 4)?;
    /// store.put(7, b"kept")?;
    /// let bytes = store.memory().to_bytes();
    /// assert_eq!(bytes.len(), 16 * (1024 + 304 + 8) + 80 + 1024 + 8);
    /// assert_eq!(bytes.len(), Memory::byte_count(16));
    /// let mut again = Store::open_owned(Memory::from_bytes(&bytes)?)?;
    /// assert_eq!(again.look_up(7)?.as_deref(), Some(&b"kept"[..]));
    /// assert_eq!(Memory::from_bytes(&bytes[1..]), Err(Refused::Sizes));
    /// # Ok::<(), zilgwern::Error>(())
    /// ```
    pub fn to_bytes(&self) -> Vec<u8> {
        let mut bytes = self.area.clone();
        bytes.extend(self.cards.iter().flatten().flat_map(|word| word.to_le_bytes()));
        bytes.extend(self.lists.iter().flat_map(|item| item.to_le_bytes()));
        bytes.extend(self.head.iter().flat_map(|word| word.to_le_bytes()));
        bytes.extend(self.memory);
        bytes.extend(NOW.number.to_le_bytes());
        bytes
    }

    /// The pieces from such bytes, sound or not; refused where no number of places has so many bytes, or their form is another.
    pub fn from_bytes(bytes: &[u8]) -> Result<Memory, Refused> {
        NOW.read(bytes)
    }

    /// How many bytes form 2 had for so many places.
    pub const fn form_2_byte_count(places: usize) -> usize {
        FORM_2.byte_count(places)
    }

    /// The pieces from bytes of form 2, from before cards had summaries: these are worked out from the area, for every card that says
    /// live or frozen. Refused as by [`Memory::from_bytes`].
    pub fn from_form_2(bytes: &[u8]) -> Result<Memory, Refused> {
        let mut memory = FORM_2.read(bytes)?;
        for (card, place) in memory.cards.iter_mut().zip(memory.area.chunks_exact(TABLE_BYTES)) {
            // Of a place that holds no table these are some bits; rule C is broken anyhow.
            if matches!(card[0], 1 | 2) {
                Summary::of(entries(place).iter().map(|entry| entry.key)).write_to(card);
            }
        }
        Ok(memory)
    }

    /// Whether bytes that are refused are those of a store from before links had numbers. It can't be opened: who has made it must
    /// read it and put what it holds into a new one.
    ///
    /// ```
    /// use zilgwern::{Memory, Refused};
    ///
    /// // Rows had eight words less than in form 2. This is the length of 61 places then, and of 58 in form 2.
    /// let bytes = vec![0; 61 * (1024 + 208 + 8) + 80 + 1024];
    /// assert_eq!(bytes.len(), Memory::form_2_byte_count(58));
    /// assert_eq!(Memory::from_form_2(&bytes), Err(Refused::Sizes));
    /// assert!(Memory::is_form_1(&bytes));
    /// ```
    pub fn is_form_1(bytes: &[u8]) -> bool {
        let is_whole = |places| FORM_1.byte_count(places) - FORM_BYTES == bytes.len();
        PLACES.clone().any(is_whole) && bytes.ends_with(&FORM_1.number.to_le_bytes())
    }
}
