//! A store kept between jobs: its book saved as bytes, and opened again over an area.

use crate::memory::{Held, LEVELS};
use crate::{Error, Memory, Pieces, Refused, Row, Store, ENTRY_BYTES, PLACE_BYTES, TABLE_ENTRIES};
use zilgwern_sys::{CARD_LINKS, ROW_WORDS};

/// What stands before the first card: length, kind, places, threshold, cursor and two marks.
const FRONT: usize = 4 + 2 + 3 * 2 + 2 * (2 + 8);

/// A link: place, low, high and number; a card with all of them; the memory entries.
const LINK: usize = 2 + 8 + 8 + 2;
const CARD: usize = 2 + 2 + CARD_LINKS * LINK;
const ENTRIES: usize = 2 + TABLE_ENTRIES * ENTRY_BYTES;

/// The length of the longest saved book of so many places: all cards with all their links, each place in a list, a full memory
/// table of the longest entries.
pub const fn most_saved_bytes(places: usize) -> usize {
    FRONT + CARD * places + 2 * LEVELS + 2 * places + ENTRIES
}

impl<'a> Store<'a> {
    /// Writes the book as bytes to the front of the buffer and gives their length; the rest of the buffer is untouched. A buffer of
    /// [`most_saved_bytes`] is long enough for every store of so many places. Refused by 3 where it is too short.
    pub fn save_into(&mut self, buffer: &mut [u8]) -> Result<usize, Refused> {
        let mut saved = [0; 2];
        // SAFETY: the pointers are those of distinct borrows, each with its own count; the pieces are only read.
        let number = unsafe { self.held.raw().save(buffer, &mut saved) };
        let [letter, length] = saved;
        Refused::of(number, letter)?;
        Ok(length as usize)
    }

    /// The book as bytes: with the area, all that is to be kept of a store.
    pub fn save(&mut self) -> Result<Vec<u8>, Refused> {
        let places = self.area().len() / PLACE_BYTES;
        let mut buffer = vec![0; most_saved_bytes(places)];
        let length = self.save_into(&mut buffer)?;
        buffer.truncate(length);
        Ok(buffer)
    }

    /// Opens a saved book over the area of these pieces, of as many places as it names or more; the added ones are free. The area
    /// must be that of the moment of saving: another is refused only where it breaks a rule. The summaries are not in the bytes: they
    /// are worked out from the area. What the other pieces held does not matter; they become the book, or stay as they are where it is
    /// refused. As many working rows as cards are wanted, whatever they hold.
    ///
    /// ```
    /// use zilgwern::{Error, Memory, Refused, Store};
    ///
    /// let mut store = Store::owned(16, 4)?;
    /// store.put(7, b"kept")?;
    /// let book = store.save()?;
    ///
    /// let mut memory = Memory::zeroed(16);
    /// memory.area.copy_from_slice(store.area());
    /// let mut working = memory.cards.clone();
    /// let mut again = Store::open_saved(memory.lend(), &book, &mut working)?;
    /// assert_eq!(again.save()?, book);
    ///
    /// let cut = Store::open_saved(memory.lend(), &book[1..], &mut working).err();
    /// assert_eq!(cut, Some(Error::Refused(Refused::NotABook)));
    /// # Ok::<(), zilgwern::Error>(())
    /// ```
    pub fn open_saved(
        pieces: Pieces<'a>,
        book: &[u8],
        working: &mut [Row],
    ) -> Result<Store<'a>, Error> {
        Store::opened(Held::Borrowed(pieces), book, working)
    }

    fn opened(mut held: Held<'a>, book: &[u8], working: &mut [Row]) -> Result<Store<'a>, Error> {
        let mut letter = 0;
        // SAFETY: as above; the area and the saved book are only read.
        let number = unsafe { held.raw().open(book, working, &mut letter) };
        Refused::of(number, letter)?;
        Ok(Store { held })
    }

    /// The same store with more places, in memory of its own; the added ones are free. Refused by 22 where they would be fewer.
    ///
    /// ```
    /// use zilgwern::{Error, Refusal, Store};
    ///
    /// let mut small = Store::owned(16, 4)?;
    /// for key in 0..16u64 {
    ///     small.put(key, b"v")?;
    ///     small.flush()?;
    /// }
    /// small.put(99, b"v")?;
    /// assert_eq!(small.flush(), Err(Error::Request(Refusal::NoPlace)));
    /// assert_eq!(small.grown(32)?.flush(), Ok(true));
    /// # Ok::<(), zilgwern::Error>(())
    /// ```
    pub fn grown(&mut self, places: usize) -> Result<Store<'static>, Error> {
        let book = self.save()?;
        let mut memory = Memory::for_store(places)?;
        let kept = self.area().len().min(memory.area.len());
        memory.area[..kept].copy_from_slice(&self.area()[..kept]);
        Store::open_in(memory, &book)
    }
}

impl Store<'static> {
    /// Opens a saved book over this area, with the other pieces in memory of its own.
    pub fn open_saved_owned(area: Vec<u8>, book: &[u8]) -> Result<Store<'static>, Error> {
        let mut memory = Memory::for_store(area.len() / PLACE_BYTES)?;
        memory.area = area;
        Store::open_in(memory, book)
    }

    fn open_in(memory: Memory, book: &[u8]) -> Result<Store<'static>, Error> {
        let mut working = vec![[0; ROW_WORDS]; memory.cards.len()];
        Store::opened(Held::Owned(Box::new(memory)), book, &mut working)
    }
}
