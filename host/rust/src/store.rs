//! A store over lent memory, and the calls of the library.

use crate::bytes::take_whole;
use crate::memory::Held;
use crate::view::View;
use crate::{Error, Key, List, ListError, Memory, Page, Pieces, Probe, Range, Refused, Reply};
use crate::{Report, Stepped, ANSWER_ROOM};

/// The most room for answers that is taken at once; longer answers come in several runs.
const MOST_ROOM: usize = 1 << 18;

/// A store in memory that it owns or borrows.
pub struct Store<'a> {
    pub(crate) held: Held<'a>,
}

impl Store<'static> {
    /// Makes a new store in memory of its own. No memory is asked for where no store has so many places.
    pub fn owned(places: usize, threshold: u64) -> Result<Store<'static>, Error> {
        Store::begin(Held::Owned(Box::new(Memory::for_store(places)?)), threshold)
    }

    /// Opens the store in this memory.
    pub fn open_owned(memory: Memory) -> Result<Store<'static>, Error> {
        Store::continued(Held::Owned(Box::new(memory)))
    }
}

impl<'a> Store<'a> {
    /// Makes a new store in borrowed memory of any content.
    pub fn make(pieces: Pieces<'a>, threshold: u64) -> Result<Store<'a>, Error> {
        Store::begin(Held::Borrowed(pieces), threshold)
    }

    /// Opens the store in borrowed memory, if there is a sound one.
    ///
    /// ```
    /// use zilgwern::{Error, Memory, Refused, Rule, Store};
    ///
    /// // Zeros break rule A, by the threshold, and rule D, since 1,024 zeros are no memory table. The first is told.
    /// let mut memory = Memory::zeroed(16);
    /// let error = Store::open(memory.lend()).err().unwrap();
    /// assert_eq!(error.number(), 5);
    /// assert_eq!(error, Error::Refused(Refused::NotSound(Rule::A)));
    /// ```
    pub fn open(pieces: Pieces<'a>) -> Result<Store<'a>, Error> {
        Store::continued(Held::Borrowed(pieces))
    }

    fn begin(mut held: Held<'a>, threshold: u64) -> Result<Store<'a>, Error> {
        // SAFETY: the pointers are those of distinct mutable borrows, each with its own count.
        let number = unsafe { held.raw().make(threshold) };
        Refused::of(number, 0)?;
        Ok(Store { held })
    }

    fn continued(held: Held<'a>) -> Result<Store<'a>, Error> {
        let mut store = Store { held };
        store.check()?;
        Ok(store)
    }

    /// Checks the store. What this crate does keeps it sound; memory that came from elsewhere may not be, and is then refused
    /// by the first broken rule.
    pub fn check(&mut self) -> Result<(), Refused> {
        let mut letter = 0;
        // SAFETY: as above; only the letter is written.
        let number = unsafe { self.held.raw().check(&mut letter) };
        Refused::of(number, letter)
    }

    /// The memory that the store lives in, as it is now. To keep a store, keep its area and its saved book, [`Store::save`].
    pub fn memory(&self) -> Memory {
        self.held.copy()
    }

    /// The places, 1,024 bytes each.
    pub fn area(&self) -> &[u8] {
        self.held.area()
    }

    /// What stands where: levels, tables, links and frozen places.
    pub fn view(&self) -> View {
        View::of(&self.held.copy())
    }

    /// Runs bytes as a list, with answers in a buffer: the requests served and the bytes written. The store is checked
    /// first, as by [`Store::check`]. The run stops before a request when fewer than 1,024 bytes of the buffer are left.
    pub fn run_bytes(
        &mut self,
        list: &[u8],
        answers: &mut [u8],
    ) -> Result<(usize, usize), Refused> {
        let mut outcome = [0; 3];
        // SAFETY: as above; the list is only read.
        let number = unsafe { self.held.raw().run(list, answers, &mut outcome) };
        let [letter, served, written] = outcome;
        Refused::of(number, letter)?;
        Ok((served as usize, written as usize))
    }

    /// Runs a list to its end. Requests that are refused are so in their replies; the others are served.
    pub fn run(&mut self, list: &List) -> Result<Vec<Reply>, Refused> {
        let mut answers = vec![0; ANSWER_ROOM + list.most_reply_bytes().min(MOST_ROOM)];
        let mut replies = Vec::with_capacity(list.len());
        let mut rest = list.as_bytes();
        loop {
            let (served, written) = self.run_bytes(rest, &mut answers)?;
            let mut written = &answers[..written];
            for _ in 0..served {
                take_whole(&mut rest, 4).expect("no more are served than there are");
                let (_, reply) =
                    Reply::take(&mut written).expect("the library's replies are whole");
                replies.push(reply);
            }
            if rest.is_empty() {
                return Ok(replies);
            }
            assert!(served > 0, "a run with room for a reply serves a request");
        }
    }

    /// One request: its reply, or why it was refused.
    fn one(
        &mut self,
        add: impl FnOnce(&mut List) -> Result<&mut List, ListError>,
    ) -> Result<Reply, Error> {
        let mut list = List::new();
        add(&mut list)?;
        match self.run(&list)?.pop() {
            Some(Reply::Refused(refusal)) => Err(refusal.into()),
            Some(reply) => Ok(reply),
            None => unreachable!("a list of one request has one reply"),
        }
    }

    /// Puts a value of at most [`VALUE_BYTES`](crate::VALUE_BYTES) under a key.
    pub fn put(&mut self, key: impl Into<Key>, value: &[u8]) -> Result<(), Error> {
        self.one(|list| list.put(key, value)).map(|_| ())
    }

    /// Takes the value under a key away, if there is one. A delete mark stays, until a merge finds no span below that holds its key
    /// ([`View::drops_mark`](crate::View::drops_mark)).
    pub fn delete(&mut self, key: impl Into<Key>) -> Result<(), Error> {
        self.one(|list| list.delete(key)).map(|_| ())
    }

    /// The value under a key.
    pub fn look_up(&mut self, key: impl Into<Key>) -> Result<Option<Vec<u8>>, Error> {
        Ok(match self.one(|list| list.look_up(key))? {
            Reply::Value(value) => Some(value),
            _ => None,
        })
    }

    /// The value under a key, how many tables a look-up opens for it, and the bits set in their summaries. A table is opened only if
    /// its summary has the three bits of the key; memory is no table. [`View::asked`](crate::View::asked) says which tables these are.
    ///
    /// ```
    /// use zilgwern::{Probe, Store};
    ///
    /// let mut store = Store::owned(16, 4)?;
    /// store.put(5, b"A")?;
    /// // Memory decides, and no table is opened.
    /// assert_eq!(store.probe(5)?, Probe { value: Some(b"A".to_vec()), tables: 0, bits: 0 });
    /// store.flush()?;
    /// // The table of key 5 alone, whose three bits are one.
    /// assert_eq!(store.probe(5)?, Probe { value: Some(b"A".to_vec()), tables: 1, bits: 1 });
    /// assert_eq!(store.probe(6)?, Probe { value: None, tables: 0, bits: 0 });
    /// # Ok::<(), zilgwern::Error>(())
    /// ```
    pub fn probe(&mut self, key: impl Into<Key>) -> Result<Probe, Error> {
        Ok(match self.one(|list| list.probe(key))? {
            Reply::Probe(probe) => probe,
            _ => Probe::default(),
        })
    }

    /// The first 16 or fewer values from low to high, both included.
    pub fn scan(&mut self, low: impl Into<Key>, high: impl Into<Key>) -> Result<Page, Error> {
        Ok(match self.one(|list| list.scan(low, high))? {
            Reply::Page(page) => page,
            _ => Page::default(),
        })
    }

    /// All values from low to high, both included, keys rising. Sixteen at a time are asked for.
    ///
    /// ```
    /// use zilgwern::Store;
    ///
    /// let mut store = Store::owned(32, 4)?;
    /// for key in 0..40u64 {
    ///     store.put(key, &[key as u8])?;
    ///     if key % 16 == 15 {
    ///         store.flush()?;
    ///     }
    /// }
    /// let keys: Result<Vec<u64>, _> = store.range(10, 35).map(|found| Ok(found?.0 .0)).collect();
    /// assert_eq!(keys, Ok::<_, zilgwern::Error>((10..=35).collect()));
    /// # Ok::<(), zilgwern::Error>(())
    /// ```
    pub fn range(&mut self, low: impl Into<Key>, high: impl Into<Key>) -> Range<'_, 'a> {
        Range::new(self, low.into(), high.into())
    }

    /// Writes the memory table to a place and empties it; false if it is empty already.
    pub fn flush(&mut self) -> Result<bool, Error> {
        self.one(List::flush).map(|reply| reply == Reply::Done)
    }

    /// Does one step of compaction; none if there is nothing to do.
    pub fn tidy(&mut self) -> Result<Option<Stepped>, Error> {
        Ok(match self.one(List::tidy)? {
            Reply::Stepped(stepped) => Some(stepped),
            _ => None,
        })
    }

    /// What is where.
    pub fn report(&mut self) -> Result<Report, Error> {
        Ok(match self.one(List::report)? {
            Reply::Report(report) => report,
            _ => Report::default(),
        })
    }
}
