//! Places written, as the method's paper measures compaction: for each put, and the most by one step. They are counted in the
//! memory itself: a place is written if its bytes are not what they were before the request.

use crate::engine::Engine;
use crate::workload::Put;
use reference::limits::{PLACE_BYTES, TABLE_ENTRIES};

/// What a store's free places are filled with, so that a table written to one always shows: no table begins with these bytes, and a
/// store minds no bytes there.
const MARK: u8 = 0xA5;

/// A survey store that is led step by step.
pub trait Steps: Engine {
    /// Puts of at most 16 keys into an empty memory table.
    fn only_put(&mut self, batch: &[Put]);

    fn flush(&mut self);

    /// Does a step; false if there is none to do.
    fn tidy(&mut self) -> bool;

    fn area(&mut self) -> &mut [u8];

    fn is_free(&self, place: usize) -> bool;
}

#[derive(Clone, Copy, Default, PartialEq, Eq, Debug)]
pub struct Written {
    pub puts: usize,
    pub flushes: usize,
    pub tidies: usize,
    pub places: usize,
    /// By one flush or tidy.
    pub most: usize,
}

/// A store with its area as it was before the last request.
pub struct Watched<'a> {
    store: &'a mut dyn Steps,
    before: Vec<u8>,
    pub written: Written,
}

impl<'a> Watched<'a> {
    pub fn new(store: &'a mut dyn Steps) -> Watched<'a> {
        let before = store.area().to_vec();
        let mut watched = Watched { store, before, written: Written::default() };
        watched.count();
        watched.written = Written::default();
        watched
    }

    /// Counts the places that have changed, and marks the free ones anew.
    fn count(&mut self) -> usize {
        let mut changed = 0;
        for place in 0..self.before.len() / PLACE_BYTES {
            let free = self.store.is_free(place);
            let range = place * PLACE_BYTES..(place + 1) * PLACE_BYTES;
            let (now, before) = (&mut self.store.area()[range.clone()], &mut self.before[range]);
            if now != before {
                changed += 1;
                before.copy_from_slice(now);
            }
            if free && before[..2] != [MARK; 2] {
                now.fill(MARK);
                before.fill(MARK);
            }
        }
        changed
    }

    fn request(&mut self) {
        let changed = self.count();
        self.written.places += changed;
        self.written.most = self.written.most.max(changed);
    }

    /// Puts of one memory table, a flush, and tidies until there is nothing to do.
    fn round(&mut self, batch: &[Put]) {
        self.store.only_put(batch);
        self.request();
        self.written.puts += batch.len();
        self.store.flush();
        self.request();
        self.written.flushes += 1;
        while self.store.tidy() {
            self.request();
            self.written.tidies += 1;
        }
    }

    /// All puts, flushed when the memory table is full.
    pub fn lead(&mut self, puts: &[Put], progress: &mut dyn FnMut(usize)) {
        for batch in tables(puts) {
            self.round(batch);
            progress(self.written.puts);
        }
    }
}

/// The puts in parts, each as many as an empty memory table takes.
pub fn tables(mut puts: &[Put]) -> impl Iterator<Item = &[Put]> {
    std::iter::from_fn(move || {
        let (batch, others) = puts.split_at(one_table(puts));
        puts = others;
        (!batch.is_empty()).then_some(batch)
    })
}

/// How many of these puts fill an empty memory table, so that the next one would be refused.
fn one_table(puts: &[Put]) -> usize {
    let mut keys = Vec::with_capacity(TABLE_ENTRIES);
    for (count, (key, _)) in puts.iter().enumerate() {
        if keys.contains(key) {
            continue;
        }
        if keys.len() == TABLE_ENTRIES {
            return count;
        }
        keys.push(*key);
    }
    puts.len()
}
