//! Going over a range of any length, sixteen values at a time.

use crate::{Error, Key, Page, Store};
use std::collections::VecDeque;

/// The values of a range, keys rising; see [`Store::range`].
pub struct Range<'s, 'a> {
    store: &'s mut Store<'a>,
    /// Values that are there already.
    ready: VecDeque<(Key, Vec<u8>)>,
    /// The keys still to be asked for, or none.
    rest: Option<(Key, Key)>,
}

impl<'s, 'a> Range<'s, 'a> {
    pub(crate) fn new(store: &'s mut Store<'a>, low: Key, high: Key) -> Range<'s, 'a> {
        Range { store, ready: VecDeque::new(), rest: Some((low, high)) }
    }

    fn next_page(&mut self, low: Key, high: Key) -> Result<(), Error> {
        let Page { values, more } = self.store.scan(low, high)?;
        let last = values.last().filter(|_| more);
        // A further value has a greater key, so there is always a next one; if not, the range ends.
        let next = last.and_then(|(key, _)| key.0.checked_add(1));
        self.rest = next.map(|next| (Key(next), high));
        self.ready.extend(values);
        Ok(())
    }
}

impl Iterator for Range<'_, '_> {
    type Item = Result<(Key, Vec<u8>), Error>;

    fn next(&mut self) -> Option<Self::Item> {
        if self.ready.is_empty() {
            let (low, high) = self.rest.take()?;
            if let Err(error) = self.next_page(low, high) {
                return Some(Err(error));
            }
        }
        self.ready.pop_front().map(Ok)
    }
}
