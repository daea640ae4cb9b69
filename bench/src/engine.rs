//! What a store looks like to the bench.

use crate::workload::{Key, Put};
use reference::limits::{ENTRY_BYTES, LIST_BYTES, TABLE_ENTRIES};

/// Tidies behind a flush are never more, so that a batch of puts fits a list.
pub const MOST_TIDIES: usize = 12;

/// Bytes of the puts that fill the memory table, each as long as the longest entry, of the flush behind them and of the tidies.
const FILLING: usize = TABLE_ENTRIES * ENTRY_BYTES + 4 + MOST_TIDIES * 4;

/// Requests of one batch: what fits a list.
pub const PUTS: usize = LIST_BYTES / FILLING * TABLE_ENTRIES;
pub const LOOK_UPS: usize = LIST_BYTES / 12;
pub const SCANS: usize = LIST_BYTES / 20;

/// The values of one scan.
pub const SCANNED: usize = 16;

/// Shown the value of each look-up of a batch in turn, or none.
pub type SeeValue<'a> = dyn FnMut(Option<&[u8]>) + 'a;

/// Shown the number of a scan in its batch, then a key and a value of it, keys rising.
pub type SeeEntry<'a> = dyn FnMut(usize, Key, &[u8]) + 'a;

/// A store that is empty when it is made. A call is one batch: a list, a transaction, or what the store has of the kind. What is
/// not as it should be ends the bench with a word.
pub trait Engine {
    fn name(&self) -> &'static str;

    fn put(&mut self, batch: &[Put]);

    /// Ends the puts: does what they left to be done.
    fn settle(&mut self) {}

    fn look_up(&mut self, keys: &[Key], see: &mut SeeValue);

    /// The first 16 values from each key on.
    fn scan(&mut self, from: &[Key], see: &mut SeeEntry);

    /// Does a batch of no requests; false where a batch has no cost of its own worth telling.
    fn nothing(&mut self) -> bool {
        false
    }
}
