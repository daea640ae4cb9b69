//! The van's survey store for Rust hosts: a safe wrapper over the proved store's static library.
//!
//! A store lives in memory that its host lends, and nowhere else. It is made or opened over memory that it owns or borrows:
//!
//! ```
//! use zilgwern::{Key, Store};
//!
//! let mut store = Store::owned(32, 4)?;
//! let joint = Key::of(3, 1_250).unwrap(); // line 3 at 1,250 mm
//! store.put(joint, b"BAF")?;
//! assert_eq!(store.look_up(joint)?.as_deref(), Some(&b"BAF"[..]));
//! # Ok::<(), zilgwern::Error>(())
//! ```
//!
//! Each call checks the whole store once, so a host with many requests puts them into one [`List`]:
//!
//! ```
//! use zilgwern::{List, Reply, Store};
//!
//! let mut store = Store::owned(32, 4)?;
//! let mut list = List::new();
//! list.put(5, b"A")?.look_up(5)?.delete(5)?.look_up(5)?.flush()?;
//! let replies = store.run(&list)?;
//! assert_eq!(replies[1], Reply::Value(b"A".to_vec()));
//! assert_eq!(replies[3], Reply::NoValue);
//! # Ok::<(), zilgwern::Error>(())
//! ```
//!
//! Refusals are named in words and by the order's number:
//!
//! ```
//! use zilgwern::{Error, Store};
//!
//! let error = Store::owned(15, 4).err().unwrap();
//! assert_eq!(error.number(), 1);
//! assert!(error.to_string().starts_with("1: "));
//! ```
//!
//! A store is kept by its area and its saved book, and goes on later, over more places if need be:
//!
//! ```
//! use zilgwern::Store;
//!
//! let mut store = Store::owned(16, 4)?;
//! store.put(7, b"kept")?;
//! let (mut area, book) = (store.area().to_vec(), store.save()?);
//! area.resize(32 * 1024, 0);
//! let mut again = Store::open_saved_owned(area, &book)?;
//! assert_eq!(again.look_up(7)?.as_deref(), Some(&b"kept"[..]));
//! assert_eq!(again.report()?.free, 32);
//! # Ok::<(), zilgwern::Error>(())
//! ```
//!
//! Beside the lent memory a call needs stack: `host/zilgwern.h` says how much, and it is less than Rust gives a thread that asks for
//! no other.
//!
//! [`Store::range`] goes over any number of values, and [`Store::view`] shows what stands where. [`Store::probe`] says how many tables
//! a look-up opens, and [`View::asked`] which. `examples/recorder.rs` puts it together.

#![deny(missing_docs, unsafe_op_in_unsafe_fn)]

mod bytes;
mod error;
mod image;
mod key;
mod list;
mod look_up;
mod memory;
mod range;
mod reply;
mod request;
mod saved;
mod store;
mod summary;
mod view;

pub use error::{Error, ListError, Refusal, Refused, Rule};
pub use key::Key;
pub use list::List;
pub use look_up::Asked;
pub use memory::{Memory, Pieces, Row};
pub use range::Range;
pub use reply::{Page, Probe, Reply, Report, Step, Stepped};
pub use request::Request;
pub use saved::most_saved_bytes;
pub use store::Store;
pub use summary::Summary;
pub use view::{Entry, Link, Table, View};

/// The fewest and the most places of a store.
pub const PLACES: std::ops::RangeInclusive<usize> = 16..=4096;

/// The bytes of a place.
pub const PLACE_BYTES: usize = 1024;

/// The longest value.
pub const VALUE_BYTES: usize = 51;

/// The longest entry: length, kind, key and value.
pub const ENTRY_BYTES: usize = 12 + VALUE_BYTES;

/// The most entries of a table, and of the memory table.
pub const TABLE_ENTRIES: usize = 16;

/// The most values that one scan gives.
pub const SCAN_VALUES: usize = 16;

/// The longest reply, that of a scan of so many of the longest entries.
pub const REPLY_BYTES: usize = 6 + 4 + SCAN_VALUES * ENTRY_BYTES;

/// The longest request list.
pub const LIST_BYTES: usize = 65_536;

/// Room that must be left in the answer buffer before a request is served.
pub const ANSWER_ROOM: usize = 1024;
