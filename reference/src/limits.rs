//! The order's numbers that more than one file needs, one name for each.

use std::ops::RangeInclusive;

/// Bytes of one place, and of the memory table.
pub const PLACE_BYTES: usize = 1024;

/// How many places a store may have.
pub const PLACES: RangeInclusive<usize> = 16..=4096;

/// The thresholds a store may have.
pub const THRESHOLDS: RangeInclusive<u64> = 1..=8;

/// The links a card has room for.
pub const CARD_LINKS: usize = 8;

/// Bytes of a card's summary: 256 bits.
pub const SUMMARY_BYTES: usize = 32;

/// The longest value.
pub const VALUE_BYTES: usize = 51;

/// Bytes of an entry before its value: length, kind and key.
pub const ENTRY_HEAD: usize = 12;

/// The longest entry.
pub const ENTRY_BYTES: usize = ENTRY_HEAD + VALUE_BYTES;

/// Bytes of a table before its first entry.
pub const TABLE_HEAD: usize = 8;

/// The most entries a table or the memory holds.
pub const TABLE_ENTRIES: usize = 16;

/// The most values one scan gives.
pub const SCAN_VALUES: usize = 16;

/// The longest reply, a scan's: length, kind and result, count and more, and as many entries as it gives, all the longest.
pub const REPLY_BYTES: usize = 6 + 4 + SCAN_VALUES * ENTRY_BYTES;

/// Levels 0 to 3.
pub const LEVELS: usize = 4;

/// The longest request list.
pub const LIST_BYTES: usize = 65_536;

/// Room that must be left in the answer buffer before a request is served.
pub const ANSWER_ROOM: usize = 1024;

/// How many live tables a level holds before tidy takes one away: 2 shifted left by twice the level number. Level 3 has no such
/// limit, and asking for it is a mistake.
pub fn capacity(level: usize) -> usize {
    assert!(level < LEVELS - 1, "level {level} has no capacity");
    2 << (2 * level)
}
