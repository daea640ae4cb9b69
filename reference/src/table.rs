//! Entries and tables as bytes: the one place that knows how a table lies in its place.

use crate::limits::{ENTRY_HEAD, PLACE_BYTES, TABLE_ENTRIES, TABLE_HEAD, VALUE_BYTES};
use std::collections::BTreeMap;

/// A key; whole keys are compared.
pub type Key = u64;

/// What stands under a key.
#[derive(Clone, PartialEq, Eq, Debug)]
pub enum Entry {
    Value(Vec<u8>),
    DeleteMark,
}

/// The entries of a table or of the memory, keys rising.
pub type Entries = BTreeMap<Key, Entry>;

const TABLE_KIND: u16 = 32;
const VALUE_KIND: u16 = 1;
const MARK_KIND: u16 = 2;

/// The two-byte number at a position, or none beyond the end.
pub fn u16_at(bytes: &[u8], at: usize) -> Option<u16> {
    let part = bytes.get(at..at + 2)?;
    Some(u16::from_le_bytes(part.try_into().ok()?))
}

/// The eight-byte number at a position, or none beyond the end.
pub fn u64_at(bytes: &[u8], at: usize) -> Option<u64> {
    let part = bytes.get(at..at + 8)?;
    Some(u64::from_le_bytes(part.try_into().ok()?))
}

/// Appends an entry in its format.
pub fn push_entry(out: &mut Vec<u8>, key: Key, value: Option<&[u8]>) {
    let kind = if value.is_some() { VALUE_KIND } else { MARK_KIND };
    let value = value.unwrap_or_default();
    out.extend(((ENTRY_HEAD + value.len()) as u16).to_le_bytes());
    out.extend(kind.to_le_bytes());
    out.extend(key.to_le_bytes());
    out.extend(value);
}

/// The whole place that holds these entries.
pub fn table_bytes(entries: &Entries) -> [u8; PLACE_BYTES] {
    let pieces: Vec<Vec<u8>> = entries
        .iter()
        .map(|(key, entry)| {
            let mut bytes = Vec::new();
            push_entry(&mut bytes, *key, entry.value());
            bytes
        })
        .collect();
    put_table(&pieces)
}

/// The whole place that holds entries given as bytes, in this order; it is a table if their keys rise.
pub fn put_table(entries: &[impl AsRef<[u8]>]) -> [u8; PLACE_BYTES] {
    let body: Vec<u8> = entries.iter().flat_map(|entry| entry.as_ref()).copied().collect();
    let mut bytes = Vec::with_capacity(PLACE_BYTES);
    bytes.extend(((TABLE_HEAD + body.len()) as u16).to_le_bytes());
    bytes.extend(TABLE_KIND.to_le_bytes());
    bytes.extend((entries.len() as u16).to_le_bytes());
    bytes.extend(0u16.to_le_bytes());
    bytes.extend(body);
    bytes.resize(PLACE_BYTES, 0);
    bytes.try_into().expect("sixteen entries fit a place")
}

/// Keys and values (none for a delete mark) that a place shows, or none if it holds no such table.
pub type Shown<'a> = Vec<(Key, Option<&'a [u8]>)>;

/// Reads a place that holds `fewest` to 16 entries: 1 for a table (rule C), 0 for the memory (D).
pub fn read_table(place: &[u8], fewest: usize) -> Option<Shown<'_>> {
    let length = usize::from(u16_at(place, 0)?);
    let count = usize::from(u16_at(place, 4)?);
    let head_fits = u16_at(place, 2)? == TABLE_KIND && u16_at(place, 6)? == 0;
    if !head_fits || !(fewest..=TABLE_ENTRIES).contains(&count) || length > place.len() {
        return None;
    }
    let mut shown = Shown::with_capacity(count);
    let mut at = TABLE_HEAD;
    for _ in 0..count {
        let (size, key, value) = read_entry(place.get(at..length)?)?;
        if shown.last().is_some_and(|(last, _)| *last >= key) {
            return None;
        }
        shown.push((key, value));
        at += size;
    }
    let rest_is_zero = place[at..].iter().all(|byte| *byte == 0);
    (at == length && rest_is_zero).then_some(shown)
}

/// The entry at the front of these bytes: its length, key and value.
pub fn read_entry(bytes: &[u8]) -> Option<(usize, Key, Option<&[u8]>)> {
    let size = usize::from(u16_at(bytes, 0)?);
    let key = u64_at(bytes, 4)?;
    let value = bytes.get(ENTRY_HEAD..size)?;
    match u16_at(bytes, 2)? {
        VALUE_KIND if value.len() <= VALUE_BYTES => Some((size, key, Some(value))),
        MARK_KIND if value.is_empty() => Some((size, key, None)),
        _ => None,
    }
}

/// The shown entries as an owned table.
pub fn owned(shown: &Shown) -> Entries {
    shown.iter().map(|(key, value)| (*key, Entry::new(*value))).collect()
}

impl Entry {
    fn new(value: Option<&[u8]>) -> Entry {
        value.map_or(Entry::DeleteMark, |value| Entry::Value(value.to_vec()))
    }

    /// The value, or none for a delete mark.
    pub fn value(&self) -> Option<&[u8]> {
        match self {
            Entry::Value(value) => Some(value),
            Entry::DeleteMark => None,
        }
    }
}

/// The least key of a table, which has at least one entry.
pub fn least(entries: &Entries) -> Key {
    *entries.keys().next().expect("a table has an entry")
}

/// The greatest key of a table, which has at least one entry.
pub fn greatest(entries: &Entries) -> Key {
    *entries.keys().next_back().expect("a table has an entry")
}
