//! Tables and summaries put together by hand, byte by byte and bit by bit. Nothing here comes from the second implementation but
//! the container of the lent memory.

use reference::lent::{Row, ROW_SUMMARY};

/// A key with its value, or with none for a delete mark.
pub type Entry = (u64, Option<String>);

/// Entries whose values are their keys in decimal digits.
pub fn digits(keys: &[u64]) -> Vec<Entry> {
    keys.iter().map(|key| (*key, Some(key.to_string()))).collect()
}

/// Delete marks of these keys.
pub fn marks(keys: impl IntoIterator<Item = u64>) -> Vec<Entry> {
    keys.into_iter().map(|key| (key, None)).collect()
}

/// A table of such entries.
pub fn table(keys: &[u64]) -> [u8; 1024] {
    table_of(&digits(keys))
}

pub fn table_of(entries: &[Entry]) -> [u8; 1024] {
    let mut used = Vec::new();
    for (key, value) in entries {
        let text = value.as_deref().unwrap_or("");
        used.extend((12 + text.len() as u16).to_le_bytes());
        used.extend([if value.is_some() { 1 } else { 2 }, 0]);
        used.extend(key.to_le_bytes());
        used.extend(text.as_bytes());
    }
    let mut bytes = [0; 1024];
    bytes[..2].copy_from_slice(&(8 + used.len() as u16).to_le_bytes());
    bytes[2] = 32;
    bytes[4] = entries.len() as u8;
    bytes[8..8 + used.len()].copy_from_slice(&used);
    bytes
}

/// The three bits of a key, as the order has them: of its bytes, lowest first, the exclusive or, the sum, and the sum of byte i times
/// i + 1, the sums modulo 256.
pub fn bits(key: u64) -> [u32; 3] {
    let bytes = key.to_le_bytes().map(u32::from);
    let xor = bytes.iter().fold(0, |all, byte| all ^ byte);
    let weighed: u32 = (1..).zip(bytes).map(|(weight, byte)| weight * byte).sum();
    [xor, bytes.iter().sum::<u32>() % 256, weighed % 256]
}

/// The four words of the summary of these keys: bit n is bit n mod 64 of word n / 64.
pub fn summary(keys: impl IntoIterator<Item = u64>) -> [u64; 4] {
    let mut words = [0; 4];
    for bit in keys.into_iter().flat_map(bits) {
        words[bit as usize / 64] |= 1 << (bit % 64);
    }
    words
}

/// Gives a card the summary of these keys.
pub fn summarize(card: &mut Row, keys: impl IntoIterator<Item = u64>) {
    card[ROW_SUMMARY..].copy_from_slice(&summary(keys));
}
