//! Summary bits (note 6): 256 bits with each card, by which a look-up sees of most tables that they don't hold its key, without
//! opening them.

use crate::limits::SUMMARY_BYTES;
use crate::slip::Slip;
use crate::table::{Entries, Entry, Key};

/// The bits as bytes; bit n is bit n mod 8 of byte n / 8.
pub type Summary = [u8; SUMMARY_BYTES];

/// The summary of no key, which is that of a free card.
pub const NO_BITS: Summary = [0; SUMMARY_BYTES];

/// The numbers of a key's three bits, which may coincide: of its eight bytes, lowest first, the exclusive or, the sum, and the
/// sum of each times its place counted from 1, both modulo 256.
pub fn bits_of(key: Key, slip: Option<Slip>) -> [u8; 3] {
    let from = if slip == Some(Slip::WeightsFromZero) { 0 } else { 1 };
    let (mut xor, mut sum, mut weighed) = (0u8, 0u8, 0u8);
    for (weight, byte) in (from..).zip(key.to_le_bytes()) {
        xor ^= byte;
        sum = sum.wrapping_add(byte);
        weighed = weighed.wrapping_add(byte.wrapping_mul(weight));
    }
    [xor, sum, weighed]
}

/// Sets the three bits of a key.
pub fn add_key(summary: &mut Summary, key: Key, slip: Option<Slip>) {
    for bit in bits_of(key, slip) {
        summary[usize::from(bit / 8)] |= 1 << (bit % 8);
    }
}

/// Whether the three bits of a key are set, so that a table may hold it.
pub fn may_hold(summary: &Summary, key: Key, slip: Option<Slip>) -> bool {
    bits_of(key, slip).iter().all(|bit| summary[usize::from(bit / 8)] & (1 << (bit % 8)) != 0)
}

/// The summary of these keys.
pub fn summary_of(keys: impl IntoIterator<Item = Key>) -> Summary {
    let mut summary = NO_BITS;
    keys.into_iter().for_each(|key| add_key(&mut summary, key, None));
    summary
}

/// The summary of a table, whose delete marks count like values.
pub fn summary_of_table(table: &Entries, slip: Option<Slip>) -> Summary {
    let mut summary = NO_BITS;
    let values_alone = slip == Some(Slip::MarksWithoutBits);
    let counts = |entry: &Entry| !values_alone || entry.value().is_some();
    let keys = table.iter().filter(|(_, entry)| counts(entry)).map(|(key, _)| *key);
    keys.for_each(|key| add_key(&mut summary, key, slip));
    summary
}

/// How many bits are set.
pub fn bits_set(summary: &Summary) -> usize {
    summary.iter().map(|byte| byte.count_ones() as usize).sum()
}
