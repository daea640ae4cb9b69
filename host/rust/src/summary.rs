//! A card's summary: 256 bits by which a look-up sees of most tables that they do not hold its key.

use crate::{Key, Row};
use zilgwern_sys::{ROW_SUMMARY, SUMMARY_BYTES};

/// The summary of a table's keys, those of delete marks too: three bits are set for each, which may coincide. Bit n is bit n mod 8
/// of byte n / 8.
///
/// ```
/// use zilgwern::{Key, Summary};
///
/// // Of key 5 all three bits are one; of key 1,025 the bytes are 1 and 4.
/// assert_eq!(Summary::bits_of(Key(5)), [5, 5, 5]);
/// assert_eq!(Summary::bits_of(Key(1_025)), [1 ^ 4, 1 + 4, 1 + 2 * 4]);
/// let summary = Summary::of([Key(1_025)]);
/// assert_eq!((summary.bits_set(), summary.bytes()[..2].to_vec()), (2, vec![1 << 5, 1 << 1]));
/// // A key whose bits are set may be in the table, and one with a clear bit is not.
/// assert!(summary.may_hold(Key(5)) && !summary.may_hold(Key(6)));
/// ```
#[derive(Clone, Copy, PartialEq, Eq, Default, Debug)]
pub struct Summary([u8; SUMMARY_BYTES]);

impl Summary {
    /// The bits of a summary, set or not.
    pub const BITS: usize = 8 * SUMMARY_BYTES;

    /// The numbers of a key's three bits. Of its eight bytes, lowest first: their exclusive or, their sum, and the sum of each times
    /// its place counted from 1, the sums modulo 256.
    pub fn bits_of(key: Key) -> [u8; 3] {
        (1..).zip(key.0.to_le_bytes()).fold(
            [0; 3],
            |[xor, sum, weighed]: [u8; 3], (place, byte)| {
                [xor ^ byte, sum.wrapping_add(byte), weighed.wrapping_add(byte.wrapping_mul(place))]
            },
        )
    }

    /// The summary of these keys.
    pub fn of(keys: impl IntoIterator<Item = Key>) -> Summary {
        let mut summary = Summary::default();
        for bit in keys.into_iter().flat_map(Summary::bits_of) {
            summary.0[usize::from(bit / 8)] |= 1 << (bit % 8);
        }
        summary
    }

    /// Whether the three bits of this key are set. If not, no table with this summary holds the key, and a look-up does not open it.
    pub fn may_hold(&self, key: Key) -> bool {
        Summary::bits_of(key).iter().all(|bit| self.0[usize::from(bit / 8)] >> (bit % 8) & 1 == 1)
    }

    /// How many bits are set.
    pub fn bits_set(&self) -> usize {
        self.0.iter().map(|byte| byte.count_ones() as usize).sum()
    }

    /// The bits as they stand in a card.
    pub fn bytes(&self) -> [u8; SUMMARY_BYTES] {
        self.0
    }

    pub(crate) fn of_row(row: &Row) -> Summary {
        let mut summary = Summary::default();
        for (bytes, word) in summary.0.chunks_exact_mut(8).zip(&row[ROW_SUMMARY..]) {
            bytes.copy_from_slice(&word.to_le_bytes());
        }
        summary
    }

    pub(crate) fn write_to(&self, row: &mut Row) {
        for (word, bytes) in row[ROW_SUMMARY..].iter_mut().zip(self.0.chunks_exact(8)) {
            *word = crate::bytes::word(bytes, 0);
        }
    }
}
