//! Keys: a line and a distance on it, compared as one number.

/// A key: line number (24 bits) times 2^40 plus distance in millimetres (40 bits).
///
/// ```
/// use zilgwern::Key;
///
/// let key = Key::of(3, 1_250).unwrap();
/// assert_eq!((key.line(), key.distance()), (3, 1_250));
/// assert!(Key::of(1 << 24, 0).is_none());
/// assert!(Key::LEAST < key && key < Key::GREATEST);
/// ```
#[derive(Clone, Copy, PartialEq, Eq, PartialOrd, Ord, Hash, Debug)]
pub struct Key(pub u64);

const DISTANCE_BITS: u32 = 40;

impl Key {
    /// The least key, 0. It is a key like any other.
    pub const LEAST: Key = Key(0);
    /// The greatest key, 2^64 - 1.
    pub const GREATEST: Key = Key(u64::MAX);

    /// The key of a line and a distance, or none where one of them has too many bits.
    pub fn of(line: u64, distance: u64) -> Option<Key> {
        let fits = line >> 24 == 0 && distance >> DISTANCE_BITS == 0;
        fits.then_some(Key(line << DISTANCE_BITS | distance))
    }

    /// The line number.
    pub fn line(self) -> u64 {
        self.0 >> DISTANCE_BITS
    }

    /// The distance, in millimetres.
    pub fn distance(self) -> u64 {
        self.0 & ((1 << DISTANCE_BITS) - 1)
    }
}

impl From<u64> for Key {
    fn from(number: u64) -> Key {
        Key(number)
    }
}
