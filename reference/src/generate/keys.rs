//! Where keys come from: small sets that repeat, ends of the key range, lines and distances.

use super::random::{mix, Random};
use crate::table::Key;
use std::collections::BTreeSet;

/// A set of keys to draw from.
#[derive(Clone, Copy, PartialEq, Eq, Debug)]
pub enum Keys {
    /// The numbers below a bound.
    Dense(u64),
    /// As many numbers from the least key up as from the greatest key down.
    Edges(u64),
    /// So many keys spread over the whole range.
    Wide(u64),
    /// Joints of a few lines: line times 2^40 plus distance.
    Survey(u64),
}

impl Keys {
    pub fn draw(&self, random: &mut Random) -> Key {
        match *self {
            Keys::Dense(bound) => random.word() % bound,
            Keys::Edges(bound) => {
                let distance = random.word() % bound;
                if random.once_in(2) {
                    distance
                } else {
                    Key::MAX - distance
                }
            }
            Keys::Wide(bound) => mix(random.word() % bound),
            Keys::Survey(bound) => {
                let joint = random.word() % bound;
                ((joint % 7) << 40) + (joint / 7) * 2500
            }
        }
    }

    /// About so many different keys; fewer where the set is small.
    pub fn draw_set(&self, random: &mut Random, count: usize) -> BTreeSet<Key> {
        (0..count).map(|_| self.draw(random)).collect()
    }
}
