//! A small seeded generator of numbers (splitmix64), so that every test run is the same.

use crate::lent::{Lent, ROW_SUMMARY};

/// The state of the generator.
#[derive(Clone, Debug)]
pub struct Random(u64);

impl Random {
    pub fn new(seed: u64) -> Random {
        Random(seed)
    }

    /// Any 64-bit number.
    pub fn word(&mut self) -> u64 {
        self.0 = self.0.wrapping_add(0x9E37_79B9_7F4A_7C15);
        mix(self.0)
    }

    /// A number below the bound, which is not zero.
    pub fn below(&mut self, bound: usize) -> usize {
        (self.word() % bound as u64) as usize
    }

    /// True once in so many times.
    pub fn once_in(&mut self, times: usize) -> bool {
        self.below(times) == 0
    }

    pub fn pick<'a, T>(&mut self, items: &'a [T]) -> &'a T {
        &items[self.below(items.len())]
    }

    pub fn shuffle<T>(&mut self, items: &mut [T]) {
        for last in (1..items.len()).rev() {
            items.swap(last, self.below(last + 1));
        }
    }

    pub fn bytes(&mut self, count: usize) -> Vec<u8> {
        (0..count).map(|_| self.word() as u8).collect()
    }
}

/// Spreads a number over all 64 bits; different numbers stay different.
pub fn mix(number: u64) -> u64 {
    let once = (number ^ (number >> 30)).wrapping_mul(0xBF58_476D_1CE4_E5B9);
    let twice = (once ^ (once >> 27)).wrapping_mul(0x94D0_49BB_1331_11EB);
    twice ^ (twice >> 31)
}

/// Lent memory of so many places and any content. The summaries come from the words before them, so that what is drawn after this is
/// what it was before there were any.
pub fn any_lent(random: &mut Random, places: usize) -> Lent {
    let mut lent = Lent::zeroed(places);
    lent.area = random.bytes(lent.area.len());
    let rows = lent.cards.iter_mut().flat_map(|row| &mut row[..ROW_SUMMARY]);
    rows.chain(lent.head.iter_mut()).for_each(|word| *word = random.word());
    for row in &mut lent.cards {
        let drawn = *row;
        row[ROW_SUMMARY..].iter_mut().zip(drawn).for_each(|(word, other)| *word = mix(other));
    }
    lent.lists.fill_with(|| random.word() as u16);
    lent.memory.fill_with(|| random.word() as u8);
    lent
}
