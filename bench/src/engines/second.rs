//! The second implementation: the same lists over the same memory.

use super::SECOND;
use crate::lists::Runner;
use reference::implementation::{Implementation, Reference};
use reference::lent::Lent;

pub struct Second;

impl Runner for Second {
    fn name(&self) -> &'static str {
        SECOND
    }

    fn make(&self, places: usize, threshold: u64) -> Lent {
        let mut lent = Lent::zeroed(places);
        let number = Reference::default().make(&mut lent, threshold);
        assert_eq!(number, 0, "{}: making a store", self.name());
        lent
    }

    fn run(&self, lent: &mut Lent, list: &[u8], answers: &mut [u8]) -> (usize, usize) {
        let ran = Reference::default().run(lent, list, answers);
        assert_eq!((ran.number, ran.letter), (0, 0), "{}: number and letter of a run", self.name());
        (ran.served, ran.written)
    }
}
