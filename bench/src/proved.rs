//! The proved store over its static library, on memory as the second implementation has it, so that both run the same bytes.

use crate::engines::PROVED;
use crate::lists::Runner;
use differential::{make, run_in_place, Outcome};
use reference::lent::Lent;

pub struct Proved;

impl Runner for Proved {
    fn name(&self) -> &'static str {
        PROVED
    }

    fn make(&self, places: usize, threshold: u64) -> Lent {
        let mut lent = Lent::zeroed(places);
        assert_eq!(make(&mut lent, threshold), 0, "{}: making a store", self.name());
        lent
    }

    fn run(&self, lent: &mut Lent, list: &[u8], answers: &mut [u8]) -> (usize, usize) {
        let Outcome { number, letter, served, written } = run_in_place(lent, list, answers);
        assert_eq!((number, letter), (0, 0), "{}: number and letter of a run", self.name());
        (served as usize, written as usize)
    }
}
