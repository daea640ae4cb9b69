//! The proved store with each call on a painted stack, to be led through trials: the most stack that each of the five used.

use crate::stack::Stack;
use crate::{in_place, narrow, Outcome, SaveOutcome};
use reference::implementation::{Implementation, Ran, Saved};
use reference::lent::{Lent, Row};
use std::cell::RefCell;
use std::collections::BTreeMap;

pub struct Measured {
    stack: RefCell<Stack>,
    most: RefCell<BTreeMap<&'static str, usize>>,
}

impl Measured {
    /// Nothing is measured yet.
    pub fn begin() -> Measured {
        Measured { stack: RefCell::new(Stack::to_paint()), most: RefCell::default() }
    }

    /// The most bytes of stack that this call used so far; none if it was never made.
    pub fn most(&self, name: &str) -> Option<usize> {
        self.most.borrow().get(name).copied()
    }

    /// Makes the call of this name and notes what it used, with the hundred bytes or so of this caller.
    fn call(&self, name: &'static str, mut call: impl FnMut() -> u64) -> u64 {
        let mut number = 0;
        let used = self.stack.borrow_mut().bytes_used(|| number = call());
        let mut all = self.most.borrow_mut();
        let most = all.entry(name).or_default();
        *most = used.max(*most);
        number
    }
}

impl Implementation for Measured {
    fn make(&self, lent: &mut Lent, threshold: u64) -> u16 {
        let pieces = in_place(lent);
        // SAFETY: each pointer comes with the count of what it points to, here and below.
        let number = self.call("make", || unsafe { pieces.make(threshold) });
        narrow("number", number)
    }

    fn check(&self, lent: &Lent) -> (u16, u8) {
        let (mut lent, mut letter) = (lent.clone(), 0);
        let pieces = in_place(&mut lent);
        let number = self.call("check", || unsafe { pieces.check(&mut letter) });
        (narrow("number", number), narrow("letter", letter))
    }

    fn run(&self, lent: &mut Lent, list: &[u8], answers: &mut [u8]) -> Ran {
        let (pieces, mut outcome) = (in_place(lent), [0; 3]);
        let number = self.call("run", || unsafe { pieces.run(list, answers, &mut outcome) });
        let [letter, served, written] = outcome;
        Outcome { number, letter, served, written }.narrow()
    }

    fn save(&self, lent: &Lent, buffer: &mut [u8]) -> Saved {
        let (mut lent, mut saved) = (lent.clone(), [0; 2]);
        let pieces = in_place(&mut lent);
        let number = self.call("save", || unsafe { pieces.save(buffer, &mut saved) });
        let [letter, length] = saved;
        SaveOutcome { number, letter, length }.narrow()
    }

    fn open(&self, lent: &mut Lent, saved: &[u8], working: &mut [Row]) -> (u16, u8) {
        let (pieces, mut letter) = (in_place(lent), 0);
        let number = self.call("open", || unsafe { pieces.open(saved, working, &mut letter) });
        (narrow("number", number), narrow("letter", letter))
    }
}
