//! What an implementation of the store looks like from outside, so that any can be judged.

use crate::lent::{Lent, Row};
use crate::reopen;
use crate::rules::{check_with_slip, letter_of};
use crate::run::{make, run_with_slip};
use crate::slip::Slip;

/// The numbers that a run gives back; the answers lie in the buffer.
#[derive(Clone, Copy, PartialEq, Eq, Debug)]
pub struct Ran {
    pub number: u16,
    /// The letter of the first broken rule where the number is 5, else 0.
    pub letter: u8,
    pub served: usize,
    pub written: usize,
}

/// The numbers that saving gives back; the book lies in the buffer.
#[derive(Clone, Copy, PartialEq, Eq, Debug)]
pub struct Saved {
    pub number: u16,
    /// As for a run.
    pub letter: u8,
    /// Bytes of the whole, 0 if refused.
    pub length: usize,
}

/// An implementation works on lent memory alone and keeps nothing of its own between calls.
pub trait Implementation {
    /// Makes a new store: 0, 1 or 2.
    fn make(&self, lent: &mut Lent, threshold: u64) -> u16;

    /// Checks a store: 0, 1 or 5, and the letter of the first broken rule with 5, else 0.
    fn check(&self, lent: &Lent) -> (u16, u8);

    /// Runs a list and writes answers to the front of the buffer.
    fn run(&self, lent: &mut Lent, list: &[u8], answers: &mut [u8]) -> Ran;

    /// Saves the book to the front of the buffer: 0, 1, 5 or 3.
    fn save(&self, lent: &Lent, buffer: &mut [u8]) -> Saved;

    /// Opens a saved book over the lent area, with as many working rows as cards: 0, 1, 21, 22 or 5, and the letter.
    fn open(&self, lent: &mut Lent, saved: &[u8], working: &mut [Row]) -> (u16, u8);
}

/// The second implementation, with a slip planted if it is a mutant.
#[derive(Clone, Copy, Default, Debug)]
pub struct Reference {
    pub slip: Option<Slip>,
}

impl Implementation for Reference {
    fn make(&self, lent: &mut Lent, threshold: u64) -> u16 {
        make(lent, threshold)
    }

    fn check(&self, lent: &Lent) -> (u16, u8) {
        let verdict = check_with_slip(lent, self.slip);
        (verdict.number, letter_of(&verdict.broken, self.slip))
    }

    fn run(&self, lent: &mut Lent, list: &[u8], answers: &mut [u8]) -> Ran {
        let outcome = run_with_slip(lent, list, answers.len(), self.slip);
        let written = outcome.answers.len();
        answers[..written].copy_from_slice(&outcome.answers);
        let letter = letter_of(&outcome.broken, self.slip);
        Ran { number: outcome.number, letter, served: outcome.served, written }
    }

    fn save(&self, lent: &Lent, buffer: &mut [u8]) -> Saved {
        let saved = reopen::save(lent, buffer.len(), self.slip);
        let length = saved.bytes.len();
        buffer[..length].copy_from_slice(&saved.bytes);
        Saved { number: saved.number, letter: letter_of(&saved.broken, self.slip), length }
    }

    fn open(&self, lent: &mut Lent, saved: &[u8], working: &mut [Row]) -> (u16, u8) {
        let (number, broken) = reopen::open(lent, saved, working, self.slip);
        (number, letter_of(&broken, self.slip))
    }
}
