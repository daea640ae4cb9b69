//! The proved store as the second implementation's tests see it: every call copies the lent memory into guarded buffers,
//! and fails if a byte outside them was touched.

pub mod damage;
pub mod fuzz;
mod fuzz_saved;
pub mod guarded;
pub mod histories;
pub mod measured;
pub mod refused;
pub mod stack;

use guarded::Guarded;
use reference::implementation::{Implementation, Ran, Saved};
use reference::lent::{Lent, Row, ROW_WORDS};
use zilgwern_sys::{Head, Table};

/// What stands before and behind rows.
const ROW_GUARD: Row = [0xA5A5_A5A5_A5A5_A5A5; ROW_WORDS];

/// The lent memory, each piece between guards.
struct Pieces {
    area: Guarded<u8>,
    cards: Guarded<Row>,
    lists: Guarded<u16>,
    head: Guarded<Head>,
    memory: Guarded<Table>,
}

impl Pieces {
    fn of(lent: &Lent) -> Pieces {
        Pieces {
            area: Guarded::of(&lent.area, 0xA5),
            cards: Guarded::of(&lent.cards, ROW_GUARD),
            lists: Guarded::of(&lent.lists, 0xA5A5),
            head: Guarded::of(&[lent.head], [0xA5A5_A5A5_A5A5_A5A5; 10]),
            memory: Guarded::of(&[lent.memory], [0xA5; 1024]),
        }
    }

    fn raw(&mut self) -> zilgwern_sys::Pieces {
        zilgwern_sys::Pieces {
            area: self.area.inside(),
            cards: self.cards.inside(),
            lists: self.lists.inside(),
            head: self.head.first(),
            memory: self.memory.first(),
        }
    }

    /// What the call left, if it touched no guard.
    fn back(self) -> Lent {
        Lent {
            area: self.area.back("area"),
            cards: self.cards.back("cards"),
            lists: self.lists.back("lists"),
            head: self.head.back("head")[0],
            memory: self.memory.back("memory")[0],
        }
    }
}

/// Makes a store in lent memory of any sizes and contents.
pub fn make(lent: &mut Lent, threshold: u64) -> u64 {
    let mut pieces = Pieces::of(lent);
    // SAFETY: each pointer comes with the count of the buffer behind it.
    let number = unsafe { pieces.raw().make(threshold) };
    *lent = pieces.back();
    number
}

/// Checks a store: number and letter. Fails if the call changed anything that was lent.
pub fn check(lent: &Lent) -> (u64, u64) {
    let mut pieces = Pieces::of(lent);
    let mut letter = 0xA5A5;
    // SAFETY: as above.
    let number = unsafe { pieces.raw().check(&mut letter) };
    let after = pieces.back();
    assert_eq!(after.difference(lent), None, "check changed what it was lent");
    (number, letter)
}

/// What `zilgwern_run` gives back, before anything is cut to smaller numbers.
#[derive(Clone, Copy, PartialEq, Eq, Debug)]
pub struct Outcome {
    pub number: u64,
    pub letter: u64,
    pub served: u64,
    pub written: u64,
}

impl Outcome {
    /// As trials have it.
    fn narrow(self) -> Ran {
        Ran {
            number: narrow("number", self.number),
            letter: narrow("letter", self.letter),
            served: narrow("requests served", self.served),
            written: narrow("bytes written", self.written),
        }
    }
}

/// Runs a list. Fails if the call changed the list or touched a byte outside of what it was lent.
pub fn run(lent: &mut Lent, list: &[u8], answers: &mut [u8]) -> Outcome {
    let mut pieces = Pieces::of(lent);
    let mut requests = Guarded::of(list, 0xA5);
    let mut answer = Guarded::of(answers, 0x5A);
    let mut outcome = Guarded::of(&[[0xA5A5; 3]], [0xA5A5_A5A5_A5A5_A5A5; 3]);
    // SAFETY: as above.
    let number = unsafe { pieces.raw().run(requests.inside(), answer.inside(), outcome.first()) };
    *lent = pieces.back();
    assert!(requests.back("requests") == list, "run changed the list");
    answers.copy_from_slice(&answer.back("answer"));
    let [letter, served, written] = outcome.back("outcome")[0];
    Outcome { number, letter, served, written }
}

/// What `zilgwern_save` gives back, before anything is cut to smaller numbers.
#[derive(Clone, Copy, PartialEq, Eq, Debug)]
pub struct SaveOutcome {
    pub number: u64,
    pub letter: u64,
    pub length: u64,
}

impl SaveOutcome {
    /// As trials have it.
    fn narrow(self) -> Saved {
        Saved {
            number: narrow("number", self.number),
            letter: narrow("letter", self.letter),
            length: narrow("saved length", self.length),
        }
    }
}

/// Saves the book. Fails if the call changed what was lent or touched a byte outside of the buffer.
pub fn save(lent: &Lent, buffer: &mut [u8]) -> SaveOutcome {
    let mut pieces = Pieces::of(lent);
    let mut bytes = Guarded::of(buffer, 0x5A);
    let mut outcome = Guarded::of(&[[0xA5A5; 2]], [0xA5A5_A5A5_A5A5_A5A5; 2]);
    // SAFETY: as above.
    let number = unsafe { pieces.raw().save(bytes.inside(), outcome.first()) };
    assert_eq!(pieces.back().difference(lent), None, "save changed what it was lent");
    buffer.copy_from_slice(&bytes.back("save buffer"));
    let [letter, length] = outcome.back("outcome of saving")[0];
    SaveOutcome { number, letter, length }
}

/// Opens a saved book: number and letter. Fails if the call changed the saved bytes or the area, or touched a byte outside of what
/// it was lent.
pub fn open(lent: &mut Lent, saved: &[u8], working: &mut [Row]) -> (u64, u64) {
    let mut pieces = Pieces::of(lent);
    let mut book = Guarded::of(saved, 0xA5);
    let mut rows = Guarded::of(working, ROW_GUARD);
    let mut letter = Guarded::of(&[0xA5A5], 0xA5A5_A5A5_A5A5_A5A5);
    // SAFETY: as above.
    let number = unsafe { pieces.raw().open(book.inside(), rows.inside(), letter.first()) };
    let area = std::mem::take(&mut lent.area);
    *lent = pieces.back();
    assert!(lent.area == area, "open changed the area");
    assert!(book.back("saved book") == saved, "open changed the saved bytes");
    working.copy_from_slice(&rows.back("working rows"));
    (number, letter.back("letter")[0])
}

/// The proved store, to be led through the second implementation's trials.
pub struct Proved;

/// A number that must fit a smaller type, so that no high bits go unseen.
fn narrow<T: TryFrom<u64>>(name: &str, number: u64) -> T {
    T::try_from(number).unwrap_or_else(|_| panic!("{name} is {number}"))
}

impl Implementation for Proved {
    fn make(&self, lent: &mut Lent, threshold: u64) -> u16 {
        narrow("number", make(lent, threshold))
    }

    fn check(&self, lent: &Lent) -> (u16, u8) {
        let (number, letter) = check(lent);
        (narrow("number", number), narrow("letter", letter))
    }

    fn run(&self, lent: &mut Lent, list: &[u8], answers: &mut [u8]) -> Ran {
        run(lent, list, answers).narrow()
    }

    fn save(&self, lent: &Lent, buffer: &mut [u8]) -> Saved {
        save(lent, buffer).narrow()
    }

    fn open(&self, lent: &mut Lent, saved: &[u8], working: &mut [Row]) -> (u16, u8) {
        let (number, letter) = open(lent, saved, working);
        (narrow("number", number), narrow("letter", letter))
    }
}

/// The pieces as they stand, without guards and copies, for timing and for measuring stack.
fn in_place(lent: &mut Lent) -> zilgwern_sys::Pieces {
    let Lent { area, cards, lists, head, memory } = lent;
    zilgwern_sys::Pieces {
        area: &mut area[..],
        cards: &mut cards[..],
        lists: &mut lists[..],
        head,
        memory,
    }
}

/// A check without guards and copies.
pub fn check_in_place(lent: &mut Lent) -> (u64, u64) {
    let mut letter = 0;
    // SAFETY: as above.
    let number = unsafe { in_place(lent).check(&mut letter) };
    (number, letter)
}

/// A run without guards and copies.
pub fn run_in_place(lent: &mut Lent, list: &[u8], answers: &mut [u8]) -> Outcome {
    let mut outcome = [0; 3];
    // SAFETY: as above.
    let number = unsafe { in_place(lent).run(list, answers, &mut outcome) };
    let [letter, served, written] = outcome;
    Outcome { number, letter, served, written }
}
