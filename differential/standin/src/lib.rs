//! A stand-in for the proved static library: the exported functions over the second implementation, with a fault
//! planted on request. It shows which tests over the library would see which fault; it is no part of what is delivered.

mod fault;
mod fault_saved;

use fault::Done;
use fault_saved::{plant_in_opening, plant_in_saving, OpeningDone, SavingDone};
use reference::implementation::{Implementation, Reference};
use reference::lent::{Lent, Row};
use std::slice::from_raw_parts_mut;

/// The pieces as C lends them.
struct Raw {
    area: *mut [u8],
    cards: *mut [Row],
    lists: *mut [u16],
    head: *mut [u64; 10],
    memory: *mut [u8; 1024],
}

impl Raw {
    unsafe fn read(&self) -> Lent {
        Lent {
            area: (*self.area).to_vec(),
            cards: (*self.cards).to_vec(),
            lists: (*self.lists).to_vec(),
            head: *self.head,
            memory: *self.memory,
        }
    }

    unsafe fn write(&self, lent: &Lent) {
        (*self.area).copy_from_slice(&lent.area);
        (*self.cards).copy_from_slice(&lent.cards);
        (*self.lists).copy_from_slice(&lent.lists);
        *self.head = lent.head;
        *self.memory = lent.memory;
    }
}

/// Defines an exported function over `Raw` and its own parameters; `host/sys` declares the same.
macro_rules! exported {
    ($name:ident($($own:ident: $type:ty),*), |$raw:ident| $body:expr) => {
        /// # Safety
        ///
        /// As the C header says.
        #[no_mangle]
        pub unsafe extern "C" fn $name(
            area: *mut u8, areas: usize, cards: *mut Row, rows: usize, lists: *mut u16, items: usize,
            head: *mut [u64; 10], memory: *mut [u8; 1024], $($own: $type),*
        ) -> u64 {
            let (area, cards) = (from_raw_parts_mut(area, areas), from_raw_parts_mut(cards, rows));
            let $raw = Raw { area, cards, lists: from_raw_parts_mut(lists, items), head, memory };
            $body
        }
    };
}

exported!(zilgwern_make(threshold: u64), |raw| {
    let mut lent = raw.read();
    let number = Reference::default().make(&mut lent, threshold);
    raw.write(&lent);
    u64::from(number)
});

exported!(zilgwern_check(letter: *mut u64), |raw| {
    let (number, found) = Reference { slip: fault::slip() }.check(&raw.read());
    *letter = u64::from(found);
    u64::from(number)
});

exported!(
    zilgwern_run(list: *mut u8, bytes: usize, answer: *mut u8, room: usize, outcome: *mut [u64; 3]),
    |raw| {
        let mut lent = raw.read();
        let (list, answers) = (from_raw_parts_mut(list, bytes), from_raw_parts_mut(answer, room));
        let ran = Reference { slip: fault::slip() }.run(&mut lent, list, answers);
        raw.write(&lent);
        let Raw { area, cards, lists, head, memory } = raw;
        let (area, cards, lists, head) = (&mut *area, &mut *cards, &mut *lists, &mut *head);
        let (memory, outcome) = (&mut *memory, &mut *outcome);
        *outcome = [u64::from(ran.letter), ran.served as u64, ran.written as u64];
        let number = u64::from(ran.number);
        let mut done = Done { area, cards, lists, head, memory, list, answers, outcome, number };
        fault::plant(&mut done);
        done.number
    }
);

exported!(zilgwern_save(buffer: *mut u8, room: usize, outcome: *mut [u64; 2]), |raw| {
    let buffer = from_raw_parts_mut(buffer, room);
    let saved = Reference { slip: fault::slip() }.save(&raw.read(), buffer);
    let (memory, outcome) = (&mut *raw.memory, &mut *outcome);
    *outcome = [u64::from(saved.letter), saved.length as u64];
    let mut done = SavingDone { memory, buffer, outcome, number: u64::from(saved.number) };
    plant_in_saving(&mut done);
    done.number
});

exported!(
    zilgwern_open(book: *mut u8, bytes: usize, working: *mut Row, count: usize, letter: *mut u64),
    |raw| {
        let (book, working) = (from_raw_parts_mut(book, bytes), from_raw_parts_mut(working, count));
        let before = raw.read();
        let mut lent = before.clone();
        let (number, found) = Reference { slip: fault::slip() }.open(&mut lent, book, working);
        raw.write(&lent);
        *letter = u64::from(found);
        let mut done = OpeningDone {
            before: &before,
            area: &mut *raw.area,
            cards: &mut *raw.cards,
            head: &mut *raw.head,
            memory: &mut *raw.memory,
            book,
            working,
            letter: &mut *letter,
            number: u64::from(number),
        };
        plant_in_opening(&mut done);
        done.number
    }
);
