//! The faults that can be planted in a saving or an opening.

use crate::fault::{beside, due, fault, spoil_byte};
use reference::lent::{Lent, Row, ROW_SUMMARY};

/// A saving that was done rightly, and is now to be spoilt.
pub struct SavingDone<'a> {
    pub memory: &'a mut [u8; 1024],
    pub buffer: &'a mut [u8],
    pub outcome: &'a mut [u64; 2],
    pub number: u64,
}

/// An opening that was done rightly, and is now to be spoilt.
pub struct OpeningDone<'a> {
    /// What was lent before.
    pub before: &'a Lent,
    pub area: &'a mut [u8],
    pub cards: &'a mut [Row],
    pub head: &'a mut [u64; 10],
    pub memory: &'a mut [u8; 1024],
    pub book: &'a mut [u8],
    pub working: &'a mut [Row],
    pub letter: &'a mut u64,
    pub number: u64,
}

/// A fault with its name.
type SavingFault = (&'static str, fn(&mut SavingDone));
type OpeningFault = (&'static str, fn(&mut OpeningDone));

/// Whether a fault of this name is in a saving or an opening.
pub fn has(name: &str) -> bool {
    SAVING.iter().any(|(own, _)| *own == name) || OPENING.iter().any(|(own, _)| *own == name)
}

/// Plants the fault in a saving, if it is one of these.
pub fn plant_in_saving(done: &mut SavingDone) {
    let found = SAVING.iter().find(|(name, _)| *name == fault());
    if let Some((_, spoil)) = found.filter(|_| due()) {
        spoil(done);
    }
}

/// Plants the fault in an opening, if it is one of these.
pub fn plant_in_opening(done: &mut OpeningDone) {
    let found = OPENING.iter().find(|(name, _)| *name == fault());
    if let Some((_, spoil)) = found.filter(|_| due()) {
        spoil(done);
    }
}

const SAVING: &[SavingFault] = &[
    ("save_buffer_after", |done| beside(done.buffer, true)),
    ("save_buffer_before", |done| beside(done.buffer, false)),
    ("save_outcome_after", |done| beside(done.outcome, true)),
    ("save_changes_store", |done| done.memory[1023] ^= 1),
    ("save_byte", |done| spoil_byte(done.buffer[..done.outcome[1] as usize].last_mut())),
    ("save_beyond", |done| spoil_byte(done.buffer.get_mut(done.outcome[1] as usize))),
    ("save_last_byte", |done| spoil_byte(done.buffer[done.outcome[1] as usize..].last_mut())),
    ("save_length_on_refusal", |done| done.outcome[1] |= u64::from(done.number == 3)),
    ("save_length_cut", |done| done.outcome[1] &= 0xFFFF),
    ("save_refused_writes", |done| {
        spoil_byte(done.buffer.first_mut().filter(|_| done.number != 0));
    }),
    ("save_letter_missing", |done| done.outcome[0] = 0),
    ("save_letter_with_3", |done| done.outcome[0] |= u64::from(done.number == 3)),
    ("save_room_1_short", |done| {
        done.number = if done.outcome[1] == done.buffer.len() as u64 { 3 } else { done.number };
    }),
];

const OPENING: &[OpeningFault] = &[
    ("open_working_after", |done| beside(done.working, true)),
    ("open_working_before", |done| beside(done.working, false)),
    ("open_letter_after", |done| beside(std::slice::from_mut(done.letter), true)),
    ("open_book_changed", |done| spoil_byte(done.book.last_mut())),
    ("open_area_changed", |done| spoil_byte(done.area.last_mut())),
    ("open_refused_writes_head", |done| done.head[1] ^= u64::from(done.number == 5)),
    ("open_refused_writes_memory", |done| done.memory[9] ^= u8::from(done.number == 21)),
    ("open_refused_writes_cards", |done| {
        if done.number == 5 {
            done.cards.copy_from_slice(done.working);
        }
    }),
    ("open_working_stays", |done| {
        if done.number == 0 {
            done.working.iter_mut().for_each(|row| row[33] ^= 1);
        }
    }),
    ("open_bits_left", |done| {
        if let (0, Some(row)) = (done.number, done.cards.iter_mut().find(|row| row[0] == 1)) {
            row[ROW_SUMMARY..].fill(0);
        }
    }),
    ("open_free_bits_left", |done| {
        if let (0, Some(place)) = (done.number, done.cards.iter().position(|row| row[0] == 0)) {
            let old = &done.before.cards[place][ROW_SUMMARY..];
            done.cards[place][ROW_SUMMARY..].copy_from_slice(old);
        }
    }),
    ("open_working_bits", |done| {
        if done.number == 5 {
            done.working.iter_mut().for_each(|row| row[ROW_SUMMARY] ^= 1);
        }
    }),
    ("open_working_written", |done| {
        if matches!(done.number, 21 | 22) {
            done.working.iter_mut().take(1).for_each(|row| row[0] ^= 1);
        }
    }),
    ("open_old_list_left", |done| done.head[9] |= u64::from(done.number == 0)),
    ("open_old_memory_left", |done| {
        if done.number == 0 {
            done.memory[1020..].copy_from_slice(&done.before.memory[1020..]);
        }
    }),
    ("open_added_card_left", |done| {
        if let (0, Some(row)) = (done.number, done.cards.last_mut()) {
            row[1] ^= 1;
        }
    }),
    ("open_letter_missing", |done| *done.letter = 0),
    ("open_letter_with_22", |done| *done.letter |= u64::from(done.number == 22)),
    ("open_5_for_21", |done| done.number = if done.number == 21 { 5 } else { done.number }),
    ("open_21_for_22", |done| done.number = if done.number == 22 { 21 } else { done.number }),
    ("open_1_for_22", |done| done.number = if done.number == 22 { 1 } else { done.number }),
];
