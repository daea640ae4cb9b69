//! The faults that can be planted in a run: STANDIN_FAULT names one of the list below, a slip of the second implementation
//! (in every call), or `result:FROM:TO` or `number:FROM:TO`. STANDIN_RARE=N plants it in one of N runs only. Those of saving and
//! opening are in `fault_saved`.

use reference::lent::{Row, LINK_NUMBER, ROW_COUNT, ROW_LINKS, ROW_SUMMARY, ROW_WORDS};
use reference::slip::Slip;
use std::sync::atomic::{AtomicU64, Ordering};
use std::sync::OnceLock;

/// A run that was done rightly, and is now to be spoilt.
pub struct Done<'a> {
    pub area: &'a mut [u8],
    pub cards: &'a mut [Row],
    pub lists: &'a mut [u16],
    pub head: &'a mut [u64; 10],
    pub memory: &'a mut [u8; 1024],
    pub list: &'a mut [u8],
    pub answers: &'a mut [u8],
    pub outcome: &'a mut [u64; 3],
    pub number: u64,
}

fn variable(name: &str) -> String {
    std::env::var(name).unwrap_or_default()
}

pub fn fault() -> &'static str {
    static FAULT: OnceLock<String> = OnceLock::new();
    FAULT.get_or_init(|| variable("STANDIN_FAULT"))
}

/// The slip of that name.
pub fn slip() -> Option<Slip> {
    static SLIP: OnceLock<Option<Slip>> = OnceLock::new();
    *SLIP.get_or_init(|| Slip::ALL.iter().copied().find(|slip| format!("{slip:?}") == fault()))
}

/// Whether this run is one of those to be spoilt.
pub fn due() -> bool {
    static RARE: OnceLock<u64> = OnceLock::new();
    static RUNS: AtomicU64 = AtomicU64::new(0);
    let rare = *RARE.get_or_init(|| variable("STANDIN_RARE").parse().unwrap_or(1));
    RUNS.fetch_add(1, Ordering::Relaxed) % rare == rare - 1
}

/// Plants the fault that was asked for, if any.
pub fn plant(done: &mut Done) {
    if fault().is_empty() || slip().is_some() || crate::fault_saved::has(fault()) || !due() {
        return;
    }
    if let [what, from, to] = fault().split(':').collect::<Vec<_>>()[..] {
        let number = |word: &str| word.parse().expect("a number behind the colon");
        return done.exchange(what, number(from), number(to));
    }
    let found = FAULTS.iter().find(|(name, _)| *name == fault());
    let (_, spoil) = found.expect("STANDIN_FAULT names a fault");
    spoil(done);
}

impl Done<'_> {
    fn written(&self) -> usize {
        self.outcome[2] as usize
    }

    /// One number in place of another, as the run's number or in replies.
    fn exchange(&mut self, what: &str, from: u64, to: u64) {
        if what == "number" && self.number == from {
            self.number = to;
        }
        let (mut at, end) = (0, if what == "result" { self.written() } else { 0 });
        while at < end {
            let pair = |at: usize| u16::from_le_bytes([self.answers[at], self.answers[at + 1]]);
            let (length, result) = (pair(at), pair(at + 4));
            if u64::from(result) == from {
                self.answers[at + 4..at + 6].copy_from_slice(&(to as u16).to_le_bytes());
            }
            at += usize::from(length);
        }
    }
}

/// Flips a bit just behind a piece, or just before it. That is what no call may do: the tests lend memory with guards there.
pub fn beside<T>(piece: &mut [T], behind: bool) {
    let elements = piece.as_mut_ptr_range();
    let (end, start) = (elements.end as *mut u8, elements.start as *mut u8);
    // SAFETY: none where there are no guards; this is the fault.
    unsafe { *(if behind { end } else { start.sub(1) }) ^= 1 }
}

/// A fault with its name.
type Fault = (&'static str, fn(&mut Done));

const FAULTS: &[Fault] = &[
    ("area_after", |done| beside(done.area, true)),
    ("area_before", |done| beside(done.area, false)),
    ("cards_after", |done| beside(done.cards, true)),
    ("cards_before", |done| beside(done.cards, false)),
    ("lists_after", |done| beside(done.lists, true)),
    ("lists_before", |done| beside(done.lists, false)),
    ("head_after", |done| beside(done.head, true)),
    ("head_before", |done| beside(done.head, false)),
    ("memory_after", |done| beside(done.memory, true)),
    ("memory_before", |done| beside(done.memory, false)),
    ("answer_after", |done| beside(done.answers, true)),
    ("answer_before", |done| beside(done.answers, false)),
    ("outcome_after", |done| beside(done.outcome, true)),
    ("outcome_before", |done| beside(done.outcome, false)),
    ("list_changed", |done| spoil_byte(done.list.last_mut())),
    ("answer_byte", |done| spoil_byte(done.answers[..done.outcome[2] as usize].last_mut())),
    ("beyond_written", |done| spoil_byte(done.answers.get_mut(done.outcome[2] as usize))),
    ("last_answer_byte", |done| spoil_byte(done.answers[done.outcome[2] as usize..].last_mut())),
    ("served", |done| done.outcome[1] += 1),
    ("written", |done| done.outcome[2] += 1),
    ("free_place_byte", |done| {
        let free = done.cards.iter().rposition(|row| row[0] == 0).filter(|_| done.number == 0);
        spoil_byte(free.and_then(|place| done.area.get_mut(place * 1024 + 1023)));
    }),
    ("cursor", |done| {
        let cursor = (done.head[1] + 1) % done.cards.len().max(1) as u64;
        done.head[1] = if done.number == 0 { cursor } else { done.head[1] };
    }),
    ("head_mark", |done| done.head[5] ^= u64::from(done.number == 0)),
    ("memory_rest", |done| done.memory[1023] ^= u8::from(done.number == 0)),
    ("row_rest", |done| {
        done.cards
            .iter_mut()
            .take(1)
            .for_each(|row| row[ROW_SUMMARY - 1] ^= u64::from(done.number == 0));
    }),
    ("bit_live", |done| flip_bit(done, 1)),
    ("bit_frozen", |done| flip_bit(done, 2)),
    ("bit_free", |done| flip_bit(done, 0)),
    ("probe_found", |done| spoil_probe(done, 6)),
    ("probe_opened", |done| spoil_probe(done, 8)),
    ("probe_bits", |done| spoil_probe(done, 10)),
    ("probe_bits_wide", |done| spoil_probe(done, 13)),
    ("link_number", |done| {
        let linked = done.cards.iter_mut().find(|row| row[ROW_COUNT] > 0);
        linked.into_iter().for_each(|row| {
            row[ROW_LINKS + LINK_NUMBER] ^= u64::from(done.number == 0);
        });
    }),
    ("list_item", |done| {
        done.lists.iter_mut().rev().take(1).for_each(|item| *item ^= u16::from(done.number == 0));
    }),
    ("letter_on_success", |done| done.outcome[0] |= u64::from(done.number == 0)),
    ("letter_unbroken", |done| done.outcome[0] += 8 * u64::from(done.number == 5)),
    ("letter_wide", |done| done.outcome[0] |= u64::from(done.number == 5) << 32),
    ("refused_writes_memory", |done| done.memory[1023] ^= u8::from(done.number != 0)),
    ("refused_writes_card", |done| {
        done.cards
            .iter_mut()
            .take(1)
            .for_each(|row| row[ROW_WORDS - 1] ^= u64::from(done.number != 0));
    }),
    ("refused_writes_answer", |done| {
        spoil_byte(done.answers.first_mut().filter(|_| done.number != 0));
    }),
    ("number_wide", |done| done.number |= u64::from(done.number == 4) << 16),
    ("empty_list_4", |done| done.number |= 4 * u64::from(done.list.is_empty())),
];

/// Flips the last bit of the first card of this state.
fn flip_bit(done: &mut Done, state: u64) {
    let card = done.cards.iter_mut().find(|row| row[0] == state);
    card.into_iter().for_each(|row| row[ROW_WORDS - 1] ^= u64::from(done.number == 0) << 63);
}

/// Flips a bit in a byte of each reply of kind 8 that has a body.
fn spoil_probe(done: &mut Done, byte: usize) {
    let (mut at, end) = (0, done.written());
    while at < end {
        let length = usize::from(u16::from_le_bytes([done.answers[at], done.answers[at + 1]]));
        if done.answers[at + 2] == 8 && length > byte {
            done.answers[at + byte] ^= 1;
        }
        at += length;
    }
}

pub fn spoil_byte(byte: Option<&mut u8>) {
    if let Some(byte) = byte {
        *byte ^= 0xFF;
    }
}
