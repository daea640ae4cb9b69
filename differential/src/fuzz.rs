//! One input of a fuzzer as a run: its bytes decide what is lent, the list and the room for answers. Everything is compared
//! with the second implementation, and on sound stores the judge looks on too.
//!
//! The first byte names the mode, modulo 5:
//! 0 arbitrary sizes and contents of all pieces; 1 a sound store, damaged; 2 a sound store and an arbitrary list;
//! 3 a sound store and a list of mostly good requests, cut into runs by the room for answers;
//! 4 a sound store, saved, its bytes changed and opened (`fuzz_saved`).

use crate::fuzz_saved::saved_and_opened;
use crate::refused::{broken_name, compared_check, compared_run};
use crate::Proved;
use reference::generate::keys::Keys;
use reference::generate::planted::planted;
use reference::generate::profile::{Source, PROFILES};
use reference::generate::random::Random;
use reference::generate::requests;
use reference::implementation::Ran;
use reference::lent::*;
use reference::limits::{ANSWER_ROOM, CARD_LINKS, VALUE_BYTES};
use reference::request::split;
use reference::rules;
use reference::run::{make, run};
use reference::trial::{Eyes, Trial};

pub const MODES: u8 = 5;

/// The bound of lists in mode 0; the other modes have longer ones.
const COUNTED: usize = 1024;

/// The bytes of an input, taken from the front; zeros follow the last.
pub(crate) struct Tape<'a>(&'a [u8]);

impl<'a> Tape<'a> {
    pub(crate) fn byte(&mut self) -> u8 {
        self.bytes(1).first().copied().unwrap_or(0)
    }

    pub(crate) fn pair(&mut self) -> u16 {
        u16::from_le_bytes([self.byte(), self.byte()])
    }

    /// So many bytes, or all that are left.
    pub(crate) fn bytes(&mut self, count: usize) -> &'a [u8] {
        let (front, rest) = self.0.split_at(count.min(self.0.len()));
        self.0 = rest;
        front
    }

    /// So many bytes with a two-byte count before them, modulo a bound, so that something is left behind them.
    fn counted(&mut self) -> &'a [u8] {
        let count = usize::from(self.pair()) % COUNTED;
        self.bytes(count)
    }

    fn word(&mut self) -> u64 {
        let mut bytes = [0; 8];
        let found = self.bytes(8);
        bytes[..found.len()].copy_from_slice(found);
        u64::from_le_bytes(bytes)
    }

    pub(crate) fn is_over(&self) -> bool {
        self.0.is_empty()
    }
}

/// Works one input through. Gives a name for what was reached, or what differs.
pub fn try_input(input: &[u8]) -> Result<String, String> {
    let mut tape = Tape(input);
    let mode = tape.byte() % MODES;
    let reached = match mode {
        0 => arbitrary(&mut tape),
        1 => damaged(&mut tape),
        2 => arbitrary_list(&mut tape),
        3 => good_list(&mut tape),
        _ => saved_and_opened(&mut tape),
    }?;
    Ok(format!("mode {mode}: {reached}"))
}

/// A name for what a run came to. With number 5 the lent memory is as it was, so that the broken rules can be counted.
fn name_of(ran: &Ran, after: &Lent) -> String {
    match (ran.number, ran.served) {
        (5, _) => format!("number 5, {}", broken_name(&rules::check(after).broken)),
        (0, 0) => "number 0, none served".into(),
        (0, _) => "number 0, some served".into(),
        (number, _) => format!("number {number}"),
    }
}

/// Room for answers from three bytes, seldom less than a run asks for.
fn room(tape: &mut Tape) -> usize {
    match (tape.byte(), usize::from(tape.pair())) {
        (240.., bytes) => bytes % ANSWER_ROOM,
        (_, bytes) => ANSWER_ROOM + bytes % (8 * ANSWER_ROOM),
    }
}

/// A size from one byte: as it should be, or near it where the byte is high.
fn moved(size: usize, by: u8) -> usize {
    match by {
        0..=239 => size,
        240..=247 => size + usize::from(by - 239),
        _ => size.saturating_sub(usize::from(by - 247)),
    }
}

/// Mode 0: list, room, sizes, then the contents of head, memory, lists, cards and area.
fn arbitrary(tape: &mut Tape) -> Result<String, String> {
    let list = tape.counted();
    let room = room(tape);
    let mut lent = Lent::zeroed(moved(16, tape.byte()) + usize::from(tape.byte() % 24));
    let (area, cards, lists) = (lent.area.len(), lent.cards.len(), lent.lists.len());
    lent.area.resize(moved(area, tape.byte()), 0);
    lent.cards.resize(moved(cards, tape.byte()), ROW_FREE);
    lent.lists.resize(moved(lists, tape.byte()), 0);
    lent.head.fill_with(|| tape.word());
    lent.memory.fill_with(|| tape.byte());
    lent.lists.fill_with(|| tape.pair());
    lent.cards.iter_mut().flatten().for_each(|word| *word = tape.word());
    lent.area.fill_with(|| tape.byte());
    compared_run(&mut lent, list, room).map(|ran| name_of(&ran, &lent))
}

/// The bytes of an input of mode 0 that lends just this: 16 to 39 places, a list below 1,024 bytes, room of 1,024 or more.
pub fn input_lending(lent: &Lent, list: &[u8], room: u16) -> Vec<u8> {
    assert!(list.len() < COUNTED);
    let mut input = vec![0];
    input.extend((list.len() as u16).to_le_bytes());
    input.extend(list);
    input.push(0);
    input.extend((room - ANSWER_ROOM as u16).to_le_bytes());
    input.extend([0, lent.cards.len() as u8 - 16, 0, 0, 0]);
    input.extend(lent.head.iter().flat_map(|word| word.to_le_bytes()));
    input.extend(lent.memory);
    input.extend(lent.lists.iter().flat_map(|item| item.to_le_bytes()));
    input.extend(lent.cards.iter().flatten().flat_map(|word| word.to_le_bytes()));
    input.extend(&lent.area);
    input
}

/// A sound store of at most 39 places for each number: planted, or out of a short history.
pub fn sound_store(number: u16) -> Lent {
    let mut random = Random::new(u64::from(number));
    let places = 16 + random.below(24);
    let keys = *random.pick(&[Keys::Dense(200), Keys::Edges(100), Keys::Wide(300)]);
    if number.is_multiple_of(2) {
        return planted(&mut random, places, keys).encode();
    }
    let mut lent = Lent::zeroed(places);
    make(&mut lent, 1 + u64::from(number / 2) % 8);
    let profile = *random.pick(&PROFILES);
    let list = Source::new(profile, keys, random.word()).list(random.below(400));
    run(&mut lent, &list, 1 << 20);
    lent
}

/// Mode 1: a sound store with one to four numbers or bytes changed.
fn damaged(tape: &mut Tape) -> Result<String, String> {
    let mut lent = sound_store(tape.pair());
    for _ in 0..=tape.byte() % 4 {
        let (piece, place) = (tape.byte() % 9, usize::from(tape.pair()) % lent.cards.len());
        let (at, bits) = (usize::from(tape.pair()), tape.byte());
        match piece {
            0 => lent.area[place * 1024 + at % 1024] ^= bits,
            // The front of a place, where lengths and counts stand.
            1 => lent.area[place * 1024 + at % 40] ^= bits,
            2 => lent.cards[place][at % ROW_WORDS] ^= u64::from(bits) << (at / ROW_WORDS % 57),
            3 => lent.lists[at % (4 * lent.cards.len())] ^= u16::from(bits),
            4 => lent.head[at % 10] ^= u64::from(bits) << (at / 10 % 57),
            // The first two links of a card that has any.
            5 => {
                let word = ROW_LINKS + at % (2 * LINK_WORDS);
                linked_card(&mut lent, place)[word] ^= u64::from(bits % 16);
            }
            6 => take_last_link(linked_card(&mut lent, place)),
            // The bits of a card.
            7 => {
                let word = ROW_SUMMARY + at % (ROW_WORDS - ROW_SUMMARY);
                lent.cards[place][word] ^= u64::from(bits) << (at / 4 % 57);
            }
            _ => lent.memory[at % 1024] ^= bits,
        }
    }
    let room = room(tape);
    let list = good_requests(tape);
    compared_run(&mut lent, &list, room).map(|ran| name_of(&ran, &lent))
}

/// The first card from this place on that has links, going round; this place's card where none has.
fn linked_card(lent: &mut Lent, place: usize) -> &mut Row {
    let count = lent.cards.len();
    let mut places = (place..place + count).map(|place| place % count);
    let linked = places.find(|place| lent.cards[*place][ROW_COUNT] > 0).unwrap_or(place);
    &mut lent.cards[linked]
}

/// Takes the last link off a card that has any; its frozen place may be left without one.
fn take_last_link(card: &mut Row) {
    if let count @ 1..=CARD_LINKS = card[ROW_COUNT] as usize {
        card[ROW_COUNT] -= 1;
        card[ROW_LINKS + LINK_WORDS * (count - 1)..][..LINK_WORDS].fill(0);
    }
}

/// A history that begins at a sound store, which is checked first.
fn sound_trial(tape: &mut Tape) -> Result<Trial<'static>, String> {
    let lent = sound_store(tape.pair());
    compared_check(&lent)?;
    Ok(Trial::of_sound_store(&Proved, Eyes::Both, lent))
}

/// Mode 2: the rest of the input is the list.
fn arbitrary_list(tape: &mut Tape) -> Result<String, String> {
    let mut trial = sound_trial(tape)?;
    let room = room(tape);
    let list = tape.bytes(usize::MAX);
    let ran = trial.run(list, room).map_err(|finding| format!("{finding:?}"))?;
    Ok(name_of(&ran, &trial.lent))
}

/// Mode 3: requests, run to the last with so much room at a time.
fn good_list(tape: &mut Tape) -> Result<String, String> {
    let mut trial = sound_trial(tape)?;
    let room = room(tape);
    let list = good_requests(tape);
    let mut rest = &list[..];
    loop {
        let ran = trial.run(rest, room).map_err(|finding| format!("{finding:?}"))?;
        let served = split(rest).map_or(0, |all| {
            all.iter().take(ran.served).map(|request| 4 + request.body.len()).sum()
        });
        rest = &rest[served..];
        if rest.is_empty() || served == 0 {
            return Ok(name_of(&ran, &trial.lent));
        }
    }
}

/// Requests from the rest of the input, as many as fit a list. Keys are few, so that they repeat.
fn good_requests(tape: &mut Tape) -> Vec<u8> {
    let mut list = Vec::new();
    while !tape.is_over() {
        let request = some_request(tape);
        if list.len() + request.len() > 65_536 {
            break;
        }
        list.extend(request);
    }
    list
}

fn some_request(tape: &mut Tape) -> Vec<u8> {
    let choice = tape.byte();
    match choice % 12 {
        0..=2 => {
            let key = some_key(tape);
            let length = usize::from(tape.byte()) % (VALUE_BYTES + 1);
            requests::put(key, &vec![choice; length])
        }
        3 => requests::delete(some_key(tape)),
        4 if choice < 128 => requests::look_up(some_key(tape)),
        4 => requests::probe(some_key(tape)),
        5 => requests::scan(some_key(tape), some_key(tape)),
        6 => requests::scan(0, u64::MAX),
        7 => requests::flush(),
        8 | 9 => requests::tidy(),
        10 => requests::report(),
        _ => {
            let kind = tape.pair();
            let length = usize::from(tape.byte());
            requests::request(kind, tape.bytes(length))
        }
    }
}

/// A key from one byte, or from eight behind a byte of all ones. The ends of the range are among the former.
fn some_key(tape: &mut Tape) -> u64 {
    match tape.byte() {
        255 => tape.word(),
        254 => u64::MAX,
        253 => u64::MAX - 1,
        small => u64::from(small),
    }
}

/// An input for each seed: about as many of each mode. Half of those of mode 0 are near a sound store.
pub fn input_of(seed: u64) -> Vec<u8> {
    let mut random = Random::new(seed);
    let mode = (seed % u64::from(MODES)) as u8;
    if mode == 0 && random.once_in(2) {
        let lent = sound_store(random.word() as u16);
        let list = Source::new(*random.pick(&PROFILES), Keys::Dense(100), random.word()).list(20);
        let list = if list.len() < COUNTED { list } else { Vec::new() };
        let mut input = input_lending(&lent, &list, 1024 + random.below(3000) as u16);
        for _ in 0..random.below(4) {
            // The front holds sizes, head and memory; most of the rest are bytes of free places.
            let reach = *random.pick(&[list.len() + 20, list.len() + 120, 6000, input.len()]);
            let at = random.below(reach.min(input.len()));
            input[at] ^= 1 << random.below(8);
        }
        return input;
    }
    let length = *random.pick(&[8, 60, 400, 3000]);
    let mut input = random.bytes(1 + random.clone().below(length));
    input[0] = mode;
    if mode == 2 {
        // A list that can be split, with bytes changed at times; random bytes alone seldom pass as one.
        let list = good_requests(&mut Tape(&random.bytes(random.clone().below(600))));
        input.truncate(6);
        input.resize(6, 4);
        input.extend(list);
        for _ in 0..random.below(3) {
            let at = 1 + random.below(input.len() - 1);
            input[at] ^= 1 << random.below(8);
        }
    }
    input
}
