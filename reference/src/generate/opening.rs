//! Plans of openings: saved bytes over an area, with up to four reasons to refuse them (sizes, form, fewer places, the store as
//! opened), and what opening must say and leave, which needs neither the rules nor `saved`.

use super::book::Book;
use super::plan::Plan;
use super::random::{any_lent, Random};
use super::saving::MISSHAPES;
use super::spoiled::SPOILS;
use crate::implementation::Implementation;
use crate::lent::*;
use crate::limits::{PLACES, PLACE_BYTES};
use crate::summary::NO_BITS;
use crate::table::read_table;

/// An opening and what must come of it.
pub struct Opening {
    /// The area to open over, and a book of any content.
    pub lent: Lent,
    pub saved: Vec<u8>,
    /// Working rows of any content.
    pub working: Vec<Row>,
    /// The numbers whose conditions are met, in the order in which they count.
    pub reasons: Vec<u16>,
    letter: u8,
    /// The store as opened; none where it does not come to that.
    opened: Option<Lent>,
    /// What was done, by name.
    pub names: Vec<String>,
}

impl Opening {
    /// Plans an opening of a sound store's book.
    pub fn plan(sound: &Lent, random: &mut Random) -> Opening {
        let mut opening = Opening {
            lent: sound.clone(),
            saved: Vec::new(),
            working: Vec::new(),
            reasons: Vec::new(),
            letter: 0,
            opened: None,
            names: Vec::new(),
        };
        let (damaged, letter) = damaged(sound, random);
        let mut book = Book::of_sound(sound);
        if let Some(damaged) = damaged {
            book = Book::of(&damaged).expect("chosen so");
            opening.lent = damaged;
        }
        if random.once_in(4) {
            opening.add(21, spoil(&mut book, random));
        }
        opening.saved = book.bytes();
        opening.choose_area(sound, &book, random);
        if letter != 0 {
            opening.letter = letter;
            opening.add(5, vec![format!("letter {}", char::from(letter))]);
        }
        if opening.reasons.iter().all(|number| *number == 5) {
            opening.opened = Some(book.opened(&opening.lent.area));
        }
        opening.working = vec![[random.word(); ROW_WORDS]; opening.lent.cards.len()];
        if random.once_in(5) {
            let name = misshape(&mut opening, random);
            opening.reasons.insert(0, 1);
            opening.names.push(format!("opening, 1: {name}"));
        }
        let words: Vec<String> = opening.reasons.iter().map(u16::to_string).collect();
        opening.names.push(format!("opening, reasons: {}", words.join(" ")));
        opening
    }

    fn add(&mut self, number: u16, names: Vec<String>) {
        self.reasons.push(number);
        self.names.extend(names.iter().map(|name| format!("opening, {number}: {name}")));
    }

    /// An area of another number of places with the places of the saved one in front, and a book of any content beside it.
    fn choose_area(&mut self, sound: &Lent, book: &Book, random: &mut Random) {
        let saved = sound.cards.len();
        let least = *PLACES.start();
        // A cursor at or above the saved places is not wrong where the area has that place.
        let equal = self.lent.head[HEAD_CURSOR] >= saved as u64;
        let (name, places) = match random.below(8) {
            0 | 1 if saved > least => ("fewer", least + random.below(saved - least)),
            2 if saved > least => ("one fewer", saved - 1),
            _ if equal => ("as many", saved),
            3 => ("one more", (saved + 1).min(*PLACES.end())),
            4 => ("twice as many", (2 * saved).min(*PLACES.end())),
            5 if random.once_in(20) => ("4,096", *PLACES.end()),
            _ => ("as many", saved),
        };
        let mut lent = any_lent(random, places);
        let common = saved.min(places) * PLACE_BYTES;
        lent.area[..common].copy_from_slice(&self.lent.area[..common]);
        self.lent = lent;
        self.names.push(format!("opening, places: {name}"));
        if leave_former_table(&mut self.lent, book).is_some() {
            self.names.push(FORMER.into());
        }
        // A form that is wrong in its number of places says nothing of fewer ones.
        if places < usize::from(book.places) {
            self.reasons.push(22);
        }
    }

    /// Number and letter that must come back.
    pub fn says(&self) -> (u16, u8) {
        match self.reasons.first() {
            None => (0, 0),
            Some(5) => (5, self.letter),
            Some(number) => (*number, 0),
        }
    }

    /// Has it opened, and says what is not as planned: number, letter, the book, the area, the working rows.
    pub fn hold(&self, subject: &dyn Implementation) -> Result<(), String> {
        let (mut lent, mut working) = (self.lent.clone(), self.working.clone());
        let said = subject.open(&mut lent, &self.saved, &mut working);
        if said != self.says() {
            return Err(format!("gives {said:?}, planned {:?}: {:?}", self.says(), self.names));
        }
        let left = self.opened.as_ref().filter(|_| said.0 == 0).unwrap_or(&self.lent);
        if let Some(words) = lent.difference(left) {
            return Err(format!("leaves another book: {words}: {:?}", self.names));
        }
        let rows = self.opened.as_ref().filter(|_| matches!(said.0, 0 | 5));
        match working == *rows.map_or(&self.working, |opened| &opened.cards) {
            true => Ok(()),
            false => Err(format!("leaves other working rows: {:?}", self.names)),
        }
    }
}

/// A free place of the area holds a table, which must not give its card bits.
const FORMER: &str = "opening, area: a table in a free place";

/// Copies a live place's bytes to a free place, by the cards of the book.
fn leave_former_table(lent: &mut Lent, book: &Book) -> Option<()> {
    let first = |state: u64| {
        let cards = book.cards.iter().take(lent.cards.len());
        cards.into_iter().position(|card| u64::from(card.state) == state)
    };
    let (live, free) = (first(STATE_LIVE)?, first(STATE_FREE)?);
    lent.area.copy_within(live * PLACE_BYTES..(live + 1) * PLACE_BYTES, free * PLACE_BYTES);
    Some(())
}

/// The store with planned damage that the form can carry whole, and its letter; mostly none. It carries no bits, so none may be
/// damaged; but a card whose place holds no table any more is opened without bits, and refused by the same letter.
fn damaged(sound: &Lent, random: &mut Random) -> (Option<Lent>, u8) {
    if !random.once_in(2) {
        return (None, 0);
    }
    let mut lent = sound.clone();
    let plan = Plan::plant(&mut lent, random);
    clear_bits_without_table(&mut lent);
    let carried = Book::of(&lent).is_some_and(|book| book.opened(&lent.area) == lent);
    match carried {
        true => (Some(lent), plan.says().1),
        false => (None, 0),
    }
}

fn clear_bits_without_table(lent: &mut Lent) {
    for place in 0..lent.cards.len() {
        if lent.cards[place][ROW_STATE] != STATE_FREE && read_table(lent.place(place), 1).is_none()
        {
            put_summary(&mut lent.cards[place], &NO_BITS);
        }
    }
}

/// Spoils the form in one to three ways; gives their names.
fn spoil(book: &mut Book, random: &mut Random) -> Vec<String> {
    let mut names = Vec::new();
    while names.is_empty() {
        for _ in 0..1 + random.below(3) {
            let (name, spoil) = random.pick(&SPOILS);
            if spoil(book, random).is_some() {
                names.push(String::from(*name));
            }
        }
    }
    names
}

/// Makes a size wrong: one of the lent pieces, or the number of working rows.
fn misshape(opening: &mut Opening, random: &mut Random) -> &'static str {
    match random.below(8) {
        0 => {
            opening.working.pop();
            "a working row too few"
        }
        1 => {
            opening.working.push(ROW_FREE);
            "a working row too many"
        }
        _ => {
            let (name, misshape) = *random.pick(&MISSHAPES);
            misshape(&mut opening.lent);
            name
        }
    }
}

/// What enough plans must have reached: every way to be refused, every set of reasons, every number of places.
pub fn required() -> Vec<String> {
    let sets = [
        "",
        "1",
        "21",
        "22",
        "5",
        "1 21",
        "1 22",
        "1 5",
        "21 22",
        "21 5",
        "22 5",
        "21 22 5",
        "1 21 22",
        "1 21 5",
        "1 22 5",
        "1 21 22 5",
    ];
    let mut names: Vec<String> = sets.map(|set| format!("opening, reasons: {set}")).to_vec();
    names.extend(MISSHAPES.map(|(name, _)| format!("opening, 1: {name}")));
    let rows = ["a working row too few", "a working row too many"];
    names.extend(rows.map(|name| format!("opening, 1: {name}")));
    names.extend(SPOILS.map(|(name, _)| format!("opening, 21: {name}")));
    names.extend(('A'..='G').map(|letter| format!("opening, 5: letter {letter}")));
    let places = ["fewer", "one fewer", "as many", "one more", "twice as many", "4,096"];
    names.extend(places.map(|name| format!("opening, places: {name}")));
    names.push(FORMER.into());
    names
}
