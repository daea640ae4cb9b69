//! Plans of savings: a store with up to three reasons to refuse it (sizes, damage, room), and what saving must say and write, which
//! needs neither the rules nor `saved`.

use super::book::Book;
use super::plan::Plan;
use super::random::Random;
use crate::implementation::{Implementation, Saved};
use crate::lent::{Lent, ROW_FREE};
use crate::trial::UNTOUCHED;

/// A way to give lent memory sizes that are refused with number 1, with its name.
pub type Misshape = (&'static str, fn(&mut Lent));

pub const MISSHAPES: [Misshape; 6] = [
    ("a byte too few", |lent| lent.area.truncate(lent.area.len() - 1)),
    ("a place too many", |lent| lent.area.extend([0; 1024])),
    ("a card too few", |lent| lent.cards.truncate(lent.cards.len() - 1)),
    ("a card too many", |lent| lent.cards.push(ROW_FREE)),
    ("a list item too few", |lent| lent.lists.truncate(lent.lists.len() - 1)),
    ("a list item too many", |lent| lent.lists.push(0)),
];

/// A saving and what must come of it.
pub struct Saving {
    pub lent: Lent,
    pub room: usize,
    /// The numbers whose conditions are met, in the order in which they count.
    pub reasons: Vec<u16>,
    letter: u8,
    bytes: Vec<u8>,
    /// What was done, by name.
    pub names: Vec<String>,
}

impl Saving {
    /// Plans a saving of a sound store.
    pub fn plan(sound: &Lent, random: &mut Random) -> Saving {
        let bytes = Book::of_sound(sound).bytes();
        let mut lent = sound.clone();
        let (mut reasons, mut names, mut letter) = (Vec::new(), Vec::new(), 0);
        let plan = match random.below(3) {
            0 => Plan::plant(&mut lent, random),
            _ => Plan::default(),
        };
        if random.once_in(4) {
            let (name, misshape) = *random.pick(&MISSHAPES);
            misshape(&mut lent);
            reasons.push(1);
            names.push(format!("saving, 1: {name}"));
        }
        if plan.says().0 == 5 {
            reasons.push(5);
            letter = plan.says().1;
            names.push(format!("saving, 5: letter {}", char::from(letter)));
        }
        let (name, room) = some_room(bytes.len(), random);
        names.push(format!("saving, room: {name}"));
        // Whether a damaged book would fit is not told; a buffer without a byte is too short for any.
        if (reasons.contains(&5) && room == 0) || (!reasons.contains(&5) && room < bytes.len()) {
            reasons.push(3);
        }
        let words: Vec<String> = reasons.iter().map(u16::to_string).collect();
        names.push(format!("saving, reasons: {}", words.join(" ")));
        Saving { lent, room, reasons, letter, bytes, names }
    }

    /// What must come back.
    fn says(&self) -> Saved {
        match self.reasons.first() {
            None => Saved { number: 0, letter: 0, length: self.bytes.len() },
            Some(5) => Saved { number: 5, letter: self.letter, length: 0 },
            Some(number) => Saved { number: *number, letter: 0, length: 0 },
        }
    }

    /// Has the store saved, and says what is not as planned.
    pub fn hold(&self, subject: &dyn Implementation) -> Result<(), String> {
        let mut buffer = vec![UNTOUCHED; self.room];
        let saved = subject.save(&self.lent, &mut buffer);
        if saved != self.says() {
            return Err(format!("gives {saved:?}, planned {:?}: {:?}", self.says(), self.names));
        }
        let (written, beyond) = buffer.split_at(saved.length);
        if beyond.iter().any(|byte| *byte != UNTOUCHED) {
            return Err(format!("saving wrote beyond the book: {:?}", self.names));
        }
        match saved.number != 0 || written == self.bytes {
            true => Ok(()),
            false => Err(format!("not the bytes of the book: {:?}", self.names)),
        }
    }
}

/// Room for a book of so many bytes: the edges often.
fn some_room(bytes: usize, random: &mut Random) -> (&'static str, usize) {
    match random.below(6) {
        0 => ("none", 0),
        1 => ("one byte too few", bytes - 1),
        2 => ("some bytes too few", random.below(bytes)),
        3 | 4 => ("just enough", bytes),
        _ => ("more than enough", bytes + 1 + random.below(2000)),
    }
}

/// What enough plans must have reached.
pub fn required() -> Vec<String> {
    let sets = ["", "1", "5", "3", "1 5", "1 3", "5 3", "1 5 3"];
    let mut names: Vec<String> = sets.map(|set| format!("saving, reasons: {set}")).to_vec();
    names.extend(MISSHAPES.map(|(name, _)| format!("saving, 1: {name}")));
    names.extend(('A'..='G').map(|letter| format!("saving, 5: letter {letter}")));
    let rooms =
        ["none", "one byte too few", "some bytes too few", "just enough", "more than enough"];
    names.extend(rooms.map(|name| format!("saving, room: {name}")));
    names
}
