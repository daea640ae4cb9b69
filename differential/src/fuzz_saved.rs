//! Mode 4 of the fuzz target: a sound store is saved, some of the bytes are changed, cut or added, and what is left of them is opened
//! over an area of as many places, fewer or more. Everything is compared with the second implementation.

use crate::fuzz::{sound_store, Tape};
use crate::Proved;
use reference::generate::book::Book;
use reference::implementation::Implementation;
use reference::lent::{Lent, ROW_FREE};
use reference::limits::PLACE_BYTES;
use reference::reopened::{compare_open, compare_save};
use reference::table::read_table;

pub(crate) fn saved_and_opened(tape: &mut Tape) -> Result<String, String> {
    let lent = sound_store(tape.pair());
    let mut bytes = Book::of_sound(&lent).bytes();
    let short = tape.byte() >= 240;
    let room = if short { usize::from(tape.pair()) % bytes.len() } else { bytes.len() };
    let saved = compare_save(&Proved, &lent, room)?;
    if saved.number != 0 {
        return Ok(format!("saving gives {}", saved.number));
    }
    if tape.byte() >= 240 {
        bytes = with_frozen(&lent).bytes();
    }
    change(&mut bytes, tape);
    let mut opened = area_for(&lent, tape);
    let rows = match tape.byte() {
        250.. => opened.cards.len() + 1,
        _ => opened.cards.len(),
    };
    let said = compare_open(&Proved, &mut opened, &bytes, &vec![ROW_FREE; rows])?;
    name_of(said, &bytes, &opened, lent.cards.len())
}

/// The book with a frozen card on the first free place that still holds a table, if there is any: no link names it.
fn with_frozen(lent: &Lent) -> Book {
    let mut book = Book::of_sound(lent);
    let holds = |place: &usize| read_table(lent.place(*place), 1).is_some();
    let free = (0..lent.cards.len()).filter(|place| lent.cards[*place][0] == 0);
    if let Some(place) = free.into_iter().find(holds) {
        book.cards[place].state = 2;
    }
    book
}

/// Up to three bytes changed, seldom the length of the whole put right again, seldom some bytes cut off or added.
fn change(bytes: &mut Vec<u8>, tape: &mut Tape) {
    for _ in 0..tape.byte() % 4 {
        let at = usize::from(tape.pair()) % bytes.len();
        bytes[at] ^= 1 << (tape.byte() % 8);
    }
    match tape.byte() {
        200..=219 => bytes.truncate(usize::from(tape.pair()) % bytes.len()),
        220..=239 => {
            let count = usize::from(tape.byte());
            bytes.extend(tape.bytes(count));
        }
        _ => return,
    }
    if tape.byte() < 128 {
        let length = (bytes.len() as u32).to_le_bytes();
        bytes.iter_mut().zip(length).for_each(|(byte, of_length)| *byte = of_length);
    }
}

/// The area of the saved store with places taken away or added, now and then with a byte changed, and a book of zeros.
fn area_for(lent: &Lent, tape: &mut Tape) -> Lent {
    let places = match tape.byte() {
        200..=224 => 16 + usize::from(tape.byte()) % (lent.cards.len() - 15),
        225.. => lent.cards.len() + usize::from(tape.byte()) % 40,
        _ => lent.cards.len(),
    };
    let mut opened = Lent::zeroed(places);
    let common = places.min(lent.cards.len()) * PLACE_BYTES;
    opened.area[..common].copy_from_slice(&lent.area[..common]);
    if tape.byte() >= 200 {
        let at = usize::from(tape.pair()) % places * PLACE_BYTES + usize::from(tape.byte()) % 60;
        opened.area[at] ^= 1 << (tape.byte() % 8);
    }
    opened
}

/// A name for what came of it. Bytes that are accepted over as many places as were saved are those that saving writes.
fn name_of(
    said: (u16, u8),
    bytes: &[u8],
    opened: &Lent,
    saved_places: usize,
) -> Result<String, String> {
    match said {
        (5, letter) => Ok(format!("opening gives 5, letter {}", char::from(letter))),
        (0, _) if opened.cards.len() > saved_places => Ok("opened over more".into()),
        (0, _) => {
            let mut again = vec![0; bytes.len()];
            let saved = Proved.save(opened, &mut again);
            match saved.number == 0 && again == bytes {
                true => Ok("opened over as many places".into()),
                false => Err("saved again, the book differs".into()),
            }
        }
        (number, _) => Ok(format!("opening gives {number}")),
    }
}
