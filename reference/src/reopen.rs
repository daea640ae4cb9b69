//! Saving a book and opening it again (note 4): what is refused, in which order, and what is left of the lent memory.

use crate::lent::{Lent, Row};
use crate::rules::{check_with_slip, Broken};
use crate::saved::{least_bytes, Form};
use crate::slip::Slip;
use crate::store::Store;

/// What saving gives back.
#[derive(Clone, PartialEq, Eq, Debug)]
pub struct SavedBook {
    /// 0, 1, 5 or 3.
    pub number: u16,
    /// All broken rules where the number is 5.
    pub broken: Broken,
    /// Empty where saving is refused.
    pub bytes: Vec<u8>,
}

impl SavedBook {
    fn refused(number: u16, broken: Broken) -> SavedBook {
        SavedBook { number, broken, bytes: Vec::new() }
    }
}

/// Saves a book into a buffer with this much room.
pub fn save(lent: &Lent, room: usize, slip: Option<Slip>) -> SavedBook {
    let judges_room = slip == Some(Slip::SaveJudgesRoomFirst);
    if lent.places().is_some_and(|places| judges_room && room < least_bytes(places)) {
        return SavedBook::refused(3, Broken::new());
    }
    let store = match Store::decode_with_slip(lent, slip) {
        Ok(store) => store,
        Err(verdict) => return SavedBook::refused(verdict.number, verdict.broken),
    };
    let bytes = store.book_bytes();
    if room < bytes.len() {
        return SavedBook::refused(3, Broken::new());
    }
    SavedBook { number: 0, broken: Broken::new(), bytes }
}

/// Opens saved bytes over the lent area: 0, 1, 21, 22 or 5, and with 5 the broken rules of the store as opened. What the lent book
/// held before does not matter. Only with 0 is the book written; with 0 and 5 the working rows hold the cards as opened.
pub fn open(
    lent: &mut Lent,
    bytes: &[u8],
    working: &mut [Row],
    slip: Option<Slip>,
) -> (u16, Broken) {
    let Some(places) = lent.places().filter(|places| *places == working.len()) else {
        return (1, Broken::new());
    };
    let Some(form) = Form::read(bytes, slip) else {
        return (21, Broken::new());
    };
    if places < form.places() {
        return (22, Broken::new());
    }
    let opened = form.over(lent.area.clone(), slip);
    working.copy_from_slice(&opened.cards);
    let verdict = check_with_slip(&opened, slip);
    if verdict.number == 0 || slip == Some(Slip::OpenWritesBeforeCheck) {
        *lent = opened;
    }
    (verdict.number, verdict.broken)
}
