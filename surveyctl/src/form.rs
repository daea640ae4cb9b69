//! The bytes of a store file: a head of sixteen bytes, the area, then the saved book, which has the customer's format. They are in
//! one file, so area and book are always of one moment. The form before this one, the plain bytes of what is lent before cards had
//! summaries, is still read.

use crate::failure::Failure;
use zilgwern::{most_saved_bytes, Error, Memory, Refused, Store, PLACES, PLACE_BYTES};

/// The head: these eight bytes, the form (4), the bytes of the area (4).
const NAME: [u8; 8] = *b"ZILGWERN";
const FORM: u32 = 3;
pub const HEAD_BYTES: usize = 16;

/// The kind that a saved book says behind its length.
const BOOK_KIND: usize = 48;

/// No store file has more bytes, whatever its form.
pub const MOST_BYTES: usize = {
    let places = *PLACES.end();
    let now = HEAD_BYTES + PLACE_BYTES * places + most_saved_bytes(places);
    let before = Memory::form_2_byte_count(places);
    if now > before {
        now
    } else {
        before
    }
};

/// A store that was opened from the bytes of a file.
pub struct Opened {
    pub store: Store<'static>,
    /// Whether the file has the older form.
    pub old: bool,
}

/// The bytes to keep a store by.
pub fn bytes_of(store: &mut Store) -> Result<Vec<u8>, Refused> {
    let book = store.save()?;
    let area = store.area();
    let count = u32::try_from(area.len()).expect("4,096 places have fewer bytes");
    Ok([&NAME[..], &FORM.to_le_bytes(), &count.to_le_bytes(), area, &book].concat())
}

/// Opens the store in the bytes of a file, if it is sound.
pub fn open(bytes: &[u8]) -> Result<Opened, Failure> {
    if bytes.starts_with(&NAME) {
        return Ok(Opened { store: open_new(bytes)?, old: false });
    }
    let refused = |error: Error| match error.number() {
        1 => Failure::from(error).hinted(form_words(bytes)),
        _ => Failure::from(error),
    };
    let memory = Memory::from_form_2(bytes).map_err(|error| refused(error.into()))?;
    Ok(Opened { store: Store::open_owned(memory).map_err(refused)?, old: true })
}

/// The same where the file has the name of this form at its front.
fn open_new(bytes: &[u8]) -> Result<Store<'static>, Failure> {
    let wrong = |words: String| Failure::from(Refused::Sizes).hinted(words);
    let Some((head, rest)) = bytes.split_at_checked(HEAD_BYTES) else {
        return Err(wrong("It is cut off within its head. Nothing was changed.".into()));
    };
    let (form, count) = (number(&head[8..12]), number(&head[12..]));
    if form != FORM as usize {
        return Err(wrong(format!(
            "It is a store file of form {form}, and this surveyctl knows {FORM} and the one before it. Nothing was changed."
        )));
    }
    let Some((area, book)) = rest.split_at_checked(count) else {
        let length = rest.len();
        return Err(wrong(format!(
            "Its head says that the area has {count} bytes, and only {length} follow: it is cut off. Nothing was changed."
        )));
    };
    Store::open_saved_owned(area.to_vec(), book).map_err(|error| match error.number() {
        1 => wrong(format!(
            "Its head says that the area has {count} bytes, which are not 16 to 4,096 whole places. Nothing was changed."
        )),
        _ => refused_book(error, area.len(), book),
    })
}

/// The refusal of a saved book, with what is wrong with it.
pub fn refused_book(error: Error, area: usize, book: &[u8]) -> Failure {
    let words = match error {
        Error::Refused(Refused::NotABook) => not_a_book(book),
        Error::Refused(Refused::FewerPlaces) => {
            let (named, places) = (number(&book[6..8]), area / PLACE_BYTES);
            format!("The book names {named} places, and the area has {places}.")
        }
        _ => return Failure::from(error),
    };
    Failure::from(error).hinted(format!("{words} Nothing was changed."))
}

/// What is wrong with bytes that are no saved book, as far as the front of them shows.
fn not_a_book(book: &[u8]) -> String {
    let Some((front, _)) = book.split_at_checked(8) else {
        return format!("A saved book has more than the {} bytes that are there.", book.len());
    };
    let (length, kind, places) = (number(&front[..4]), number(&front[4..6]), number(&front[6..]));
    match kind {
        _ if length != book.len() => {
            let there = book.len();
            format!("Its first four bytes say that it has {length} bytes, and {there} are there.")
        }
        BOOK_KIND if !PLACES.contains(&places) => {
            format!("It names {places} places; a store has 16 to 4,096.")
        }
        BOOK_KIND => {
            "Its length, kind and places are right; what is wrong stands behind them.".into()
        }
        _ => format!("It is of kind {kind}; a saved book is of kind {BOOK_KIND}."),
    }
}

/// A little-endian number.
fn number(bytes: &[u8]) -> usize {
    bytes.iter().rev().fold(0, |sum, byte| 256 * sum + usize::from(*byte))
}

/// What is wrong with a file that has neither form.
fn form_words(bytes: &[u8]) -> String {
    let is_whole = |places: usize| Memory::form_2_byte_count(places) == bytes.len();
    match bytes {
        _ if Memory::is_form_1(bytes) => "It is a store file of the first form, from before links had numbers, and can't be \
             opened. Print its values with `scan` of the surveyctl that wrote it, and put them into a new store. Nothing was \
             changed."
            .into(),
        _ if PLACES.clone().any(is_whole) => "It has the length of a store file of the older form, but its last eight bytes, \
             which say the form, are others. Nothing was changed."
            .into(),
        _ => length_words(bytes.len()),
    }
}

/// What is wrong with a file of this length.
fn length_words(length: usize) -> String {
    let fixed = Memory::form_2_byte_count(0);
    let each = Memory::form_2_byte_count(1) - fixed;
    let more = if length > MOST_BYTES { "more than " } else { "" };
    let (least, most, length) = (PLACES.start(), PLACES.end(), length.min(MOST_BYTES));
    format!(
        "A store file begins with the letters ZILGWERN; one of the older form has {each} bytes for each of {least} to {most} \
         places, and {fixed} more. This one has {more}{length} bytes and is neither. It is cut off or no store file. Nothing was \
         changed."
    )
}
