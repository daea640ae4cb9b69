//! What can be refused, in words and by the order's numbers.

use crate::request::KINDS;
use crate::VALUE_BYTES;
use std::fmt;

/// A rule of a sound store. An earlier one is less, so stores can be sorted by the first rule that each breaks.
#[derive(Clone, Copy, PartialEq, Eq, PartialOrd, Ord, Debug)]
pub enum Rule {
    /// Threshold and cursor.
    A,
    /// Cards and level lists.
    B,
    /// Tables in places, and their summaries.
    C,
    /// The memory table.
    D,
    /// Links.
    E,
    /// Frozen places.
    F,
    /// Order of tables, and parts not in use.
    G,
}

impl Rule {
    /// All seven, in order.
    pub const ALL: [Rule; 7] = [Rule::A, Rule::B, Rule::C, Rule::D, Rule::E, Rule::F, Rule::G];

    pub(crate) fn of_letter(letter: u64) -> Rule {
        let found = Rule::ALL.into_iter().find(|rule| rule.letter() as u64 == letter);
        found.expect("the library gives a letter from A to G with number 5")
    }

    /// From A to G.
    pub fn letter(self) -> char {
        char::from(b'A' + self as u8)
    }

    /// The whole rule, as the order says it.
    pub fn explanation(self) -> &'static str {
        match self {
            Rule::A => "The threshold is 1 to 8, and the cursor is below the number of places.",
            Rule::B => {
                "Each place is free or frozen and in no level list, or live and in one list once. The items of lists name \
                 places, and only the cards of live places hold links."
            }
            Rule::C => {
                "Every live or frozen place holds a table: its length in use, kind 32, the count of entries, zero, then 1 \
                 to 16 entries with keys strictly rising, and zeros to the end of the place. The 256 summary bits on its \
                 card are those of its keys."
            }
            Rule::D => "The memory table is a table with 0 to 16 entries, keys strictly rising, and zeros behind them.",
            Rule::E => {
                "Links hang only on tables of levels 1 to 3, at most as many as the threshold on one. A link's low is not \
                 above its high; it names a frozen place and holds at least one of that place's entries, and its number \
                 says how many. Links that name one place share no key and hang on one level."
            }
            Rule::F => "A place is frozen exactly if a link names it.",
            Rule::G => {
                "On levels 1 to 3 each table's span (its own keys and its links' ranges) ends below the start of the next \
                 one, and the parts of the book that are not in use are zero, the summary bits of free places too."
            }
        }
    }

    fn words(self) -> &'static str {
        match self {
            Rule::A => "threshold not 1 to 8, or cursor not below the number of places",
            Rule::B => "a place whose card and lists do not fit each other",
            Rule::C => "a live or frozen place without a good table or the right summary bits",
            Rule::D => "the memory table is none",
            Rule::E => "a link that is wrong or shares keys with another",
            Rule::F => "a place that is frozen without a link, or linked without being frozen",
            Rule::G => "tables out of order, or parts of the book not in use that are not zero",
        }
    }
}

/// Why a whole call was refused. Nothing was changed.
#[derive(Clone, Copy, PartialEq, Eq, Debug)]
pub enum Refused {
    /// 1: the area is not 16 to 4,096 whole places, or cards or lists are not as many.
    Sizes,
    /// 2: the threshold is outside 1 to 8.
    Threshold,
    /// 3: the answer buffer has under 1,024 bytes, or the buffer to save to fewer than the saved book.
    ShortAnswer,
    /// 4: the list is over 65,536 bytes or its lengths do not end at its end.
    BrokenList,
    /// 5: the store is not sound; this is the first broken rule, in the order A to G.
    NotSound(Rule),
    /// 21: the bytes are no saved book.
    NotABook,
    /// 22: the area has fewer places than the saved book names.
    FewerPlaces,
}

impl Refused {
    pub(crate) fn of(number: u64, letter: u64) -> Result<(), Refused> {
        Err(match number {
            0 => return Ok(()),
            1 => Refused::Sizes,
            2 => Refused::Threshold,
            3 => Refused::ShortAnswer,
            4 => Refused::BrokenList,
            21 => Refused::NotABook,
            22 => Refused::FewerPlaces,
            _ => Refused::NotSound(Rule::of_letter(letter)),
        })
    }

    /// The order's number.
    pub fn number(self) -> u16 {
        match self {
            Refused::Sizes => 1,
            Refused::Threshold => 2,
            Refused::ShortAnswer => 3,
            Refused::BrokenList => 4,
            Refused::NotSound(_) => 5,
            Refused::NotABook => 21,
            Refused::FewerPlaces => 22,
        }
    }
}

impl fmt::Display for Refused {
    fn fmt(&self, out: &mut fmt::Formatter) -> fmt::Result {
        write!(out, "{}: ", self.number())?;
        match self {
            Refused::Sizes => {
                write!(out, "area not 16 to 4,096 whole places, or cards or lists not as many")
            }
            Refused::Threshold => write!(out, "threshold outside 1 to 8"),
            Refused::ShortAnswer => {
                write!(out, "answer buffer under 1,024 bytes, or save buffer shorter than the book")
            }
            Refused::BrokenList => write!(out, "request list too long or broken"),
            Refused::NotSound(rule) => {
                let (letter, words) = (rule.letter(), rule.words());
                write!(out, "store not sound, first broken rule {letter}: {words}")
            }
            Refused::NotABook => write!(out, "bytes that are not those of a saved book"),
            Refused::FewerPlaces => write!(out, "area with fewer places than the saved book"),
        }
    }
}

/// Why a request was refused. The store is as it was, and the run went on.
#[derive(Clone, Copy, PartialEq, Eq, Debug)]
pub enum Refusal {
    /// 16: a kind that does not exist.
    UnknownKind,
    /// 17: a body whose length is wrong for the kind.
    WrongBody,
    /// 18: a new key, and the memory table holds 16: flush first.
    MemoryFull,
    /// 19: a scan with low above high.
    WrongRange,
    /// 20: fewer free places than the flush or due merge writes.
    NoPlace,
}

impl Refusal {
    /// The refusal with this number.
    pub fn of(result: u16) -> Option<Refusal> {
        use Refusal::*;
        let all = [UnknownKind, WrongBody, MemoryFull, WrongRange, NoPlace];
        all.into_iter().find(|refusal| refusal.number() == result)
    }

    /// The order's number.
    pub fn number(self) -> u16 {
        16 + self as u16
    }

    /// Whether a request of this kind can be refused so.
    pub(crate) fn is_of(self, kind: u16) -> bool {
        match self {
            Refusal::UnknownKind => !KINDS.contains(&kind),
            Refusal::WrongBody => KINDS.contains(&kind),
            Refusal::MemoryFull => matches!(kind, 1 | 2),
            Refusal::WrongRange => kind == 4,
            Refusal::NoPlace => matches!(kind, 5 | 6),
        }
    }
}

impl fmt::Display for Refusal {
    fn fmt(&self, out: &mut fmt::Formatter) -> fmt::Result {
        let words = match self {
            Refusal::UnknownKind => "unknown kind",
            Refusal::WrongBody => "body length wrong for the kind",
            Refusal::MemoryFull => "new key, and the memory table holds 16 entries",
            Refusal::WrongRange => "scan with low above high",
            Refusal::NoPlace => "fewer free places than the flush or merge writes",
        };
        write!(out, "{}: {words}", self.number())
    }
}

/// Why a request was not added to a list.
#[derive(Clone, Copy, PartialEq, Eq, Debug)]
pub enum ListError {
    /// The list would have more than 65,536 bytes.
    Full,
    /// The value has more than [`VALUE_BYTES`].
    ValueTooLong,
}

impl fmt::Display for ListError {
    fn fmt(&self, out: &mut fmt::Formatter) -> fmt::Result {
        match self {
            ListError::Full => out.write_str("the list would have more than 65,536 bytes"),
            ListError::ValueTooLong => write!(out, "the value has more than {VALUE_BYTES} bytes"),
        }
    }
}

/// Any of the three.
#[derive(Clone, Copy, PartialEq, Eq, Debug)]
pub enum Error {
    /// A whole call was refused.
    Refused(Refused),
    /// A request was refused.
    Request(Refusal),
    /// A request was not even put into a list.
    List(ListError),
}

impl Error {
    /// The order's number; a value that is too long has that of a wrong body, a list that is too long that of a broken one.
    pub fn number(self) -> u16 {
        match self {
            Error::Refused(refused) => refused.number(),
            Error::Request(refusal) => refusal.number(),
            Error::List(ListError::ValueTooLong) => Refusal::WrongBody.number(),
            Error::List(ListError::Full) => Refused::BrokenList.number(),
        }
    }
}

impl fmt::Display for Error {
    fn fmt(&self, out: &mut fmt::Formatter) -> fmt::Result {
        match self {
            Error::Refused(refused) => refused.fmt(out),
            Error::Request(refusal) => refusal.fmt(out),
            Error::List(error) => write!(out, "{}: {error}", self.number()),
        }
    }
}

impl From<Refused> for Error {
    fn from(refused: Refused) -> Error {
        Error::Refused(refused)
    }
}

impl From<Refusal> for Error {
    fn from(refusal: Refusal) -> Error {
        Error::Request(refusal)
    }
}

impl From<ListError> for Error {
    fn from(error: ListError) -> Error {
        Error::List(error)
    }
}

impl std::error::Error for Refused {}
impl std::error::Error for Refusal {}
impl std::error::Error for ListError {}
impl std::error::Error for Error {}
