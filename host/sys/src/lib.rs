//! The functions that the static library exports, as raw calls over pointers. `host/zilgwern.h` says what they do and what
//! they ask of those who call; for all but tests that look at raw memory, the package `zilgwern` is the one to use.

/// Links that a card has room for, and the words of one: place, low, high and number.
pub const CARD_LINKS: usize = 8;
pub const LINK_WORDS: usize = 4;

/// Bytes of a card's summary; bit n is bit n mod 8 of byte n / 8.
pub const SUMMARY_BYTES: usize = 32;

/// Where the links and the summary begin in a row, and the words of a row.
pub const ROW_LINKS: usize = 2;
pub const ROW_SUMMARY: usize = ROW_LINKS + CARD_LINKS * LINK_WORDS;
pub const ROW_WORDS: usize = ROW_SUMMARY + SUMMARY_BYTES / size_of::<u64>();

/// The row of a card: state (0 free, 1 live, 2 frozen), link count, the links, then the summary: eight of its bytes to a word, the
/// lowest in the lowest bits.
pub type Row = [u64; ROW_WORDS];

/// Threshold, cursor, flag and key of the marks of levels 1 and 2, then the lengths of four lists.
pub type Head = [u64; 10];

/// The bytes of a table: a place of the area, or the memory table.
pub type Table = [u8; 1024];

/// What a run gives back beside its number: the letter of the first broken rule or 0, requests served, bytes written.
pub type Outcome = [u64; 3];

/// What saving gives back beside its number: the letter of the first broken rule or 0, and the length of the saved book.
pub type Saved = [u64; 2];

/// Where the five pieces of a store's memory stand, and how long they are.
#[derive(Clone, Copy, Debug)]
pub struct Pieces {
    pub area: *mut [u8],
    pub cards: *mut [Row],
    pub lists: *mut [u16],
    pub head: *mut Head,
    pub memory: *mut Table,
}

/// Declares functions of the library. Each takes the five pieces first, a slice as a pointer and a count and an array as a
/// pointer, then what is its own; and it returns a number. Nothing checks this against `crates/store/src/lib.rt`.
macro_rules! exported {
    ($($name:ident($($own:ident: $type:ty),*);)*) => {
        extern "C" {
            $(fn $name(
                area: *mut u8, area_count: usize,
                cards: *mut Row, cards_count: usize,
                lists: *mut u16, lists_count: usize,
                head: *mut Head, memory: *mut Table,
                $($own: $type),*
            ) -> u64;)*
        }
    };
}

exported! {
    zilgwern_make(threshold: u64);
    zilgwern_check(letter: *mut u64);
    zilgwern_run(list: *const u8, list_count: usize, answer: *mut u8, answer_count: usize, outcome: *mut Outcome);
    zilgwern_save(buffer: *mut u8, buffer_count: usize, saved: *mut Saved);
    zilgwern_open(book: *const u8, book_count: usize, working: *mut Row, working_count: usize, letter: *mut u64);
}

/// Calls such a function with the pieces and its own arguments.
macro_rules! call {
    ($pieces:expr, $name:ident($($own:expr),*)) => {{
        let Pieces { area, cards, lists, head, memory } = $pieces;
        $name(
            area as *mut u8, area.len(),
            cards as *mut Row, cards.len(),
            lists as *mut u16, lists.len(),
            head, memory,
            $($own),*
        )
    }};
}

impl Pieces {
    /// Makes a new store in memory of any content: 0, 1 or 2.
    ///
    /// # Safety
    ///
    /// Every pointer is good for reading and writing as far as it says, and no two overlap. The content is free.
    pub unsafe fn make(self, threshold: u64) -> u64 {
        call!(self, zilgwern_make(threshold))
    }

    /// Checks what is lent and writes the letter of the first broken rule, or 0, and nothing else: 0, 1 or 5.
    ///
    /// # Safety
    ///
    /// As for `make`; but the pieces are only read.
    pub unsafe fn check(self, letter: *mut u64) -> u64 {
        call!(self, zilgwern_check(letter))
    }

    /// Checks the store, then serves a list: 0, 1, 3, 4 or 5.
    ///
    /// # Safety
    ///
    /// As for `make`, with the list, the answers and the outcome among the pointers; the list is only read.
    pub unsafe fn run(self, list: *const [u8], answers: *mut [u8], outcome: *mut Outcome) -> u64 {
        let (list_count, answer_count) = (list.len(), answers.len());
        let (list, answers) = (list as *const u8, answers as *mut u8);
        call!(self, zilgwern_run(list, list_count, answers, answer_count, outcome))
    }

    /// Writes the book as bytes to the front of the buffer: 0, 1, 3 or 5.
    ///
    /// # Safety
    ///
    /// As for `make`, with the buffer and what is given back among the pointers; but the pieces are only read.
    pub unsafe fn save(self, buffer: *mut [u8], saved: *mut Saved) -> u64 {
        call!(self, zilgwern_save(buffer as *mut u8, buffer.len(), saved))
    }

    /// Opens a saved book over the area, which is only read; the other pieces become the book: 0, 1, 5, 21 or 22.
    ///
    /// # Safety
    ///
    /// As for `make`, with the saved book, the working rows and the letter among the pointers; the saved book is only read.
    pub unsafe fn open(self, book: *const [u8], working: *mut [Row], letter: *mut u64) -> u64 {
        let (book_count, working_count) = (book.len(), working.len());
        let (book, working) = (book as *const u8, working as *mut Row);
        call!(self, zilgwern_open(book, book_count, working, working_count, letter))
    }
}
