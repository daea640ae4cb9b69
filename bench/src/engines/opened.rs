//! Two proved stores in the same rounds, that of today and an earlier one. A program can be linked with one of their libraries alone,
//! since the functions have the same names; so both are shared objects here, opened at run time. Both, because one library linked and
//! the same one opened differ by some percent of a put in small stores. The earlier one may have other rows of cards.

use super::library::{functions, Library};
use super::{boxed, Kind, BEFORE, PROVED};
use crate::lists::{Listed, Runner};
use reference::lent::Lent;
use reference::limits::PLACES;
use zilgwern_sys::{Head, Outcome, Row, Table, ROW_SUMMARY, ROW_WORDS};

/// Words of a row in the libraries that are known: those of today, and of before cards had summaries. Shorter ones stand at the front of
/// the memory for today's.
const KNOWN_ROWS: [usize; 2] = [ROW_WORDS, ROW_SUMMARY];

functions! {
    /// By the signatures of `host/sys`: the five pieces, then what is the function's own.
    Functions {
        fn zilgwern_make(*mut u8, usize, *mut Row, usize, *mut u16, usize, *mut Head, *mut Table, u64) -> u64;
        fn zilgwern_check(*mut u8, usize, *mut Row, usize, *mut u16, usize, *mut Head, *mut Table, *mut u64) -> u64;
        fn zilgwern_run(
            *mut u8, usize, *mut Row, usize, *mut u16, usize, *mut Head, *mut Table,
            *const u8, usize, *mut u8, usize, *mut Outcome
        ) -> u64;
    }
}

/// Calls such a function with the pieces as they stand and its own arguments.
macro_rules! call {
    ($function:expr, $lent:expr, $($own:expr),*) => {{
        let Lent { area, cards, lists, head, memory } = $lent;
        ($function)(
            area.as_mut_ptr(), area.len(),
            cards.as_mut_ptr(), cards.len(),
            lists.as_mut_ptr(), lists.len(),
            head, memory,
            $($own),*
        )
    }};
}

/// A store by its library.
#[derive(Clone, Copy)]
pub struct Opened {
    word: &'static str,
    call: Functions,
    row_words: usize,
}

/// The two stores.
#[derive(Clone, Copy)]
pub struct Versions {
    pub now: Opened,
    pub before: Opened,
}

impl Versions {
    /// Opens two shared objects; words where one can't be opened, has not the functions of a store, or rows of cards that are not known.
    pub fn open(now: &str, before: &str) -> Result<Versions, String> {
        Ok(Versions { now: Opened::open(PROVED, now)?, before: Opened::open(BEFORE, before)? })
    }

    /// The two among other stores, today's first. They stay for the rest of the run, as the libraries do.
    pub fn kinds(self) -> [Kind; 2] {
        let kind = |title: &'static str, store: Opened| Kind {
            word: store.word,
            title,
            package: None,
            open: Box::leak(Box::new(move |setup| boxed(Some(Listed::set_up(store, setup))))),
        };
        [kind("proved store", self.now), kind("proved store before", self.before)]
    }
}

impl Functions {
    /// The words of a row: making a store clears so many for each place, and leaves those behind.
    fn row_words(&self) -> usize {
        const MARK: u64 = 0xA5A5_A5A5_A5A5_A5A5;
        let places = *PLACES.start();
        let mut lent = Lent::zeroed(places);
        let mut cards = vec![MARK; places * 4 * ROW_WORDS];
        let rows = cards.as_mut_ptr() as *mut Row;
        // SAFETY: each pointer comes with the count of what is behind it; behind the rows there is room for longer ones.
        let number = unsafe {
            (self.zilgwern_make)(
                lent.area.as_mut_ptr(),
                lent.area.len(),
                rows,
                places,
                lent.lists.as_mut_ptr(),
                lent.lists.len(),
                &mut lent.head,
                &mut lent.memory,
                1,
            )
        };
        assert_eq!(number, 0, "making a store");
        cards.iter().take_while(|word| **word == 0).count() / places
    }
}

impl Opened {
    fn open(word: &'static str, file: &str) -> Result<Opened, String> {
        let call = Functions::of(&Library::open(file)?)?;
        let row_words = call.row_words();
        match KNOWN_ROWS.contains(&row_words) {
            true => Ok(Opened { word, call, row_words }),
            false => Err(format!(
                "{file} has cards of {row_words} words; those of {KNOWN_ROWS:?} are known"
            )),
        }
    }

    /// The same store with its cards as this library has them.
    pub fn laid_out(&self, lent: &Lent) -> Lent {
        let mut laid = lent.clone();
        let words: Vec<u64> =
            lent.cards.iter().flat_map(|row| &row[..self.row_words]).copied().collect();
        let all = laid.cards.as_flattened_mut();
        all[..words.len()].copy_from_slice(&words);
        all[words.len()..].fill(0);
        laid
    }

    /// Number and letter of a check.
    pub fn check(&self, lent: &mut Lent) -> (u64, u64) {
        let mut letter = 0;
        // SAFETY: each pointer comes with the count of what is behind it.
        let number = unsafe { call!(self.call.zilgwern_check, lent, &mut letter) };
        (number, letter)
    }
}

impl Runner for Opened {
    fn name(&self) -> &'static str {
        self.word
    }

    fn make(&self, places: usize, threshold: u64) -> Lent {
        // A copy has its pages already, so that the system does not give them while the clock runs.
        let mut lent = Lent::zeroed(places).clone();
        // SAFETY: as above.
        let number = unsafe { call!(self.call.zilgwern_make, &mut lent, threshold) };
        assert_eq!(number, 0, "{}: making a store", self.name());
        lent
    }

    fn run(&self, lent: &mut Lent, list: &[u8], answers: &mut [u8]) -> (usize, usize) {
        let mut outcome = [0; 3];
        let (requests, room) = (list.as_ptr(), answers.as_mut_ptr());
        let (list_count, room_count) = (list.len(), answers.len());
        // SAFETY: as above; the list is only read.
        let number = unsafe {
            let run = self.call.zilgwern_run;
            call!(run, lent, requests, list_count, room, room_count, &mut outcome)
        };
        let [letter, served, written] = outcome;
        assert_eq!((number, letter), (0, 0), "{}: number and letter of a run", self.name());
        (served as usize, written as usize)
    }
}
