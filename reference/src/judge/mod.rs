//! The judge: follows a history of runs of any implementation and compares what the order's
//! section "What demand 3 is measured by" names, to the byte, and the store's soundness.

mod book;
mod compaction;
mod due;
mod image;
mod latest;
mod marks;
pub mod met;
mod probe;
mod working;

pub use compaction::Deed;
pub use due::Trigger;
pub use latest::LatestWrites;
pub use marks::Marks;
pub use working::{Slice, Working};

use crate::implementation::Ran;
use crate::lent::Lent;
use crate::rules::check;

/// A request as the judge sees it in the list, with the reply that it got.
#[derive(Clone, Copy)]
pub struct Served<'a> {
    pub kind: u16,
    pub body: &'a [u8],
    /// The whole reply: length, kind, result, body.
    pub reply: &'a [u8],
}

impl Served<'_> {
    /// The result in the reply, or none if the reply has none.
    pub fn result(&self) -> Option<u16> {
        let bytes = self.reply.get(4..6)?;
        Some(u16::from_le_bytes([bytes[0], bytes[1]]))
    }
}

/// What a served request did, for counting what a test run reached.
#[derive(Clone)]
pub struct Followed<'a> {
    pub served: Served<'a>,
    /// Whether a put or delete took the place of an earlier value.
    pub replaced: bool,
    pub deed: Option<Deed>,
    /// What a tidy or a probe met; see `met`.
    pub met: Vec<&'static str>,
}

/// What the judge knows of a history so far.
#[derive(Clone)]
pub struct Judge {
    latest: LatestWrites,
    working: Working,
    /// After how many runs soundness is looked at; 1 for after every run.
    soundness_every: usize,
    /// Whether the rest of the book and all replies are compared with the working, too.
    whole_book: bool,
    runs: usize,
}

impl Judge {
    /// A history that begins at a store made anew.
    pub fn of_new_store(places: usize, threshold: usize) -> Judge {
        Judge::begin(LatestWrites::default(), Working::of_new_store(places, threshold))
    }

    /// A history that begins at any sound store: map and slice list are derived from it.
    pub fn of_sound_store(lent: &Lent) -> Judge {
        let working = image::working(lent);
        Judge::begin(working.latest_writes(), working)
    }

    fn begin(latest: LatestWrites, working: Working) -> Judge {
        Judge { latest, working, soundness_every: 1, whole_book: false, runs: 0 }
    }

    /// Looks at soundness only after every so many runs, for large stores.
    pub fn with_soundness_every(self, runs: usize) -> Judge {
        Judge { soundness_every: runs, ..self }
    }

    /// Compares more than demand 3 names: all replies, and with soundness the whole book.
    pub fn with_whole_book(self) -> Judge {
        Judge { whole_book: true, ..self }
    }

    /// Follows one run: the list and answers, and the lent memory as the run left it.
    /// Gives what each served request did, or in words what is wrong.
    pub fn follow<'a>(
        &mut self,
        list: &'a [u8],
        ran: &Ran,
        answers: &'a [u8],
        after: &Lent,
    ) -> Result<Vec<Followed<'a>>, String> {
        let mut followed = Vec::new();
        for served in pair(list, ran, answers)? {
            let replaced = self.latest.judge(&served)?;
            self.working.compare_probe(&served)?;
            let deed = self.working.serve(served.kind, served.body);
            if self.whole_book {
                self.working.compare_reply(&served, deed)?;
            }
            let met = std::mem::take(&mut self.working.met);
            followed.push(Followed { served, replaced, deed, met });
        }
        self.working.compare(after)?;
        self.runs += 1;
        if self.runs.is_multiple_of(self.soundness_every) {
            self.compare_whole(after)?;
        }
        Ok(followed)
    }

    /// Follows an opening of the saved book over so many places: the history goes on, and the added places are free.
    pub fn follow_opening(&mut self, places: usize, after: &Lent) -> Result<(), String> {
        self.working.grow(places);
        self.working.compare(after)?;
        self.compare_whole(after)
    }

    fn compare_whole(&self, after: &Lent) -> Result<(), String> {
        let verdict = check(after);
        if verdict.number != 0 {
            return Err(format!("not sound any more: {verdict:?}"));
        }
        match self.whole_book {
            true => self.working.compare_book(after),
            false => Ok(()),
        }
    }
}

/// Pairs the served requests of a run with their replies; a refused run has none of either.
fn pair<'a>(list: &'a [u8], ran: &Ran, answers: &'a [u8]) -> Result<Vec<Served<'a>>, String> {
    if ran.number != 0 && (ran.served, ran.written) != (0, 0) {
        return Err(format!("a refused run served or wrote: {ran:?}"));
    }
    let mut answers = answers.get(..ran.written).ok_or("more written than there is room")?;
    let mut list = list;
    let mut all = Vec::new();
    for _ in 0..ran.served {
        let request = cut(&mut list).ok_or("more served than asked")?;
        let reply = cut(&mut answers).ok_or("fewer replies than served")?;
        let kind = u16::from_le_bytes([request[2], request[3]]);
        all.push(Served { kind, body: &request[4..], reply });
    }
    if answers.is_empty() {
        Ok(all)
    } else {
        Err("bytes beyond the last reply".into())
    }
}

/// Takes the first piece, which begins with its own length, from the front.
fn cut<'a>(bytes: &mut &'a [u8]) -> Option<&'a [u8]> {
    let length = usize::from(u16::from_le_bytes([*bytes.first()?, *bytes.get(1)?]));
    if length < 4 || length > bytes.len() {
        return None;
    }
    let (piece, rest) = bytes.split_at(length);
    *bytes = rest;
    Some(piece)
}
