//! Saving and opening of an implementation: in the midst of a history, which goes on over as many places or more, and by itself,
//! compared with the second implementation on any memory and any bytes.

use crate::generate::book::Book;
use crate::generate::random::{any_lent, Random};
use crate::implementation::{Implementation, Reference, Saved};
use crate::lent::{Lent, Row, ROW_WORDS};
use crate::limits::{PLACES, PLACE_BYTES};
use crate::trial::{Eyes, Finding, Trial, UNTOUCHED};

/// What histories with openings must have reached.
pub const OPENINGS: [&str; 11] = [
    "opened over as many places",
    "opened over one place more",
    "opened over twice the places",
    "opened over 4,096 places",
    "saved with links",
    "saved with a mark of level 1",
    "saved with a mark of level 2",
    "saved with entries in memory",
    "saved with 16 entries in memory",
    "saved without a free place",
    "saved in more than 65,535 bytes",
];

impl Trial<'_> {
    /// Saves the book, opens it over an area of so many places, in memory that held anything, and goes on there. Live and frozen
    /// places keep their bytes, and every other free one, which may hold a former table; the rest and those added hold anything.
    pub fn reopen(&mut self, places: usize, random: &mut Random) -> Result<(), Finding> {
        let saved = self.save()?;
        let mut lent = any_lent(random, places);
        let kept = |place: &usize| self.lent.cards[*place][0] != 0 || place.is_multiple_of(2);
        for place in (0..self.lent.cards.len()).filter(kept) {
            lent.area[place * PLACE_BYTES..][..PLACE_BYTES].copy_from_slice(self.lent.place(place));
        }
        let mut expected = lent.clone();
        let mut working = vec![[random.word(); ROW_WORDS]; places];
        let said = self.subject.open(&mut lent, &saved, &mut working);
        if said != (0, 0) || working != lent.cards {
            return Err(self.found(format!("opening gives {said:?}, or other working rows")));
        }
        if self.eyes.judge() {
            let followed = self.judge.follow_opening(places, &lent);
            followed.map_err(|words| Finding { by: Eyes::Judge, words })?;
        }
        if self.eyes.compare() {
            let own = Reference::default().open(&mut expected, &saved, &mut working);
            if own != (0, 0) || lent != expected {
                let words = format!("opened otherwise: {:?}", lent.difference(&expected));
                return Err(Finding { by: Eyes::Comparison, words });
            }
        }
        self.count_opening(&saved, places);
        let same_places = places == self.lent.cards.len();
        self.lent = lent;
        // What was opened over as many places is what saving writes again.
        if same_places && self.save()? != saved {
            return Err(self.found("saved again, the book differs".into()));
        }
        Ok(())
    }

    /// The bytes of the saved book: those that the words of the store say, written whole and with nothing touched behind them.
    fn save(&self) -> Result<Vec<u8>, Finding> {
        let expected = Book::of_sound(&self.lent).bytes();
        let mut buffer = vec![UNTOUCHED; expected.len() + 9];
        let saved = self.subject.save(&self.lent, &mut buffer);
        let beyond = buffer.split_off(expected.len());
        let right = Saved { number: 0, letter: 0, length: expected.len() };
        if saved != right || buffer != expected || beyond.iter().any(|byte| *byte != UNTOUCHED) {
            return Err(self.found(format!("saving gives {saved:?}, or other bytes")));
        }
        Ok(buffer)
    }

    /// A finding by whichever eyes look on; saved books need neither the judge nor the second implementation.
    fn found(&self, words: String) -> Finding {
        Finding { by: self.eyes, words }
    }

    fn count_opening(&mut self, saved: &[u8], places: usize) {
        let (before, Lent { cards, head, memory, .. }) = (self.lent.cards.len(), &self.lent);
        let reached = [
            places == before,
            places == before + 1,
            places == 2 * before,
            places == *PLACES.end(),
            cards.iter().any(|row| row[1] > 0),
            head[2] == 1,
            head[4] == 1,
            memory[4] > 0,
            memory[4] == 16,
            cards.iter().all(|row| row[0] != 0),
            saved.len() > usize::from(u16::MAX),
        ];
        let names = OPENINGS.into_iter().zip(reached).filter(|(_, is)| *is);
        names.for_each(|(name, _)| self.reached.count(name));
    }
}

/// Saves lent memory of any content and compares numbers and buffer with the second implementation.
pub fn compare_save(
    subject: &dyn Implementation,
    lent: &Lent,
    room: usize,
) -> Result<Saved, String> {
    let (mut buffer, mut expected) = (vec![UNTOUCHED; room], vec![UNTOUCHED; room]);
    let saved = subject.save(lent, &mut buffer);
    let own = Reference::default().save(lent, &mut expected);
    if saved != own {
        return Err(format!("saving gives {saved:?}, expected {own:?}"));
    }
    match buffer == expected {
        true => Ok(saved),
        false => Err("saving leaves other bytes".into()),
    }
}

/// Opens any bytes over lent memory of any content and compares numbers, book and working rows with the second implementation. That a
/// refusal changes nothing is seen without it. Gives the number and the letter, and leaves in the lent memory what opening left.
pub fn compare_open(
    subject: &dyn Implementation,
    lent: &mut Lent,
    saved: &[u8],
    working: &[Row],
) -> Result<(u16, u8), String> {
    let (mut expected, before) = (lent.clone(), lent.clone());
    let (mut rows, mut expected_rows) = (working.to_vec(), working.to_vec());
    let said = subject.open(lent, saved, &mut rows);
    let own = Reference::default().open(&mut expected, saved, &mut expected_rows);
    if said != own {
        return Err(format!("opening gives {said:?}, expected {own:?}"));
    }
    if said.0 != 0 && *lent != before {
        return Err(format!("a refused opening changed something: {said:?}"));
    }
    if let Some(words) = lent.difference(&expected) {
        return Err(format!("opening leaves another store: {words}"));
    }
    match rows == expected_rows {
        true => Ok(said),
        false => Err(format!("opening leaves other working rows: {said:?}")),
    }
}
