//! A trial: one history of an implementation, run list by list under the judge, and compared with
//! the second implementation.

use crate::implementation::{Implementation, Ran, Reference};
use crate::judge::Judge;
use crate::lent::Lent;
use crate::reached::{Reached, STOPS};

/// What looks at a run.
#[derive(Clone, Copy, PartialEq, Eq, Debug)]
pub enum Eyes {
    /// The judge: demand 3 and soundness.
    Judge,
    /// The judge, and what its working says of the whole book and all replies.
    WholeBook,
    /// The comparison with the second implementation.
    Comparison,
    /// The judge and the comparison.
    Both,
}

impl Eyes {
    pub(crate) fn judge(self) -> bool {
        self != Eyes::Comparison
    }

    pub(crate) fn compare(self) -> bool {
        matches!(self, Eyes::Comparison | Eyes::Both)
    }
}

/// What was found wrong, and by whom.
#[derive(Clone, PartialEq, Eq, Debug)]
pub struct Finding {
    pub by: Eyes,
    pub words: String,
}

/// The byte that fills the answer buffer before a run; bytes beyond the answers must keep it.
pub const UNTOUCHED: u8 = 0xA5;

/// A history under way.
pub struct Trial<'a> {
    pub(crate) subject: &'a dyn Implementation,
    pub(crate) eyes: Eyes,
    pub(crate) judge: Judge,
    pub lent: Lent,
    pub reached: Reached,
    /// Requests served so far.
    pub served: u64,
}

impl<'a> Trial<'a> {
    /// Begins at a store made anew in memory of any content.
    pub fn of_new_store(
        subject: &'a dyn Implementation,
        eyes: Eyes,
        mut lent: Lent,
        threshold: u64,
    ) -> Result<Trial<'a>, Finding> {
        let mut expected = lent.clone();
        Reference::default().make(&mut expected, threshold);
        let number = subject.make(&mut lent, threshold);
        if number != 0 || lent != expected {
            let words = format!("make gives {number}, {:?}", lent.difference(&expected));
            return Err(Finding { by: Eyes::Comparison, words });
        }
        let judge = Judge::of_new_store(lent.cards.len(), threshold as usize);
        let mut trial = Trial::begin(subject, eyes, lent, judge);
        trial.count_store("new");
        Ok(trial)
    }

    /// Begins at any sound store.
    pub fn of_sound_store(subject: &'a dyn Implementation, eyes: Eyes, lent: Lent) -> Trial<'a> {
        let judge = Judge::of_sound_store(&lent);
        let mut trial = Trial::begin(subject, eyes, lent, judge);
        trial.count_store("planted");
        trial
    }

    fn begin(subject: &'a dyn Implementation, eyes: Eyes, lent: Lent, judge: Judge) -> Trial<'a> {
        let judge = if eyes == Eyes::WholeBook { judge.with_whole_book() } else { judge };
        Trial { subject, eyes, judge, lent, reached: Reached::default(), served: 0 }
    }

    fn count_store(&mut self, origin: &str) {
        self.reached.count(format!("{origin} store with {} places", self.lent.cards.len()));
        self.reached.count(format!("{origin} store with threshold {}", self.lent.head[0]));
    }

    /// Looks at soundness only after every so many runs.
    pub fn with_soundness_every(mut self, runs: usize) -> Trial<'a> {
        self.judge = self.judge.with_soundness_every(runs);
        self
    }

    /// Runs one list with this much room for answers.
    pub fn run(&mut self, list: &[u8], room: usize) -> Result<Ran, Finding> {
        let before = self.eyes.compare().then(|| self.lent.clone());
        let mut answers = vec![UNTOUCHED; room];
        let ran = self.subject.run(&mut self.lent, list, &mut answers);
        self.served += ran.served as u64;
        if self.eyes.judge() {
            let followed = self.judge.follow(list, &ran, &answers, &self.lent);
            let followed = followed.map_err(|words| Finding { by: Eyes::Judge, words })?;
            followed.iter().for_each(|followed| self.reached.follow(followed));
            self.count_run(&ran, list);
        }
        if let Some(before) = before {
            let compared = compare(before, list, &ran, &answers, &self.lent);
            compared.map_err(|words| Finding { by: Eyes::Comparison, words })?;
        }
        Ok(ran)
    }

    fn count_run(&mut self, ran: &Ran, list: &[u8]) {
        if ran.number != 0 {
            self.reached.count(format!("run refused with {}", ran.number));
            return;
        }
        let asked = crate::request::split(list).map_or(0, |requests| requests.len());
        if ran.served < asked && ran.served <= STOPS {
            self.reached.count(format!("stopped after {:>2}", ran.served));
        }
    }
}

/// Runs the same list by the second implementation and compares all numbers, the letter and all bytes.
pub fn compare(
    before: Lent,
    list: &[u8],
    ran: &Ran,
    answers: &[u8],
    after: &Lent,
) -> Result<(), String> {
    let mut lent = before;
    let mut expected = vec![UNTOUCHED; answers.len()];
    let own = Reference::default().run(&mut lent, list, &mut expected);
    if *ran != own {
        return Err(format!("gives {ran:?}, expected {own:?}"));
    }
    if let Some(byte) = (0..answers.len()).find(|byte| answers[*byte] != expected[*byte]) {
        return Err(format!("answers differ from byte {byte} on"));
    }
    match lent.difference(after) {
        Some(words) => Err(format!("the store after differs: {words}")),
        None => Ok(()),
    }
}
