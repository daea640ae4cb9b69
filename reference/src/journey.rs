//! Journeys: histories of stores that run short of places, are saved and opened over more of them, and go on, under one judge from
//! the beginning. Between that, books are saved and opened again as they are.

use crate::campaign::key_sets;
use crate::generate::profile::{Source, PROFILES};
use crate::generate::random::{any_lent, mix, Random};
use crate::generate::requests::flush;
use crate::implementation::Implementation;
use crate::limits::{ANSWER_ROOM, LIST_BYTES, PLACES};
use crate::reached::{Reached, STUCK};
use crate::reopened::OPENINGS;
use crate::trial::{Eyes, Trial};

/// A store that found no place for a flush and none for a tidy, and found one after the opening.
pub const WENT_ON: &str = "went on after 20 everywhere, over twice the places";

/// How often a journey opens over twice the places.
const LEGS: usize = 3;

/// Lists after which a leg ends even where places have not run short.
const LISTS: usize = 60;

/// Lists on the last leg.
const LAST_LISTS: usize = 12;

/// The most requests of a list.
const REQUESTS: usize = 40;

/// Leads an implementation through the journey of one seed; gives what was reached, and how many requests were served.
pub fn journey(
    subject: &dyn Implementation,
    eyes: Eyes,
    seed: u64,
) -> Result<(Reached, u64), String> {
    let failed = |words: String| format!("journey {seed}: {words}");
    let mut random = Random::new(mix(seed ^ 0x4A4F_5552));
    let places = 16 + random.below(9);
    let lent = any_lent(&mut random, places);
    let trial = Trial::of_new_store(subject, eyes, lent, 1 + seed % 8);
    let trial = trial.map_err(|finding| failed(finding.words))?;
    let profile = *random.pick(&PROFILES);
    let source = Source::new(profile, *random.pick(&key_sets(4 * places)), random.word());
    let mut journey = Journey { trial, source, random };
    journey.travel(seed).map_err(failed)?;
    Ok((journey.trial.reached, journey.trial.served))
}

struct Journey<'a> {
    trial: Trial<'a>,
    source: Source,
    random: Random,
}

impl Journey<'_> {
    fn travel(&mut self, seed: u64) -> Result<(), String> {
        for _ in 0..LEGS {
            let short = self.go_until_short()?;
            let flushes_refused = self.trial.reached.times("20 by a flush");
            self.reopen(2 * self.trial.lent.cards.len())?;
            self.run(&flush())?;
            if short && self.trial.reached.times("20 by a flush") == flushes_refused {
                self.trial.reached.count(WENT_ON);
            }
        }
        if seed.is_multiple_of(16) {
            self.reopen(*PLACES.end())?;
        }
        (0..LAST_LISTS).try_for_each(|_| self.run_list())
    }

    /// Runs lists until neither a flush nor a tidy finds its places; says whether it came to that.
    fn go_until_short(&mut self) -> Result<bool, String> {
        let before = self.trial.reached.times(STUCK);
        for _ in 0..LISTS {
            self.run_list()?;
            if self.trial.reached.times(STUCK) > before {
                return Ok(true);
            }
            match self.random.below(16) {
                0 => self.reopen(self.trial.lent.cards.len())?,
                1 if self.random.once_in(4) => self.reopen(self.trial.lent.cards.len() + 1)?,
                _ => {}
            }
        }
        Ok(false)
    }

    fn run_list(&mut self) -> Result<(), String> {
        let count = 1 + self.random.below(REQUESTS);
        let list = self.source.list(count);
        self.run(&list)
    }

    fn run(&mut self, list: &[u8]) -> Result<(), String> {
        let ran = self.trial.run(list, ANSWER_ROOM + LIST_BYTES);
        ran.map(|_| ()).map_err(|finding| format!("{finding:?}"))
    }

    fn reopen(&mut self, places: usize) -> Result<(), String> {
        let reopened = self.trial.reopen(places, &mut self.random);
        reopened.map_err(|finding| format!("{finding:?}"))
    }
}

/// What enough journeys must have reached; the longest books come from planted stores.
pub fn required() -> Vec<String> {
    let longest = "saved in more than 65,535 bytes";
    let names = OPENINGS.into_iter().filter(|name| *name != longest);
    names.chain([WENT_ON, STUCK]).map(String::from).collect()
}
