//! Random histories of the proved store, list after list, under the judge and beside the second implementation. All of a
//! history follows from its seed, so that one that fails can be repeated alone.

use crate::refused::spoiled_run;
use crate::Proved;
use reference::campaign::key_sets;
use reference::generate::broken::BREAKAGES;
use reference::generate::features::FEATURES;
use reference::generate::keys::Keys;
use reference::generate::planted::{planted, planted_with_marks};
use reference::generate::profile::{Source, DELETING, PROFILES};
use reference::generate::random::{any_lent, mix, Random};
use reference::implementation::Ran;
use reference::limits::ANSWER_ROOM;
use reference::reached::{Reached, STUCK};
use reference::request::split;
use reference::store::Store;
use reference::trial::{Eyes, Trial};
use std::ops::RangeInclusive;

/// Where histories begin.
#[derive(Clone, Copy, PartialEq, Eq, Debug)]
pub enum Origin {
    /// At a store made anew in memory of any content.
    New,
    /// At an arbitrary sound store.
    Planted,
    /// At one that is rich in delete marks.
    PlantedWithMarks,
}

/// What histories of one kind have in common.
#[derive(Clone, Debug)]
pub struct Shape {
    /// One word, for the command line of a soak.
    pub name: &'static str,
    pub origin: Origin,
    pub places: RangeInclusive<usize>,
    /// The most requests of one list. Each run checks the whole store, so large stores take long lists.
    pub list: usize,
    /// Requests after which a history ends.
    pub requests: u64,
    /// Whether most writes are deletes, of few keys.
    pub deletes: bool,
}

/// Small stores made anew, which soon run out of places.
pub const SMALL: Shape = Shape {
    name: "small",
    origin: Origin::New,
    places: 16..=64,
    list: 160,
    requests: 2_500,
    deletes: false,
};

/// Stores made anew with room for all levels to overflow.
pub const MIDDLE: Shape =
    Shape { name: "middle", places: 65..=600, list: 900, requests: 20_000, ..SMALL };

/// The largest stores.
pub const LARGE: Shape =
    Shape { name: "large", places: 601..=4096, list: 4_000, requests: 40_000, ..SMALL };

/// Arbitrary sound stores: the first requests show most, before the history has tidied them up.
pub const PLANTED: Shape = Shape {
    name: "planted",
    origin: Origin::Planted,
    places: 16..=160,
    list: 60,
    requests: 300,
    deletes: false,
};

/// Arbitrary sound stores of any size.
pub const PLANTED_LARGE: Shape =
    Shape { name: "planted-large", places: 161..=4096, list: 1_500, requests: 1_500, ..PLANTED };

/// Small stores made anew that see more deletes than puts, so that most merges meet delete marks.
pub const DELETES: Shape = Shape { name: "deletes", deletes: true, ..SMALL };

/// Small stores rich in delete marks on all levels.
pub const PLANTED_MARKS: Shape = Shape {
    name: "planted-marks",
    origin: Origin::PlantedWithMarks,
    places: 16..=64,
    deletes: true,
    ..PLANTED
};

/// All shapes; those of small stores come more often in a soak.
pub const SHAPES: [&Shape; 10] = [
    &SMALL,
    &SMALL,
    &SMALL,
    &MIDDLE,
    &PLANTED,
    &PLANTED,
    &LARGE,
    &PLANTED_LARGE,
    &DELETES,
    &PLANTED_MARKS,
];

/// What some histories came to.
#[derive(Clone, Default, Debug)]
pub struct Tally {
    pub reached: Reached,
    pub served: u64,
    pub runs: u64,
    pub histories: u64,
}

impl Tally {
    pub fn add(&mut self, other: &Tally) {
        self.reached.add(&other.reached);
        self.served += other.served;
        self.runs += other.runs;
        self.histories += other.histories;
    }
}

/// Works through histories of a shape, seed after seed, until enough requests are served.
pub fn work(shape: &Shape, first_seed: u64, requests: u64) -> Result<Tally, String> {
    let mut tally = Tally::default();
    for seed in first_seed.. {
        if tally.served >= requests {
            break;
        }
        tally.add(&history(shape, seed)?);
    }
    Ok(tally)
}

/// Works through the history of one seed.
pub fn history(shape: &Shape, seed: u64) -> Result<Tally, String> {
    let _named = Named { shape: shape.name, seed };
    let failed = |words| format!("{}: {words}", repetition(shape.name, seed));
    let mut history = History::begin(shape, seed).map_err(failed)?;
    // A full store stays as it is, so the history ends after a while.
    while history.trial.served < shape.requests && history.trial.reached.times(STUCK) < 8 {
        history.run_list(shape.list).map_err(failed)?;
        if history.source.random.once_in(6) {
            history.refused_run().map_err(failed)?;
        }
    }
    let Trial { reached, served, .. } = history.trial;
    Ok(Tally { reached, served, runs: history.runs, histories: 1 })
}

/// A history by the command that repeats it.
fn repetition(shape: &str, seed: u64) -> String {
    format!("history `tools/soak 1 {seed} {shape}`")
}

/// Names the history when a call panics in it, as a touched guard does.
struct Named {
    shape: &'static str,
    seed: u64,
}

impl Drop for Named {
    fn drop(&mut self) {
        if std::thread::panicking() {
            eprintln!("in {}", repetition(self.shape, self.seed));
        }
    }
}

/// A history under way.
struct History {
    trial: Trial<'static>,
    source: Source,
    runs: u64,
}

impl History {
    fn begin(shape: &Shape, seed: u64) -> Result<History, String> {
        let mut random = Random::new(mix(seed));
        let places = some_places(&shape.places, &mut random);
        let keys = *random.pick(&if shape.deletes { few_keys(places) } else { key_sets(places) });
        let trial = match shape.origin {
            Origin::New => {
                let lent = any_lent(&mut random, places);
                Trial::of_new_store(&Proved, Eyes::Both, lent, 1 + seed % 8)
                    .map_err(|finding| finding.words)?
            }
            Origin::Planted => planted_trial(planted(&mut random, places, keys)),
            Origin::PlantedWithMarks => {
                planted_trial(planted_with_marks(&mut random, places, keys))
            }
        };
        let profile = if shape.deletes { DELETING } else { *random.pick(&PROFILES) };
        Ok(History { trial, source: Source::new(profile, keys, random.word()), runs: 0 })
    }

    /// Runs a list to its end, in as many runs as the answer rooms make of it.
    fn run_list(&mut self, most: usize) -> Result<(), String> {
        let count = self.source.random.below(most + 1);
        let list = self.source.list(count);
        let mut rest = &list[..];
        loop {
            let room = some_room(&mut self.source.random, rest.len());
            let ran = self.run(rest, room)?;
            let served = bytes_of(rest, ran.served);
            if served == rest.len() {
                return Ok(());
            }
            rest = &rest[served..];
            if ran.number == 0 {
                self.trial.reached.count("stopped for want of room");
            }
        }
    }

    fn run(&mut self, list: &[u8], room: usize) -> Result<Ran, String> {
        self.runs += 1;
        self.trial.run(list, room).map_err(|finding| format!("{finding:?}"))
    }

    /// A run that is refused: as part of the history, or on a spoiled copy of its store.
    fn refused_run(&mut self) -> Result<(), String> {
        if self.source.random.once_in(2) {
            let (name, breakage) = *self.source.random.pick(&BREAKAGES);
            let list = breakage(&mut self.source.random);
            let before = self.trial.lent.clone();
            self.run(&list, 4 * ANSWER_ROOM)?;
            self.trial.reached.count(format!("4 in a history: {name}"));
            return match self.trial.lent == before {
                true => Ok(()),
                false => Err("a refused run changed the store".into()),
            };
        }
        self.runs += 1;
        let list = self.source.list(20);
        let names = spoiled_run(&self.trial.lent, &list, &mut self.source.random)?;
        names.into_iter().for_each(|name| self.trial.reached.count(name));
        Ok(())
    }
}

/// Key sets so small that deletes find their keys.
fn few_keys(places: usize) -> [Keys; 5] {
    let all = 4 * places as u64;
    [Keys::Dense(12), Keys::Dense(40), Keys::Edges(30), Keys::Dense(all), Keys::Wide(all)]
}

/// A trial that begins at a planted store, with its features counted.
fn planted_trial(store: Store) -> Trial<'static> {
    let shown: Vec<&str> =
        FEATURES.iter().filter(|(_, shows)| shows(&store)).map(|(name, _)| *name).collect();
    let mut trial = Trial::of_sound_store(&Proved, Eyes::Both, store.encode());
    shown.into_iter().for_each(|name| trial.reached.count(format!("planted: {name}")));
    trial
}

/// A number of places in the range; its ends come often, and small ones more often than large.
fn some_places(range: &RangeInclusive<usize>, random: &mut Random) -> usize {
    let span = range.end() - range.start() + 1;
    match random.below(8) {
        0 => *range.start(),
        1 => *range.end(),
        2 | 3 => range.start() + random.below(span),
        _ => range.start() + random.below(random.clone().below(span) + 1),
    }
}

/// Room for answers: mostly enough or nearly so for a list of so many bytes, sometimes for one reply, sometimes too little.
fn some_room(random: &mut Random, list: usize) -> usize {
    match random.below(12) {
        0 => random.below(ANSWER_ROOM),
        1 => ANSWER_ROOM + random.below(40),
        2..=6 => ANSWER_ROOM + random.below(2 * list + 1),
        _ => ANSWER_ROOM + 8 * list,
    }
}

/// The bytes that the first requests of a list take.
fn bytes_of(list: &[u8], requests: usize) -> usize {
    let Some(all) = split(list) else { return 0 };
    all.iter().take(requests).map(|request| 4 + request.body.len()).sum()
}
