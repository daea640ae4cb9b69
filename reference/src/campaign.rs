//! A campaign: histories of all sizes, thresholds and profiles, on new and on planted stores, that
//! an implementation is led through.

use crate::generate::broken::BREAKAGES;
use crate::generate::features::FEATURES;
use crate::generate::keys::Keys;
use crate::generate::planted::{planted, planted_with_marks};
use crate::generate::profile::{Profile, Source, DELETING, PROFILES};
use crate::generate::random::Random;
use crate::implementation::Implementation;
use crate::judge::met;
use crate::lent::Lent;
use crate::limits::{ANSWER_ROOM, LIST_BYTES};
use crate::reached::{required_of_requests, Reached, STOPS, STUCK};
use crate::store::Store;
use crate::trial::{Eyes, Finding, Trial};

/// Where a history begins.
#[derive(Clone, Copy, Debug)]
pub enum Origin {
    New {
        places: usize,
        threshold: u64,
    },
    Planted {
        places: usize,
    },
    /// The same, rich in delete marks.
    PlantedWithMarks {
        places: usize,
    },
}

/// How much is served, and how closely the judge looks.
#[derive(Clone, Copy, Debug)]
pub struct Extent {
    pub requests: u64,
    /// The most requests of one list; the judge looks after each list.
    pub per_list: usize,
    /// Soundness is looked at after every so many lists.
    pub soundness_every: usize,
}

/// Histories of one kind.
#[derive(Clone, Copy, Debug)]
pub struct Job {
    pub origin: Origin,
    pub profile: Profile,
    pub keys: Keys,
    pub seed: u64,
    pub extent: Extent,
}

impl Job {
    /// Leads an implementation through histories until enough requests are served.
    /// Gives what was reached and how many were served, or what was found wrong and where.
    pub fn work(&self, subject: &dyn Implementation, eyes: Eyes) -> Result<(Reached, u64), String> {
        let mut source = Source::new(self.profile, self.keys, self.seed);
        let mut reached = Reached::default();
        let mut served = 0;
        while served < self.extent.requests {
            let mut trial =
                self.begin(subject, eyes, &mut source.random).map_err(|f| self.report(f, 0))?;
            // A full store stays as it is, so another history is begun after a while.
            while served + trial.served < self.extent.requests && trial.reached.times(STUCK) < 8 {
                let (list, room) = self.list_and_room(&mut source);
                let ran = trial.run(&list, room);
                ran.map_err(|finding| self.report(finding, trial.served))?;
            }
            served += trial.served;
            reached.add(&trial.reached);
        }
        Ok((reached, served))
    }

    fn report(&self, finding: Finding, served: u64) -> String {
        format!("{self:?}: {finding:?}, after {served} requests of this history")
    }

    fn begin<'a>(
        &self,
        subject: &'a dyn Implementation,
        eyes: Eyes,
        random: &mut Random,
    ) -> Result<Trial<'a>, Finding> {
        let trial = match self.origin {
            Origin::New { places, threshold } => {
                let mut lent = Lent::zeroed(places);
                lent.area = random.bytes(lent.area.len());
                Trial::of_new_store(subject, eyes, lent, threshold)?
            }
            Origin::Planted { places } => {
                sound_trial(subject, eyes, planted(random, places, self.keys))
            }
            Origin::PlantedWithMarks { places } => {
                sound_trial(subject, eyes, planted_with_marks(random, places, self.keys))
            }
        };
        Ok(trial.with_soundness_every(self.extent.soundness_every))
    }

    /// Mostly good lists; now and then one that is refused whole or stops for want of room.
    fn list_and_room(&self, source: &mut Source) -> (Vec<u8>, usize) {
        let count = 1 + source.random.below(self.extent.per_list);
        match source.random.below(200) {
            0 => {
                let (_, breakage) = BREAKAGES[source.random.below(BREAKAGES.len())];
                (breakage(&mut source.random), LIST_BYTES)
            }
            1 => (source.list(count), source.random.below(ANSWER_ROOM)),
            2 => (Vec::new(), ANSWER_ROOM),
            3..=60 => (source.list(count), ANSWER_ROOM + source.random.below(300)),
            _ if count == 1 => (source.list(1), ANSWER_ROOM),
            _ => (source.list(count), 2 * LIST_BYTES),
        }
    }
}

/// Begins at a planted store and counts its features.
fn sound_trial(subject: &dyn Implementation, eyes: Eyes, store: Store) -> Trial<'_> {
    let shown: Vec<_> = FEATURES.iter().filter(|(_, shows)| shows(&store)).collect();
    let mut trial = Trial::of_sound_store(subject, eyes, store.encode());
    for (name, _) in shown {
        trial.reached.count(format!("planted: {name}"));
    }
    trial
}

/// All histories of a campaign; another seed gives another campaign of the same shape.
pub fn jobs(seed: u64) -> Vec<Job> {
    let extent =
        |requests, per_list, soundness_every| Extent { requests, per_list, soundness_every };
    let mut jobs = Vec::new();
    for places in [16, 17, 32] {
        jobs.extend(jobs_from_new(places, seed, extent(1200, 1, 1)));
        jobs.extend(jobs_from_new(places, seed ^ 1, extent(600, 30, 1)));
    }
    jobs.extend(jobs_from_new(96, seed, extent(3000, 4, 1)));
    jobs.extend(jobs_from_new(256, seed, extent(4000, 60, 4)));
    // The largest stores take long lists, and every third combination is enough.
    jobs.extend(jobs_from_new(4096, seed, extent(6000, 1500, 4)).into_iter().step_by(3));
    // On a planted store the first few steps show most.
    jobs.extend((0..5000).map(|number| planted_job(number, seed, extent(24, 1, 1))));
    jobs.extend(jobs_of_deletes(seed, extent(1500, 1, 1)));
    jobs.extend((0..1000).map(|number| marked_job(number, seed, extent(24, 1, 1))));
    jobs
}

/// Key sets that fit a store of so many places: small ones repeat keys, large ones fill levels.
pub fn key_sets(places: usize) -> [Keys; 5] {
    let places = places as u64;
    [
        Keys::Dense(24),
        Keys::Survey(places * 5),
        Keys::Edges(12 + places),
        Keys::Wide(places * 12),
        Keys::Dense(places * 8),
    ]
}

/// Histories for one size: every threshold with every profile, key sets in turn.
fn jobs_from_new(places: usize, seed: u64, extent: Extent) -> Vec<Job> {
    let mut jobs = Vec::new();
    for threshold in 1..=8 {
        for profile in PROFILES {
            let keys = key_sets(places)[(jobs.len() + threshold as usize) % 5];
            let origin = Origin::New { places, threshold };
            let seed = seed.wrapping_mul(1 << 32) + (places * 1000 + jobs.len()) as u64;
            jobs.push(Job { origin, profile, keys, seed, extent });
        }
    }
    jobs
}

fn planted_job(number: usize, seed: u64, extent: Extent) -> Job {
    let places = [16, 17, 24, 32, 48, 64, 96, 128][number % 8];
    let sets = [Keys::Dense(400), Keys::Edges(200), Keys::Wide(600), Keys::Survey(500)];
    let keys = sets[number / 8 % sets.len()];
    // Tidying shows most on a planted store.
    let profile = PROFILES[[4, 0, 4, 2, 4, 1][number % 6]];
    let seed = seed.wrapping_mul(1 << 32) + 10_000_000 + number as u64;
    Job { origin: Origin::Planted { places }, profile, keys, seed, extent }
}

/// Histories with many deletes on small new stores, over few keys and over many.
fn jobs_of_deletes(seed: u64, extent: Extent) -> Vec<Job> {
    let mut jobs = Vec::new();
    for places in [16, 24, 40, 64] {
        for threshold in 1..=4 {
            for bound in [12, 40, 4 * places as u64] {
                let origin = Origin::New { places, threshold };
                let keys = Keys::Dense(bound);
                let seed = seed.wrapping_mul(1 << 32) + 20_000_000 + jobs.len() as u64;
                jobs.push(Job { origin, profile: DELETING, keys, seed, extent });
            }
        }
    }
    jobs
}

/// Histories on planted stores that are rich in delete marks.
fn marked_job(number: usize, seed: u64, extent: Extent) -> Job {
    let places = [16, 24, 32, 48, 64][number % 5];
    let keys = [Keys::Dense(120), Keys::Edges(100), Keys::Wide(300)][number / 5 % 3];
    let profile = if number.is_multiple_of(2) { PROFILES[4] } else { DELETING };
    let seed = seed.wrapping_mul(1 << 32) + 30_000_000 + number as u64;
    Job { origin: Origin::PlantedWithMarks { places }, profile, keys, seed, extent }
}

/// Everything that a campaign must have reached.
pub fn required() -> Vec<String> {
    let mut names = required_of_requests();
    for threshold in 1..=8 {
        names.push(format!("new store with threshold {threshold}"));
        names.push(format!("planted store with threshold {threshold}"));
    }
    let sizes = [16, 17, 32, 96, 256, 4096];
    names.extend(sizes.map(|places| format!("new store with {places} places")));
    names.extend((1..=STOPS).map(|position| format!("stopped after {position:>2}")));
    names.extend(FEATURES.map(|(name, _)| format!("planted: {name}")));
    names.extend([3, 4].map(|number| format!("run refused with {number}")));
    names.push(met::DEEP.into());
    names
}
