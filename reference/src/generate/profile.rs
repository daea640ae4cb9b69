//! Profiles of use: which requests come how often, over which keys.

use super::keys::Keys;
use super::random::Random;
use super::requests::{self, Lengths};
use crate::limits::LIST_BYTES;

/// How often each kind of request comes, relative to the others.
#[derive(Clone, Copy, Debug)]
pub struct Profile {
    pub name: &'static str,
    pub puts: usize,
    pub deletes: usize,
    /// Half of them as probes.
    pub look_ups: usize,
    pub scans: usize,
    pub flushes: usize,
    pub tidies: usize,
    pub reports: usize,
    pub refused: usize,
    /// Bursts of writes with a flush and some tidies after them.
    pub loads: usize,
    /// The most keys of one load.
    pub load_keys: usize,
    /// Of eight keys of a load so many are deleted and not put.
    pub load_deletes: usize,
    /// The most tidies after one load.
    pub load_tidies: usize,
}

const STEADY: Profile = Profile {
    name: "steady",
    puts: 50,
    deletes: 12,
    look_ups: 25,
    scans: 8,
    flushes: 6,
    tidies: 14,
    reports: 2,
    refused: 2,
    loads: 0,
    load_keys: 1,
    load_deletes: 0,
    load_tidies: 0,
};

/// Profiles for histories and planted stores.
pub const PROFILES: [Profile; 5] = [
    STEADY,
    // Many tables soon, down to level 3 where places allow.
    Profile { name: "deep", loads: 20, load_keys: 16, load_tidies: 8, ..STEADY },
    // Small tables, so that keys spread thinly over many places.
    Profile { name: "thin", loads: 60, load_keys: 3, load_tidies: 5, ..STEADY },
    // Hardly a tidy, so that places run out.
    Profile { name: "filling", tidies: 2, loads: 40, load_keys: 4, load_tidies: 1, ..STEADY },
    // Tidies above all, and reads between them.
    Profile { name: "tidying", puts: 30, tidies: 90, flushes: 10, refused: 8, ..STEADY },
];

/// Deletes above all, in loads too, and tidies enough for most of the marks to be merged. It is not
/// among the others: the histories that these give by their seeds stay as they are.
pub const DELETING: Profile = Profile {
    name: "deleting",
    puts: 20,
    deletes: 30,
    tidies: 40,
    loads: 30,
    load_keys: 16,
    load_deletes: 5,
    load_tidies: 8,
    ..STEADY
};

/// Makes a request for a key.
type Maker = fn(&mut Source, u64) -> Vec<u8>;

/// Makes requests of a profile, one after the other.
pub struct Source {
    profile: Profile,
    keys: Keys,
    lengths: Lengths,
    pub random: Random,
    /// What is left of a load that has begun, last first.
    waiting: Vec<Vec<u8>>,
}

impl Source {
    pub fn new(profile: Profile, keys: Keys, seed: u64) -> Source {
        let mut random = Random::new(seed);
        let lengths = Lengths::drawn(&mut random);
        Source { profile, keys, lengths, random, waiting: Vec::new() }
    }

    /// The next request.
    pub fn request(&mut self) -> Vec<u8> {
        if let Some(request) = self.waiting.pop() {
            return request;
        }
        let profile = self.profile;
        let key = self.keys.draw(&mut self.random);
        let makers: [(usize, Maker); 9] = [
            (profile.puts, Source::put),
            (profile.deletes, |_, key| requests::delete(key)),
            (profile.look_ups, Source::read),
            (profile.scans, Source::scan),
            (profile.flushes, |_, _| requests::flush()),
            (profile.tidies, |_, _| requests::tidy()),
            (profile.reports, |_, _| requests::report()),
            (profile.refused, |source, _| requests::refused(&mut source.random)),
            (profile.loads, Source::load),
        ];
        let mut ticket = self.random.below(makers.iter().map(|(weight, _)| weight).sum());
        for (weight, maker) in makers {
            if ticket < weight {
                return maker(self, key);
            }
            ticket -= weight;
        }
        unreachable!("the ticket is below the sum of the weights")
    }

    /// A list of so many requests, or as many as fit a list.
    pub fn list(&mut self, count: usize) -> Vec<u8> {
        let mut list = Vec::new();
        for _ in 0..count {
            let request = self.request();
            if list.len() + request.len() > LIST_BYTES {
                self.waiting.push(request);
                break;
            }
            list.extend(request);
        }
        list
    }

    fn put(&mut self, key: u64) -> Vec<u8> {
        requests::put(key, &self.lengths.value(&mut self.random))
    }

    /// A look-up or a probe, some of the latter of a key with the bits of another one. Drawn without taking a number away, so that
    /// all that follows is the same for each.
    fn read(&mut self, key: u64) -> Vec<u8> {
        match self.random.clone().below(8) {
            0..=3 => requests::look_up(key),
            4..=6 => requests::probe(key),
            _ => requests::probe(requests::twin(key)),
        }
    }

    /// A scan from the key: up to another one, over all keys, or over this key alone.
    fn scan(&mut self, key: u64) -> Vec<u8> {
        let other = self.keys.draw(&mut self.random);
        match self.random.below(6) {
            0 => requests::scan(0, u64::MAX),
            1 => requests::scan(key, key),
            2 => requests::scan(key, u64::MAX),
            _ => requests::scan(key.min(other), key.max(other)),
        }
    }

    /// A put or, as often as the profile has it, a delete.
    fn write(&mut self, key: u64) -> Vec<u8> {
        let deletes = self.profile.load_deletes;
        if deletes > 0 && self.random.below(8) < deletes {
            return requests::delete(key);
        }
        self.put(key)
    }

    /// Begins a load: its first write now, the rest in the requests that follow.
    fn load(&mut self, key: u64) -> Vec<u8> {
        for _ in 0..self.random.below(self.profile.load_tidies + 1) {
            self.waiting.push(requests::tidy());
        }
        self.waiting.push(requests::flush());
        for _ in 0..self.random.below(self.profile.load_keys) {
            let key = self.keys.draw(&mut self.random);
            let write = self.write(key);
            self.waiting.push(write);
        }
        self.write(key)
    }
}
