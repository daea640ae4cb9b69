//! Named request lists for the program `survey`, to be run or to be written to files with their answers.

use super::broken::BREAKAGES;
use super::keys::Keys;
use super::profile::{Profile, Source, DELETING, PROFILES};
use super::random::Random;
use super::requests::{look_up, put, request};
use crate::limits::LIST_BYTES;

/// A list with its name, which is fit for a file name.
pub struct Vector {
    pub name: String,
    pub requests: Vec<u8>,
}

/// Loads and tidies above all, so that tables are moved, linked and merged all the time; and every other kind between them.
const BUSY: Profile = Profile {
    name: "busy",
    puts: 30,
    deletes: 12,
    look_ups: 25,
    scans: 10,
    flushes: 2,
    tidies: 40,
    reports: 6,
    refused: 12,
    loads: 30,
    load_keys: 12,
    load_deletes: 0,
    load_tidies: 12,
};

/// The order's own example, an empty list, long lists of every profile, the longest, and refused lists.
pub fn vectors(seed: u64) -> Vec<Vector> {
    let mut vectors = vec![
        Vector { name: "example".into(), requests: [put(5, b"A"), look_up(5)].concat() },
        Vector { name: "empty".into(), requests: Vec::new() },
    ];
    let key_sets = [Keys::Survey(300), Keys::Dense(40), Keys::Edges(80), Keys::Wide(350)];
    for (number, profile) in PROFILES.iter().chain([&DELETING]).enumerate() {
        for (set, keys) in key_sets.iter().enumerate() {
            let seed = seed.wrapping_add((number * key_sets.len() + set) as u64);
            let requests = Source::new(*profile, *keys, seed).list(LIST_BYTES);
            vectors.push(Vector { name: format!("long-{}-{}", profile.name, set), requests });
        }
    }
    vectors.extend(busy(seed));
    let mut random = Random::new(seed);
    for (number, (_, breakage)) in BREAKAGES.iter().enumerate() {
        vectors.push(Vector { name: format!("refused-{number}"), requests: breakage(&mut random) });
    }
    vectors
}

/// A long list in which all steps come often, the longest that is served, and the same with a byte too many.
fn busy(seed: u64) -> [Vector; 3] {
    let often = Source::new(BUSY, Keys::Survey(80), seed).list(LIST_BYTES);
    let longest = filled(Source::new(BUSY, Keys::Edges(40), seed.wrapping_add(2)).list(LIST_BYTES));
    let longer = [&longest[..], &[0]].concat();
    [("busy", often), ("longest", longest), ("refused-longer", longer)]
        .map(|(name, requests)| Vector { name: name.into(), requests })
}

/// The list made as long as a list may be, by a last request of an unknown kind.
fn filled(mut list: Vec<u8>) -> Vec<u8> {
    if LIST_BYTES - list.len() < 4 {
        list = without_last(&list);
    }
    let left = LIST_BYTES - list.len();
    [list, request(99, &vec![7; left - 4])].concat()
}

/// The list without its last request.
fn without_last(list: &[u8]) -> Vec<u8> {
    let (mut at, mut last) = (0, 0);
    while at < list.len() {
        last = at;
        at += usize::from(u16::from_le_bytes([list[at], list[at + 1]]));
    }
    list[..last].to_vec()
}
