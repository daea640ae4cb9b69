//! Saving and opening of the proved store (note 4), beside the second implementation and under its judge: journeys over more and more
//! places from a new store on, round trips of planted stores and of long histories, the longest book, and plans of savings and
//! openings that are refused for one reason or several. Every buffer stands between guards.

use differential::fuzz::sound_store;
use differential::Proved;
use reference::generate::features::FEATURES;
use reference::generate::full::most_links;
use reference::generate::keys::Keys;
use reference::generate::opening::{self, Opening};
use reference::generate::planted::planted;
use reference::generate::profile::{Source, PROFILES};
use reference::generate::random::{any_lent, Random};
use reference::generate::saving::{self, Saving};
use reference::journey::{self, journey};
use reference::reached::Reached;
use reference::trial::{Eyes, Trial};
use std::ops::Range;

/// What each test works through; each is one thread's work, so that cores share them.
const JOURNEYS: Range<u64> = 1000..1032;
const PLANTED: usize = 600;
const STORES: u16 = 300;
const PLANS_EACH: usize = 30;

fn all_reached(reached: &Reached) {
    println!("{reached}");
    assert!(reached.missing().is_empty(), "never reached: {:?}", reached.missing());
}

#[test]
fn journeys_over_more_places() {
    let mut reached = Reached::requiring(journey::required());
    let mut served = 0;
    for seed in JOURNEYS {
        let (part, requests) =
            journey(&Proved, Eyes::Both, seed).unwrap_or_else(|words| panic!("{words}"));
        reached.add(&part);
        served += requests;
    }
    println!("{served} requests");
    all_reached(&reached);
}

#[test]
fn planted_stores_come_back_and_go_on() {
    let mut random = Random::new(61);
    let features = FEATURES.iter().map(|(name, _)| format!("planted: {name}"));
    let openings = ["as many places", "one place more", "twice the places"];
    let openings = openings.map(|over| format!("opened over {over}"));
    let mut reached = Reached::requiring(features.chain(openings));
    for number in 0..PLANTED {
        let places = [16, 17, 33, 64, 100][number % 5];
        let keys = [Keys::Dense(300), Keys::Edges(150), Keys::Wide(400)][number % 3];
        let store = planted(&mut random, places, keys);
        let shown = FEATURES.iter().filter(|(_, shows)| shows(&store));
        shown.for_each(|(name, _)| reached.count(format!("planted: {name}")));
        let mut trial = Trial::of_sound_store(&Proved, Eyes::Both, store.encode());
        let mut source = Source::new(PROFILES[number % PROFILES.len()], keys, random.word());
        for places in [places, places + 1, 2 * (places + 1)] {
            assert_eq!(trial.reopen(places, &mut random), Ok(()), "store {number}");
            let ran = trial.run(&source.list(20), 1 << 17);
            assert!(ran.is_ok(), "store {number}: {ran:?}");
        }
        reached.add(&trial.reached);
    }
    all_reached(&reached);
}

/// A store of 1,500 places after some ten thousand requests, and one of 4,096.
#[test]
fn long_histories_come_back() {
    for (places, more, seed) in [(1500, 3000, 62), (3000, 4096, 63), (4096, 4096, 64)] {
        let mut random = Random::new(seed);
        let lent = any_lent(&mut random, places);
        let mut trial = Trial::of_new_store(&Proved, Eyes::Both, lent, 4).expect("made");
        trial = trial.with_soundness_every(4);
        let keys = Keys::Wide(12 * places as u64);
        let mut source = Source::new(PROFILES[1], keys, random.word());
        for _ in 0..6 {
            assert!(trial.run(&source.list(2_000), 1 << 22).is_ok());
        }
        assert_eq!(trial.reopen(places, &mut random), Ok(()));
        assert_eq!(trial.reopen(more, &mut random), Ok(()));
        assert!(trial.run(&source.list(2_000), 1 << 22).is_ok());
        assert_eq!(trial.reached.times("saved with links"), 2);
    }
}

#[test]
fn the_longest_book_comes_back() {
    let mut random = Random::new(65);
    let lent = most_links(&mut random, 4096).encode();
    let mut trial = Trial::of_sound_store(&Proved, Eyes::Both, lent);
    assert_eq!(trial.reopen(4096, &mut random), Ok(()));
    assert_eq!(trial.reached.times("saved in more than 65,535 bytes"), 1);
    assert_eq!(trial.reached.times("saved with 16 entries in memory"), 1);
    // Small stores of this kind over many more places.
    for places in [16, 399, 400] {
        let lent = most_links(&mut random, places).encode();
        let mut trial = Trial::of_sound_store(&Proved, Eyes::Both, lent);
        for places in [places, places + 1, 1000] {
            assert_eq!(trial.reopen(places, &mut random), Ok(()));
        }
    }
}

/// Each half is one thread's work.
fn plans_hold(seed: u64, numbers: Range<u16>) {
    let mut random = Random::new(seed);
    let names = saving::required().into_iter().chain(opening::required());
    let mut reached = Reached::requiring(names);
    for number in numbers {
        let sound = sound_store(number);
        for _ in 0..PLANS_EACH {
            let saving = Saving::plan(&sound, &mut random);
            assert_eq!(saving.hold(&Proved), Ok(()), "store {number}");
            let opening = Opening::plan(&sound, &mut random);
            assert_eq!(opening.hold(&Proved), Ok(()), "store {number}");
            let names = saving.names.into_iter().chain(opening.names);
            names.for_each(|name| reached.count(name));
        }
    }
    all_reached(&reached);
}

#[test]
fn planned_savings_and_openings_hold() {
    plans_hold(66, 0..STORES / 2);
}

#[test]
fn further_planned_savings_and_openings_hold() {
    plans_hold(67, STORES / 2..STORES);
}
