//! Long random histories: every run of the proved store beside the second implementation and under its judge. After each run
//! the numbers, the whole answer buffer and every byte, row, item and number of the lent memory are compared, and each test
//! fails if it missed something that it should have reached. Every test is one thread's work, so that cores share them.

use differential::histories::{
    self, Shape, Tally, DELETES, LARGE, MIDDLE, PLANTED, PLANTED_LARGE, PLANTED_MARKS, SMALL,
};
use differential::refused::{required_of_spoiled, spoiled_run};
use reference::generate::broken::BREAKAGES;
use reference::generate::features::FEATURES;
use reference::generate::keys::Keys;
use reference::generate::planted::planted;
use reference::generate::profile::{Source, PROFILES};
use reference::generate::random::Random;
use reference::judge::met;
use reference::reached::{required_of_marks_on, required_of_requests, Reached, STOPS};
use std::io::Write;
use std::time::Instant;

/// Requests of each test.
const SMALL_REQUESTS: u64 = 520_000;
const MIDDLE_REQUESTS: u64 = 750_000;
const LARGE_REQUESTS: u64 = 90_000;
const PLANTED_REQUESTS: u64 = 110_000;
const PLANTED_LARGE_REQUESTS: u64 = 12_000;
const DELETES_REQUESTS: u64 = 300_000;
const PLANTED_MARKS_REQUESTS: u64 = 100_000;

/// What the gate asks for in all.
const _: () = assert!(
    2 * SMALL_REQUESTS
        + MIDDLE_REQUESTS
        + LARGE_REQUESTS
        + PLANTED_REQUESTS
        + PLANTED_LARGE_REQUESTS
        >= 2_000_000
);

/// Writes to standard error past the harness, which would hold back the words of a passing test.
fn announce(words: &str) {
    let mut out = std::io::stderr().lock();
    writeln!(out, "{words}").expect("standard error can be written");
}

/// Works through histories; fails on a difference and on anything that was missed.
fn complete(shape: &Shape, seed: u64, requests: u64, required: Vec<String>) -> Tally {
    let began = Instant::now();
    let tally = histories::work(shape, seed, requests).unwrap_or_else(|words| panic!("{words}"));
    let Tally { served, runs, histories, .. } = tally;
    let seconds = began.elapsed().as_secs_f64();
    announce(&format!(
        "{} stores: {served} requests in {runs} runs of {histories} histories, {seconds:.1} s",
        shape.name
    ));
    println!("{}", tally.reached);
    all_reached(&tally.reached, required);
    assert!(served >= requests);
    tally
}

fn all_reached(reached: &Reached, required: Vec<String>) {
    let mut all = Reached::requiring(required);
    all.add(reached);
    assert!(all.missing().is_empty(), "never reached: {:?}", all.missing());
}

/// How many different sizes the histories had.
fn sizes(tally: &Tally, origin: &str) -> usize {
    let seen =
        |places: &usize| tally.reached.times(&format!("{origin} store with {places} places")) > 0;
    (16..=4096).filter(seen).count()
}

fn all_thresholds(origin: &str) -> impl Iterator<Item = String> + '_ {
    (1..=8).map(move |threshold| format!("{origin} store with threshold {threshold}"))
}

/// Everything that requests can reach but for what is named here, which these histories do not come to.
fn requests_but(without: &[&str]) -> Vec<String> {
    let mut names = required_of_requests();
    for name in without {
        let before = names.len();
        names.retain(|required| required != name);
        assert_eq!(names.len() + 1, before, "{name} was not required");
    }
    names
}

/// Small stores have no room for so many tables that level 2 overflows.
const BEYOND_SMALL: [&str; 14] = [
    met::OF_LEVELS[2][0],
    met::OF_LEVELS[2][1],
    met::PROBED_ON_3,
    met::PROBED_LINK_3,
    "merge without results on 3",
    "delete marks dropped on 3",
    "20 although delete marks go on 3",
    "delete marks kept on 2",
    met::STAYS_BY_LAST,
    "moved from 2",
    "linked from 2",
    "due merge on 3",
    "merge in place of a choice on 2",
    "20 by a merge in place of a choice",
];

/// In new stores seldom is a merge so large and the room so small; planted ones come to it.
const RARE: [&str; 3] = [
    "no 20 since delete marks go on 1",
    "no 20 since delete marks go on 2",
    "no 20 since delete marks go on 3",
];

fn small_new_stores(seed: u64) {
    let mut required = requests_but(&[&met::BEYOND_NEW[..], &RARE, &BEYOND_SMALL].concat());
    required.extend(all_thresholds("new"));
    required.extend((1..=STOPS).map(|position| format!("stopped after {position:>2}")));
    required.extend(BREAKAGES.iter().map(|(name, _)| format!("4 in a history: {name}")));
    required.extend(["stopped for want of room", "run refused with 3"].map(String::from));
    required.extend([16, 17, 64].map(|places| format!("new store with {places} places")));
    let tally = complete(&SMALL, seed, SMALL_REQUESTS, required);
    assert!(sizes(&tally, "new") > 40);
}

#[test]
fn small_new_stores_from_seed_1() {
    small_new_stores(1);
}

#[test]
fn small_new_stores_from_seed_1000001() {
    small_new_stores(1_000_001);
}

#[test]
fn middle_new_stores() {
    // Small stores come to the first often enough, planted ones to the second.
    let stuck = ["20 although delete marks go on 2", "20 by a merge in place of a choice"];
    let mut required = requests_but(&[&met::BEYOND_NEW[..], &RARE, &stuck].concat());
    required.extend(all_thresholds("new"));
    // A merge in place of a choice is seldom on level 2; some come from this seed on.
    let tally = complete(&MIDDLE, 2_000_675, MIDDLE_REQUESTS, required);
    assert!(sizes(&tally, "new") > 30);
}

#[test]
fn large_new_stores() {
    let mut required: Vec<String> = (0..3)
        .flat_map(|from| [format!("moved from {from}"), format!("linked from {from}")])
        .collect();
    required.extend((1..4).map(|on| format!("due merge on {on}")));
    required.extend(["new store with 4096 places", met::DEEP].map(String::from));
    complete(&LARGE, 3_000_001, LARGE_REQUESTS, required);
}

#[test]
fn planted_stores() {
    let mut required = requests_but(&[]);
    required.extend(all_thresholds("planted"));
    required.extend(FEATURES.map(|(name, _)| format!("planted: {name}")));
    let tally = complete(&PLANTED, 4_000_001, PLANTED_REQUESTS, required);
    assert!(sizes(&tally, "planted") > 80);
}

#[test]
fn large_planted_stores() {
    let required = [161, 4096].map(|places| format!("planted store with {places} places")).to_vec();
    complete(&PLANTED_LARGE, 5_000_011, PLANTED_LARGE_REQUESTS, required);
}

/// Most merges meet delete marks. Level 3 is not reached, so on level 2 every one goes.
#[test]
fn small_new_stores_of_deletes() {
    let mut required: Vec<String> = all_thresholds("new").collect();
    let names = ["delete marks dropped on", "merge without results on"];
    required.extend(names.iter().flat_map(|name| [format!("{name} 1"), format!("{name} 2")]));
    required.push("delete marks kept on 1".into());
    let stays = [met::STAYS_BY_RANGE, met::STAYS_BARE, met::STAYS_BY_NEXT];
    required.extend(stays.map(String::from));
    let tally = complete(&DELETES, 6_000_001, DELETES_REQUESTS, required);
    let merges = tally.reached.times("due merge on 1") + tally.reached.times("due merge on 2");
    assert!(merges > DELETES_REQUESTS / 20, "{merges} merges");
}

#[test]
fn planted_stores_rich_in_marks() {
    let mut required: Vec<String> = (1..4).flat_map(required_of_marks_on).collect();
    required.extend(met::OF_MARKS.map(String::from));
    required.extend(all_thresholds("planted"));
    complete(&PLANTED_MARKS, 7_000_001, PLANTED_MARKS_REQUESTS, required);
}

/// Runs with one or several reasons to be refused, the lowest of which must come; nothing is changed or written.
#[test]
fn refused_runs() {
    let mut random = Random::new(9);
    let mut reached = Reached::default();
    for number in 0..250 {
        let keys = [Keys::Dense(300), Keys::Wide(400), Keys::Edges(100)][number % 3];
        let sound = planted(&mut random, 16 + number % 50, keys).encode();
        let mut source = Source::new(PROFILES[number % PROFILES.len()], keys, number as u64);
        for _ in 0..24 {
            let names = spoiled_run(&sound, &source.list(12), &mut random);
            let names = names.unwrap_or_else(|words| panic!("store {number}: {words}"));
            names.into_iter().for_each(|name| reached.count(name));
        }
    }
    println!("{reached}");
    all_reached(&reached, required_of_spoiled());
}
