//! No call uses more stack than `host/zilgwern.h` says: the five are led through trials on painted stacks, over stores of all sizes,
//! all steps that requests can reach and all reasons to be refused. `-- --nocapture` shows the most that each call used. Each test
//! fails if it missed something that it should have reached.
//!
//! If a library that is sound otherwise fails here, the header's numbers are to grow: what was measured, and about half as much
//! again, since other versions of the compiler lay out frames otherwise.

use differential::fuzz::sound_store;
use differential::measured::Measured;
use differential::stack::Stack;
use reference::generate::full::{full, most_links};
use reference::generate::keys::Keys;
use reference::generate::opening::{self, Opening};
use reference::generate::plan::Plan;
use reference::generate::planted::planted;
use reference::generate::profile::{Source, PROFILES};
use reference::generate::random::{any_lent, Random};
use reference::generate::saving::{self, Saving};
use reference::implementation::Implementation;
use reference::journey::{self, journey};
use reference::lent::Lent;
use reference::letters::compare_with_plan;
use reference::reached::{required_of_requests, Reached};
use reference::trial::{Eyes, Trial};
use std::hint::black_box;

const HEADER: &str = include_str!("../../host/zilgwern.h");

/// Each call, and the header's name for the stack that it needs.
const CALLS: [(&str, &str); 5] = [
    ("make", "ZILGWERN_RUN_STACK"),
    ("check", "ZILGWERN_RUN_STACK"),
    ("run", "ZILGWERN_RUN_STACK"),
    ("save", "ZILGWERN_RUN_STACK"),
    ("open", "ZILGWERN_OPEN_STACK"),
];

/// The number that the header has under a name.
fn told(name: &str) -> usize {
    let mut lines = HEADER.lines().filter_map(|line| line.strip_prefix("#define "));
    let value = lines.find_map(|line| line.strip_prefix(name)).expect(name);
    value.split_whitespace().next().and_then(|word| word.parse().ok()).expect(name)
}

/// Prints what each call used at most; fails if the header says less, and if a call was never made.
fn within_the_header(measured: &Measured, stores: &str) {
    for (call, name) in CALLS {
        let (used, told) = (measured.most(call).expect(call), told(name));
        println!("{stores}: {call} used {used} bytes of stack; {name} is {told}");
        assert!(used <= told, "{call} used {used} bytes of stack, and {name} is {told}");
    }
}

fn all_reached(reached: &Reached) {
    assert!(reached.missing().is_empty(), "never reached: {:?}", reached.missing());
}

fn array<const BYTES: usize>() {
    black_box([0u8; BYTES]);
}

#[test]
fn what_is_measured_is_what_a_call_uses() {
    let calls = [(0, array::<0> as fn()), (1_000, array::<1_000>), (300_000, array::<300_000>)];
    let mut stack = Stack::to_paint();
    for (bytes, call) in calls {
        let used = stack.bytes_used(call);
        assert!((bytes..bytes + 200).contains(&used), "{used} bytes of stack for {bytes}");
    }
}

/// Planted stores under lists of all kinds, and journeys, which make, save and open.
#[test]
fn small_stores() {
    let measured = Measured::begin();
    let mut random = Random::new(81);
    let names = required_of_requests().into_iter().chain(journey::required());
    let mut reached = Reached::requiring(names);
    for number in 0..400 {
        let places = [16, 17, 32, 64, 256][number % 5];
        let keys = [Keys::Dense(300), Keys::Edges(150), Keys::Wide(400)][number % 3];
        let store = planted(&mut random, places, keys).encode();
        assert_eq!(measured.check(&store), (0, 0));
        let mut trial = Trial::of_sound_store(&measured, Eyes::Judge, store);
        let mut source = Source::new(PROFILES[number % PROFILES.len()], keys, random.word());
        for _ in 0..5 {
            trial.run(&source.list(60), 1 << 17).expect("a sound store");
        }
        reached.add(&trial.reached);
    }
    for seed in 1..=32 {
        let (part, _) = journey(&measured, Eyes::Judge, seed).expect("a journey");
        reached.add(&part);
    }
    within_the_header(&measured, "small stores");
    all_reached(&reached);
}

/// What the largest stores must have come to: all kinds of requests, all steps on all levels, and the longest book.
fn required_of_large() -> Vec<String> {
    let fronts = ["kind ", "moved ", "linked ", "due merge ", "merge into ", "scan of 16 "];
    let mut names = required_of_requests();
    names.retain(|name| fronts.iter().any(|front| name.starts_with(front)));
    names.push("saved in more than 65,535 bytes".into());
    names
}

/// Runs long lists of all kinds, and has the store checked, saved and opened after that.
fn go_on(measured: &Measured, trial: &mut Trial, keys: Keys, random: &mut Random) {
    for profile in PROFILES {
        let list = Source::new(profile, keys, random.word()).list(4_000);
        trial.run(&list, 1 << 22).expect("a sound store");
    }
    assert_eq!(measured.check(&trial.lent), (0, 0));
    trial.reopen(trial.lent.cards.len(), random).expect("a sound store opens");
}

/// New stores, and full ones over a few more places, so that their merges, of eight links each in one, have room.
#[test]
fn large_stores() {
    let measured = Measured::begin();
    let mut random = Random::new(82);
    let mut reached = Reached::requiring(required_of_large());
    for places in [257, 4096] {
        let lent = any_lent(&mut random, places);
        let mut new = Trial::of_new_store(&measured, Eyes::Judge, lent, 8).expect("made");
        go_on(&measured, &mut new, Keys::Wide(12 * places as u64), &mut random);
        reached.add(&new.reached);
        for store in [full(&mut random, places - 6), most_links(&mut random, places - 6)] {
            let mut trial = Trial::of_sound_store(&measured, Eyes::Judge, store.encode());
            trial.reopen(places, &mut random).expect("a sound store opens");
            go_on(&measured, &mut trial, Keys::Dense(600 * places as u64), &mut random);
            reached.add(&trial.reached);
        }
    }
    within_the_header(&measured, "large stores");
    all_reached(&reached);
}

/// Holds plans of damages, savings and openings on a store, refused for one reason or several, and some for none.
fn hold_plans(measured: &Measured, sound: &Lent, random: &mut Random, reached: &mut Reached) {
    let mut lent = sound.clone();
    let plan = Plan::plant(&mut lent, random);
    assert_eq!(compare_with_plan(measured, &lent, &plan), Ok(()));
    let (saving, opening) = (Saving::plan(sound, random), Opening::plan(sound, random));
    assert_eq!(saving.hold(measured), Ok(()));
    assert_eq!(opening.hold(measured), Ok(()));
    let names = saving.names.into_iter().chain(opening.names);
    names.for_each(|name| reached.count(name));
}

#[test]
fn refused_calls() {
    let measured = Measured::begin();
    let mut random = Random::new(83);
    let names = saving::required().into_iter().chain(opening::required());
    let mut reached = Reached::requiring(names);
    assert_eq!(measured.make(&mut any_lent(&mut random, 15), 8), 1);
    assert_eq!(measured.make(&mut any_lent(&mut random, 16), 9), 2);
    for number in 0..150 {
        let sound = sound_store(number);
        (0..20).for_each(|_| hold_plans(&measured, &sound, &mut random, &mut reached));
    }
    let sound = full(&mut random, 4096).encode();
    (0..40).for_each(|_| hold_plans(&measured, &sound, &mut random, &mut reached));
    within_the_header(&measured, "refused calls");
    all_reached(&reached);
}
