//! The proved check and run against the second implementation: on sound stores with one to four random damages both give 0
//! exactly where no rule is broken, else 5 and the letter of the first broken one, and nothing that was lent is changed.

use differential::{damage::strike, Proved};
use reference::generate::keys::Keys;
use reference::generate::planted::planted;
use reference::generate::profile::{Source, PROFILES};
use reference::generate::random::Random;
use reference::lent::{Lent, ROW_FREE};
use reference::letters::said;
use reference::reached::Reached;
use reference::rules::{self, letter_of, Rule, Verdict};
use reference::run::{make, run};
use reference::together::{self, can_break, pairs};

const KEYS: [Keys; 3] = [Keys::Dense(300), Keys::Wide(400), Keys::Edges(100)];
// Every second one comes out of a history, so that over 200,000 damaged stores do; the others are planted.
const STORES: usize = 840;
const DAMAGED_EACH: usize = 500;

/// A sound store out of a history, or planted.
fn sound_store(random: &mut Random, number: usize) -> Lent {
    let places = [16, 17, 24, 40, 64][number % 5];
    let keys = KEYS[number % 3];
    if number.is_multiple_of(2) {
        return planted(random, places, keys).encode();
    }
    let mut lent = Lent::zeroed(places);
    lent.area = random.bytes(lent.area.len());
    assert_eq!(make(&mut lent, 1 + (number % 8) as u64), 0);
    let mut source = Source::new(PROFILES[number % PROFILES.len()], keys, random.word());
    let list = source.list(300 + random.below(300));
    run(&mut lent, &list, 1 << 20);
    lent
}

fn agree(lent: &Lent, reached: &mut Reached) {
    let Verdict { number, broken } = rules::check(lent);
    let letter = letter_of(&broken, None);
    assert_eq!(said(&Proved, lent), Ok((number, letter)), "{broken:?}");
    reached.count(outcome_name(number, letter));
    if number == 5 {
        together::count(reached, &broken);
    }
}

fn outcome_name(number: u16, letter: u8) -> String {
    match number {
        5 => format!("letter {}", char::from(letter)),
        _ => format!("number {number}"),
    }
}

/// Every letter, one to four rules at once, and every two rules that can be broken in one store.
fn required() -> Vec<String> {
    let mut names = together::required(pairs().filter(|pair| can_break(*pair)));
    names.extend(Rule::ALL.map(|rule| outcome_name(5, rule.letter())));
    names
}

/// Each half is one thread's work, so that cores share it.
fn judged_alike(seed: u64, numbers: std::ops::Range<usize>) {
    let mut random = Random::new(seed);
    let mut reached = Reached::requiring(required());
    let stores = numbers.len() as u64;
    for number in numbers {
        let sound = sound_store(&mut random, number);
        agree(&sound, &mut reached);
        for _ in 0..DAMAGED_EACH {
            let mut lent = sound.clone();
            strike(&mut lent, &mut random);
            agree(&lent, &mut reached);
        }
    }
    println!("{reached}");
    assert!(reached.missing().is_empty(), "never reached: {:?}", reached.missing());
    together::none_but_possible(&reached);
    assert!(reached.times("number 0") > stores, "no damage was harmless");
}

#[test]
fn damaged_stores_are_judged_alike() {
    judged_alike(5, 0..STORES / 2);
}

#[test]
fn further_damaged_stores_are_judged_alike() {
    judged_alike(8, STORES / 2..STORES);
}

#[test]
fn wrong_sizes_are_number_1() {
    let mut random = Random::new(6);
    let sound = planted(&mut random, 20, KEYS[0]).encode();
    let mut reached = Reached::default();
    let mut wrong = Vec::new();
    for bytes in [0, 1, 1023, 1024 * 15, 15_000, 1024 * 20 - 1, 1024 * 20 + 1, 1024 * 21] {
        let mut lent = sound.clone();
        lent.area.resize(bytes, 0);
        wrong.push(lent);
    }
    for rows in [0, 19, 21] {
        let mut lent = sound.clone();
        lent.cards.resize(rows, ROW_FREE);
        wrong.push(lent);
    }
    for items in [0, 20, 79, 81] {
        let mut lent = sound.clone();
        lent.lists.resize(items, 0);
        wrong.push(lent);
    }
    for lent in &wrong {
        agree(lent, &mut reached);
    }
    assert_eq!(reached.times("number 1"), wrong.len() as u64);
}
