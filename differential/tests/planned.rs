//! Planned damage: one to four named damages in a store, whose plan says the letter without the rules. The proved check and run
//! must both give it, between guards and without a change, and so must the second implementation.

use differential::fuzz::sound_store;
use differential::Proved;
use reference::generate::plan::Plan;
use reference::generate::random::Random;
use reference::implementation::Reference;
use reference::letters::compare_with_plan;
use reference::reached::Reached;
use reference::rules::Rule;
use reference::together::{self, pairs};

/// Stores, every second one out of a history, and plans on each.
const STORES: u16 = 1000;
const PLANS_EACH: usize = 40;

/// Every rule as the first one planted, one to four rules at once, and every two of them.
fn required() -> Vec<String> {
    let mut names = together::required(pairs());
    names.extend(Rule::ALL.map(|rule| first_name(rule.letter())));
    names
}

fn first_name(letter: u8) -> String {
    format!("letter {}", char::from(letter))
}

/// Each half is one thread's work, so that cores share it.
fn letters_are_as_planned(seed: u64, numbers: std::ops::Range<u16>) {
    let mut random = Random::new(seed);
    let mut reached = Reached::requiring(required());
    for number in numbers {
        let sound = sound_store(number);
        for _ in 0..PLANS_EACH {
            let mut lent = sound.clone();
            let plan = Plan::plant(&mut lent, &mut random);
            assert_eq!(compare_with_plan(&Proved, &lent, &plan), Ok(()), "store {number}");
            assert_eq!(compare_with_plan(&Reference::default(), &lent, &plan), Ok(()));
            together::count(&mut reached, &plan.rules());
            match plan.says() {
                (0, _) => reached.count("nothing fitted"),
                (_, letter) => reached.count(first_name(letter)),
            }
        }
    }
    println!("{reached}");
    assert!(reached.missing().is_empty(), "never reached: {:?}", reached.missing());
}

#[test]
fn planned_damage_gives_the_planned_letter() {
    letters_are_as_planned(41, 0..STORES / 2);
}

#[test]
fn further_planned_damage_gives_the_planned_letter() {
    letters_are_as_planned(42, STORES / 2..STORES);
}
