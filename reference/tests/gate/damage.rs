//! Damaged stores: each named damage breaks its rule, and check and run give 5 and the letter of the first broken one.

use crate::common::announce;
use reference::generate::damage::damages;
use reference::generate::keys::Keys;
use reference::generate::planted::planted;
use reference::generate::profile::{Source, PROFILES};
use reference::generate::random::Random;
use reference::implementation::Reference;
use reference::lent::*;
use reference::letters::said;
use reference::limits::{ENTRY_BYTES, TABLE_HEAD};
use reference::reached::Reached;
use reference::rules::{check, Broken, Rule};
use reference::store::Store;
use reference::trial::{Eyes, Trial};
use std::collections::BTreeSet;

const KEYS: [Keys; 3] = [Keys::Dense(300), Keys::Wide(400), Keys::Edges(100)];

/// A planted store; sizes and key sets in turn.
pub fn planted_lent(random: &mut Random, number: usize) -> Lent {
    let places = [16, 17, 40, 64][number % 4];
    planted(random, places, KEYS[number % 3]).encode()
}

#[test]
fn planted_stores_are_sound_and_decode_to_their_bytes() {
    let mut random = Random::new(11);
    for number in 0..2000 {
        let lent = planted_lent(&mut random, number);
        assert_eq!(check(&lent).broken, [].into(), "store {number}");
        let store = Store::decode(&lent).expect("sound");
        assert_eq!(store.encode().difference(&lent), None, "store {number}");
    }
}

#[test]
fn every_damage_breaks_its_rule() {
    let mut random = Random::new(12);
    let names = damages().map(|damage| format!("{:?}: {}", damage.rule, damage.name));
    let mut reached = Reached::requiring(names);
    for number in 0..400 {
        let sound = planted_lent(&mut random, number);
        for damage in damages() {
            let mut lent = sound.clone();
            if (damage.plant)(&mut lent, &mut random).is_none() {
                continue;
            }
            let verdict = check(&lent);
            assert_eq!(verdict.number, 5, "{}", damage.name);
            assert!(verdict.broken.contains(&damage.rule), "{}: {verdict:?}", damage.name);
            if damage.alone {
                assert_eq!(verdict.broken, [damage.rule].into(), "{}", damage.name);
            }
            assert_refused(&lent, &verdict.broken, damage.name);
            reached.count(format!("{:?}: {}", damage.rule, damage.name));
        }
    }
    announce(&format!("damages found:\n{reached}"));
    assert!(reached.missing().is_empty(), "never planted: {:?}", reached.missing());
    for rule in Rule::ALL {
        assert!(damages().any(|damage| damage.rule == rule && damage.alone));
    }
}

fn assert_refused(lent: &Lent, broken: &Broken, name: &str) {
    let first = broken.first().expect("a rule is broken");
    assert_eq!(said(&Reference::default(), lent), Ok((5, first.letter())), "{name}");
}

#[test]
fn the_set_names_all_broken_rules() {
    let mut random = Random::new(14);
    let mut sets = BTreeSet::new();
    for number in 0..200 {
        let sound = planted_lent(&mut random, number);
        for damage in damages().filter(|damage| damage.alone) {
            let mut lent = sound.clone();
            if (damage.plant)(&mut lent, &mut random).is_none() {
                continue;
            }
            lent.head[HEAD_CURSOR] = u64::MAX;
            lent.memory.fill(0);
            let expected: Broken = [Rule::A, damage.rule, Rule::D].into();
            assert_eq!(check(&lent).broken, expected, "{}", damage.name);
            // Without rule B nothing is said about E, F and G.
            lent.head[HEAD_LENGTHS] = u64::MAX;
            let presupposing = [Rule::E, Rule::F, Rule::G].contains(&damage.rule);
            let own = (!presupposing).then_some(damage.rule);
            let expected: Broken = [Rule::A, Rule::B, Rule::D].into_iter().chain(own).collect();
            assert_eq!(check(&lent).broken, expected, "{}", damage.name);
            sets.insert(expected);
        }
    }
    assert_eq!(sets.len(), 2);
}

/// Changes one word, item or byte anywhere.
pub fn disturb(lent: &mut Lent, random: &mut Random) {
    let small = random.below(20) as u64;
    let value = *random.pick(&[0, 1, 2, 3, small, u64::MAX, 1 << 40]);
    match random.below(7) {
        0 => lent.head[random.below(10)] = value,
        1 => lent.memory[random.below(40)] = value as u8,
        2 => {
            let item = random.below(lent.lists.len());
            lent.lists[item] = value as u16;
        }
        3 => {
            let byte = random.below(lent.area.len() / 1024) * 1024
                + random.below(TABLE_HEAD + ENTRY_BYTES);
            lent.area[byte] = value as u8;
        }
        4 => {
            let card = random.below(lent.cards.len());
            lent.cards[card][ROW_SUMMARY + random.below(ROW_WORDS - ROW_SUMMARY)] = value;
        }
        _ => {
            let card = random.below(lent.cards.len());
            // State, count and two links.
            lent.cards[card][random.below(ROW_LINKS + 2 * LINK_WORDS)] = value;
        }
    }
}

#[test]
fn disturbed_stores_are_refused_or_served_right() {
    let mut random = Random::new(13);
    let mut reached = Reached::requiring(["still sound".into(), "refused".into()]);
    for number in 0..6000 {
        let mut lent = planted_lent(&mut random, number);
        disturb(&mut lent, &mut random);
        let verdict = check(&lent);
        if verdict.number != 0 {
            assert_refused(&lent, &verdict.broken, "disturbed");
            reached.count("refused");
            continue;
        }
        reached.count("still sound");
        let subject = Reference::default();
        let mut trial = Trial::of_sound_store(&subject, Eyes::Judge, lent);
        let mut source = Source::new(PROFILES[4], KEYS[number % 3], number as u64);
        for _ in 0..5 {
            let ran = trial.run(&source.list(5), 8192);
            assert!(ran.is_ok(), "store {number}: {ran:?}");
        }
    }
    announce(&format!("disturbed stores:\n{reached}"));
    assert!(reached.missing().is_empty());
}
