//! Several damages in one store: the letter is the one that their plan says, and none mends what another has broken.

use crate::common::announce;
use crate::damage::{disturb, planted_lent};
use reference::generate::damage::{damages, Damage};
use reference::generate::plan::Plan;
use reference::generate::random::Random;
use reference::implementation::Reference;
use reference::lent::Lent;
use reference::letters::{compare_with_plan, said};
use reference::reached::Reached;
use reference::rules::{check, Rule};
use reference::together::{self, can_break, pairs};

#[test]
fn the_letter_is_the_one_that_the_plan_says() {
    let mut random = Random::new(31);
    let mut planted = Reached::requiring(together::required(pairs()));
    let possible = pairs().filter(|pair| can_break(*pair));
    let mut broken = Reached::requiring(together::required(possible));
    for number in 0..600 {
        let sound = planted_lent(&mut random, number);
        for _ in 0..20 {
            let mut lent = sound.clone();
            let plan = Plan::plant(&mut lent, &mut random);
            assert_eq!(compare_with_plan(&Reference::default(), &lent, &plan), Ok(()));
            let found = check(&lent).broken;
            assert!(found.is_subset(&plan.rules()), "{found:?} by {:?}", plan.names());
            together::count(&mut planted, &plan.rules());
            together::count(&mut broken, &found);
        }
    }
    announce(&format!("rules planted by plans:\n{planted}\nof these broken:\n{broken}"));
    assert!(planted.missing().is_empty(), "never planted: {:?}", planted.missing());
    assert!(broken.missing().is_empty(), "never broken: {:?}", broken.missing());
    together::none_but_possible(&broken);
}

/// Plants up to eight of these damages one after the other; gives the store and how many fitted.
fn plant_eight(sound: &Lent, some: &[&Damage], random: &mut Random) -> (Lent, usize) {
    let mut lent = sound.clone();
    let mut plant = || (random.pick(some).plant)(&mut lent, random);
    let planted = (0..8).filter(|_| plant().is_some()).count();
    (lent, planted)
}

#[test]
fn damages_of_one_rule_do_not_mend_each_other() {
    let mut random = Random::new(32);
    let name = |rule: Rule, kind: &str| format!("{rule:?} damaged three times or more, {kind}");
    let names = Rule::ALL.into_iter().flat_map(|rule| ["alone", "any"].map(|it| name(rule, it)));
    let mut reached = Reached::requiring(names);
    for number in 0..400 {
        let sound = planted_lent(&mut random, number);
        for rule in Rule::ALL {
            let own: Vec<&Damage> = damages().filter(|damage| damage.rule == rule).collect();
            let alone: Vec<&Damage> = own.iter().copied().filter(|damage| damage.alone).collect();
            for (kind, some) in [("alone", &alone), ("any", &own)] {
                let (lent, planted) = plant_eight(&sound, some, &mut random);
                let broken = check(&lent).broken;
                assert_eq!(broken.contains(&rule), planted > 0, "{rule:?}, {kind}");
                if kind == "alone" && planted > 0 {
                    assert_eq!(said(&Reference::default(), &lent), Ok((5, rule.letter())));
                    assert_eq!(broken, [rule].into());
                }
                if planted > 2 {
                    reached.count(name(rule, kind));
                }
            }
        }
    }
    assert!(reached.missing().is_empty(), "never reached: {:?}", reached.missing());
}

/// Memory of fitting sizes that need not be like a store at all.
fn any_memory(random: &mut Random, number: usize) -> Lent {
    let mut lent = planted_lent(random, number);
    if number.is_multiple_of(4) {
        lent.cards.iter_mut().flatten().for_each(|word| *word = random.word());
        lent.lists.fill_with(|| random.word() as u16);
        lent.head.fill_with(|| random.word());
    }
    (0..random.below(60)).for_each(|_| disturb(&mut lent, random));
    lent
}

#[test]
fn a_damage_takes_any_memory_and_changes_it_only_where_it_fits() {
    let mut random = Random::new(33);
    let mut fitted = Reached::requiring(damages().map(|damage| damage.name.into()));
    let mut left = 0;
    for number in 0..600 {
        let mut lent = any_memory(&mut random, number);
        let mut all: Vec<&Damage> = damages().collect();
        random.shuffle(&mut all);
        for damage in all {
            let before = lent.clone();
            if (damage.plant)(&mut lent, &mut random).is_some() {
                fitted.count(damage.name);
                continue;
            }
            assert_eq!(lent.difference(&before), None, "{}", damage.name);
            left += 1;
        }
    }
    assert!(fitted.missing().is_empty(), "never fitted: {:?}", fitted.missing());
    assert!(left > 10_000, "only {left} did not fit");
}
