//! Damage to the numbers of links. Rule E takes each number by itself, so it must also see those that are right in their low
//! bits or in sum alone.

use super::damage::{alone, set_card, Damage};
use super::damaged_links::{any_link, next_link, shown_by};
use super::random::Random;
use crate::lent::*;
use crate::rules::Rule;
use crate::table::Shown;

/// The highest bit of a word: two such numbers add up to more than a word holds.
const HIGHEST: u64 = 1 << 63;

pub(super) const DAMAGES: &[Damage] = &[
    alone(Rule::E, "number one too small", |lent, random| change(lent, random, |it| it - 1)),
    alone(Rule::E, "number one too large", |lent, random| change(lent, random, |it| it + 1)),
    alone(Rule::E, "number 0", |lent, random| change(lent, random, |_| 0)),
    alone(Rule::E, "number of 64 bits", |lent, random| change(lent, random, |_| u64::MAX)),
    alone(Rule::E, "number right in its low 16 bits", |lent, random| {
        change(lent, random, |it| it + (1 << 16))
    }),
    alone(Rule::E, "number right in its low 32 bits", |lent, random| {
        change(lent, random, |it| it + (1 << 32))
    }),
    alone(Rule::E, "number of the whole frozen table", |lent, random| {
        recount(lent, random, |shown, _, _| shown.len())
    }),
    alone(Rule::E, "number without delete marks", |lent, random| {
        recount(lent, random, |shown, low, high| {
            let holds = |key: &u64| (low..=high).contains(key);
            shown.iter().filter(|(key, value)| holds(key) && value.is_some()).count()
        })
    }),
    alone(Rule::E, "two numbers right in sum alone", |lent, random| {
        change_two(lent, random, |one, other| [one + 1, other - 1])
    }),
    alone(Rule::E, "two numbers whose sum passes 64 bits", |lent, random| {
        change_two(lent, random, |one, _| [u64::MAX, one + 1])
    }),
    alone(Rule::E, "two numbers whose sum is right in 64 bits", |lent, random| {
        change_two(lent, random, |one, other| [one + HIGHEST, other + HIGHEST])
    }),
    alone(Rule::G, "number beyond a card's links", |lent, random| {
        let place = random.below(lent.cards.len());
        let unused = next_link(lent, place)?;
        set_card(lent, place, unused + LINK_NUMBER, 1 + random.below(16) as u64)
    }),
];

/// The number of the link at this word of a card, or none where it is not that of the entries in the range.
fn right_number(lent: &Lent, place: usize, word: usize) -> Option<u64> {
    let link = &lent.cards[place][word..word + LINK_WORDS];
    let shown = shown_by(lent, link)?;
    let holds = |(key, _): &&(u64, _)| (link[LINK_LOW]..=link[LINK_HIGH]).contains(key);
    let held = shown.iter().filter(holds).count() as u64;
    (held > 0 && link[LINK_NUMBER] == held).then_some(held)
}

/// Makes another number of the one of some link.
fn change(lent: &mut Lent, random: &mut Random, made: fn(u64) -> u64) -> Option<()> {
    let (place, word) = any_link(lent, random)?;
    let right = right_number(lent, place, word)?;
    set_card(lent, place, word + LINK_NUMBER, made(right))
}

/// Counts a link's frozen table anew, by its entries and the range; none where that is right.
fn recount(
    lent: &mut Lent,
    random: &mut Random,
    counted: fn(&Shown, u64, u64) -> usize,
) -> Option<()> {
    let (place, word) = any_link(lent, random)?;
    let right = right_number(lent, place, word)?;
    let link = &lent.cards[place][word..word + LINK_WORDS];
    let number = counted(&shown_by(lent, link)?, link[LINK_LOW], link[LINK_HIGH]) as u64;
    (number != right).then_some(())?;
    set_card(lent, place, word + LINK_NUMBER, number)
}

/// Makes other numbers of those of the first two links of a card that has as many.
fn change_two(lent: &mut Lent, random: &mut Random, made: fn(u64, u64) -> [u64; 2]) -> Option<()> {
    let (place, _) = any_link(lent, random)?;
    (lent.cards[place][ROW_COUNT] > 1).then_some(())?;
    let (first, second) = (ROW_LINKS, ROW_LINKS + LINK_WORDS);
    let right = (right_number(lent, place, first)?, right_number(lent, place, second)?);
    let [one, other] = made(right.0, right.1);
    set_card(lent, place, first + LINK_NUMBER, one)?;
    set_card(lent, place, second + LINK_NUMBER, other)
}
