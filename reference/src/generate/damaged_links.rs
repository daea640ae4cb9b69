//! Damage to links: named ways to break rule E, and a span of rule G. Their numbers are in `damaged_numbers`.

use super::damage::{alone, any_place, least_own, level_of, mixed, set_card, Damage};
use super::random::Random;
use crate::lent::*;
use crate::limits::CARD_LINKS;
use crate::rules::Rule;
use crate::table::{read_table, Shown};

pub(super) const DAMAGES: &[Damage] = &[
    alone(Rule::E, "low above high", |lent, random| {
        let (place, word) = any_link(lent, random)?;
        let (low, high) = (lent.cards[place][word + LINK_LOW], lent.cards[place][word + LINK_HIGH]);
        (low < high).then_some(())?;
        set_card(lent, place, word + LINK_LOW, high)?;
        set_card(lent, place, word + LINK_HIGH, low)
    }),
    mixed(Rule::E, "more links than the threshold", |lent, random| {
        let (place, _) = any_link(lent, random)?;
        let count = lent.head[HEAD_THRESHOLD].checked_add(1)?;
        set_card(lent, place, ROW_COUNT, count)
    }),
    mixed(Rule::E, "link count of 64 bits", |lent, random| {
        let (place, _) = any_link(lent, random)?;
        set_card(lent, place, ROW_COUNT, u64::MAX)
    }),
    mixed(Rule::E, "link on level 0", |lent, random| {
        let (from, word) = any_link(lent, random)?;
        let on = usize::from(*lent.list(0).first()?);
        (on < lent.cards.len() && lent.cards[on][ROW_COUNT] == 0).then_some(())?;
        add_copy(lent, from, word, on)
    }),
    mixed(Rule::E, "link to a live place", |lent, random| {
        let (place, word) = any_link(lent, random)?;
        set_card(lent, place, word + LINK_PLACE, place as u64)
    }),
    mixed(Rule::E, "link to no place", |lent, random| {
        let (place, word) = any_link(lent, random)?;
        let nowhere = *random.pick(&[lent.cards.len() as u64, 1 << 32, u64::MAX]);
        set_card(lent, place, word + LINK_PLACE, nowhere)
    }),
    alone(Rule::E, "one slice twice on a table", |lent, random| {
        let (place, word) = any_link(lent, random)?;
        (lent.cards[place][ROW_COUNT] < lent.head[HEAD_THRESHOLD]).then_some(())?;
        add_copy(lent, place, word, place)
    }),
    mixed(Rule::E, "one place on two levels", |lent, random| {
        let (from, word) = any_link(lent, random)?;
        let on = any_place(lent, random, STATE_LIVE)?;
        let fits = level_of(lent, on)? != level_of(lent, from)?
            && lent.cards[on][ROW_COUNT] < lent.head[HEAD_THRESHOLD];
        fits.then_some(())?;
        add_copy(lent, from, word, on)
    }),
    alone(Rule::E, "link without an entry", |lent, random| {
        let (place, word) = any_link(lent, random)?;
        let link = &lent.cards[place][word..word + LINK_WORDS];
        let (low, high) = (link[LINK_LOW], link[LINK_HIGH]);
        let shown = shown_by(lent, link)?;
        let least = shown.iter().map(|(key, _)| *key).find(|key| (low..=high).contains(key))?;
        (low < least).then_some(())?;
        set_card(lent, place, word + LINK_HIGH, least - 1)
    }),
    mixed(Rule::G, "a span that ends where the next begins", |lent, random| {
        let (place, word) = any_link(lent, random)?;
        let list = lent.list(level_of(lent, place)?);
        let position = list.iter().position(|item| usize::from(*item) == place)?;
        let next = *list.get(position + 1)?;
        let own = least_own(lent, next)?;
        let start = lent.links(next.into()).map(|link| link[LINK_LOW]).fold(own, u64::min);
        set_card(lent, place, word + LINK_HIGH, start)
    }),
];

/// A card with links and the first word of one of them.
pub(super) fn any_link(lent: &Lent, random: &mut Random) -> Option<(usize, usize)> {
    let linked = |place: &usize| lent.cards[*place][ROW_COUNT] > 0;
    let places: Vec<usize> = (0..lent.cards.len()).filter(linked).collect();
    let place = *places.get(random.below(places.len().max(1)))?;
    let link = random.below(lent.links(place).count());
    Some((place, ROW_LINKS + LINK_WORDS * link))
}

/// The first word behind a card's links, where a further one would stand, or none where the card is full.
pub(super) fn next_link(lent: &Lent, place: usize) -> Option<usize> {
    let count = lent.links(place).count();
    (count < CARD_LINKS).then_some(ROW_LINKS + LINK_WORDS * count)
}

/// What the place shows that a link names, or none where it names no place or the place holds no table.
pub(super) fn shown_by<'a>(lent: &'a Lent, link: &[u64]) -> Option<Shown<'a>> {
    let place = usize::try_from(link[LINK_PLACE]).ok()?;
    (place < lent.cards.len()).then(|| read_table(lent.place(place), 1))?
}

/// Adds a copy of a link behind the links of a card.
fn add_copy(lent: &mut Lent, from: usize, word: usize, on: usize) -> Option<()> {
    let next = next_link(lent, on)?;
    let link = lent.cards[from][word..word + LINK_WORDS].to_vec();
    lent.cards[on][next..next + LINK_WORDS].copy_from_slice(&link);
    lent.cards[on][ROW_COUNT] += 1;
    Some(())
}
