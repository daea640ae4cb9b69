//! Damage to summaries (note 6): bits that are not those of the table's keys, on live and frozen cards (rule C), and bits on free
//! cards (rule G). Each takes a card whose bits are right, so that none makes wrong ones right again.

use super::damage::{alone, any_place, Damage};
use super::random::Random;
use crate::lent::*;
use crate::limits::SUMMARY_BYTES;
use crate::rules::Rule;
use crate::summary::{add_key, bits_of, summary_of, Summary, NO_BITS};
use crate::table::{read_table, Key, Shown};

const BITS: usize = 8 * SUMMARY_BYTES;

pub(super) const DAMAGES: &[Damage] = &[
    alone(Rule::C, "a bit flipped on a live card", |lent, random| {
        let bit = random.below(BITS);
        change(lent, random, STATE_LIVE, |_, right| flipped(right, bit))
    }),
    alone(Rule::C, "a bit flipped on a frozen card", |lent, random| {
        let bit = random.below(BITS);
        change(lent, random, STATE_FROZEN, |_, right| flipped(right, bit))
    }),
    alone(Rule::C, "a bit too many on a live card", |lent, random| {
        let bit = random.below(BITS);
        change(lent, random, STATE_LIVE, |_, right| right.map_at(bit, |byte, mask| byte | mask))
    }),
    alone(Rule::C, "a bit too few on a live card", |lent, random| {
        change(lent, random, STATE_LIVE, |shown, right| without(right, shown[0].0))
    }),
    alone(Rule::C, "a bit too few on a frozen card", |lent, random| {
        change(lent, random, STATE_FROZEN, |shown, right| without(right, shown[shown.len() - 1].0))
    }),
    alone(Rule::C, "no bits on a live card", |lent, random| {
        change(lent, random, STATE_LIVE, |_, _| NO_BITS)
    }),
    alone(Rule::C, "no bits on a frozen card", |lent, random| {
        change(lent, random, STATE_FROZEN, |_, _| NO_BITS)
    }),
    alone(Rule::C, "all bits on a live card", |lent, random| {
        change(lent, random, STATE_LIVE, |_, _| [u8::MAX; SUMMARY_BYTES])
    }),
    alone(Rule::C, "all bits on a frozen card", |lent, random| {
        change(lent, random, STATE_FROZEN, |_, _| [u8::MAX; SUMMARY_BYTES])
    }),
    alone(Rule::C, "bits of another table", |lent, random| {
        let other = any_place(lent, random, *random.clone().pick(&[STATE_LIVE, STATE_FROZEN]))?;
        let summary = lent.summary(other);
        change(lent, random, STATE_LIVE, |_, _| summary)
    }),
    alone(Rule::C, "bits without those of delete marks", |lent, random| {
        change(lent, random, STATE_LIVE, |shown, _| {
            let values = shown.iter().filter(|(_, value)| value.is_some());
            summary_of(values.map(|(key, _)| *key))
        })
    }),
    alone(Rule::C, "bits of one key more", |lent, random| {
        let key = random.word() >> random.below(64);
        change(lent, random, STATE_FROZEN, |_, right| {
            let mut summary = right;
            add_key(&mut summary, key, None);
            summary
        })
    }),
    alone(Rule::C, "bytes of a summary the other way round", |lent, random| {
        change(lent, random, STATE_LIVE, |_, mut right| {
            right.reverse();
            right
        })
    }),
    alone(Rule::C, "bits of a summary's bytes the other way round", |lent, random| {
        change(lent, random, STATE_FROZEN, |_, right| right.map(u8::reverse_bits))
    }),
    alone(Rule::G, "a bit on a free card", |lent, random| {
        let place = any_place(lent, random, STATE_FREE)?;
        let bit = random.below(BITS);
        put_summary(&mut lent.cards[place], &flipped(NO_BITS, bit));
        Some(())
    }),
    alone(Rule::G, "bits of a table on a free card", |lent, random| {
        let free = any_place(lent, random, STATE_FREE)?;
        let live = any_place(lent, random, STATE_LIVE)?;
        let summary = Some(lent.summary(live)).filter(|summary| *summary != NO_BITS)?;
        put_summary(&mut lent.cards[free], &summary);
        Some(())
    }),
];

/// A summary with one byte changed, of which a mask has the bit of this number.
trait MapAt {
    fn map_at(self, bit: usize, changed: impl Fn(u8, u8) -> u8) -> Summary;
}

impl MapAt for Summary {
    fn map_at(mut self, bit: usize, changed: impl Fn(u8, u8) -> u8) -> Summary {
        self[bit / 8] = changed(self[bit / 8], 1 << (bit % 8));
        self
    }
}

fn flipped(summary: Summary, bit: usize) -> Summary {
    summary.map_at(bit, |byte, mask| byte ^ mask)
}

/// The summary with one bit of this key clear.
fn without(summary: Summary, key: Key) -> Summary {
    summary.map_at(usize::from(bits_of(key, None)[2]), |byte, mask| byte & !mask)
}

/// Gives a card of this state other bits; none where its place holds no table, its bits are wrong already, or these are right.
fn change(
    lent: &mut Lent,
    random: &mut Random,
    state: u64,
    made: impl Fn(&Shown, Summary) -> Summary,
) -> Option<()> {
    let place = any_place(lent, random, state)?;
    let shown = read_table(lent.place(place), 1)?;
    let right = summary_of(shown.iter().map(|(key, _)| *key));
    let wrong = made(&shown, right);
    (lent.summary(place) == right && wrong != right).then_some(())?;
    put_summary(&mut lent.cards[place], &wrong);
    Some(())
}
