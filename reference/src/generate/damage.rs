//! Damage to stores: named ways to break each of the rules A to G. What breaks links is in `damaged_links`, what makes bits wrong
//! in `damaged_bits`.
//!
//! Several can be planted in one store, one after the other, and whatever else was done to it. Each leaves wrong what it touches,
//! and where that takes a spot that is as it should be, it asks for one; so none mends what another of its rule has broken.

use super::damaged_links::{any_link, next_link};
use super::random::Random;
use super::{damaged_bits, damaged_links, damaged_numbers};
use crate::lent::*;
use crate::limits::{ENTRY_BYTES, LEVELS, PLACE_BYTES, TABLE_HEAD, VALUE_BYTES};
use crate::rules::Rule;
use crate::table::{owned, read_table, table_bytes, Entry, Key};

/// Damages memory of fitting sizes, or gives none and leaves it as it was where it has nothing to damage in this way.
pub type Plant = fn(&mut Lent, &mut Random) -> Option<()>;

/// A way to break one rule.
pub struct Damage {
    pub name: &'static str,
    pub rule: Rule,
    /// Whether no other rule is broken with it in a sound store.
    pub alone: bool,
    pub plant: Plant,
}

pub(super) const fn alone(rule: Rule, name: &'static str, plant: Plant) -> Damage {
    Damage { name, rule, alone: true, plant }
}

pub(super) const fn mixed(rule: Rule, name: &'static str, plant: Plant) -> Damage {
    Damage { name, rule, alone: false, plant }
}

/// Every rule in several ways.
pub fn damages() -> impl Iterator<Item = &'static Damage> {
    let of_links = damaged_links::DAMAGES.iter().chain(damaged_numbers::DAMAGES);
    DAMAGES.iter().chain(of_links).chain(damaged_bits::DAMAGES)
}

const DAMAGES: &[Damage] = &[
    mixed(Rule::A, "threshold 0", |lent, _| set_head(lent, HEAD_THRESHOLD, 0)),
    alone(Rule::A, "threshold 9", |lent, _| set_head(lent, HEAD_THRESHOLD, 9)),
    alone(Rule::A, "threshold of 64 bits", |lent, _| set_head(lent, HEAD_THRESHOLD, u64::MAX)),
    alone(Rule::A, "cursor P", |lent, _| set_head(lent, HEAD_CURSOR, lent.cards.len() as u64)),
    alone(Rule::A, "cursor beyond 16 bits", |lent, _| set_head(lent, HEAD_CURSOR, 1 << 16)),
    alone(Rule::B, "state 3", |lent, random| {
        let place = any_place(lent, random, STATE_FREE)?;
        set_card(lent, place, ROW_STATE, 3)
    }),
    mixed(Rule::B, "live and in no list", |lent, random| {
        let place = any_place(lent, random, STATE_FREE)?;
        level_of(lent, place).is_none().then_some(())?;
        set_card(lent, place, ROW_STATE, STATE_LIVE)
    }),
    alone(Rule::B, "listed and free", |lent, random| {
        let place = any_listed(lent, random)?;
        set_card(lent, place, ROW_STATE, STATE_FREE)
    }),
    alone(Rule::B, "listed and frozen", |lent, random| {
        let place = any_listed(lent, random)?;
        set_card(lent, place, ROW_STATE, STATE_FROZEN)
    }),
    alone(Rule::B, "listed twice", |lent, random| {
        let place = any_listed(lent, random)?;
        append_item(lent, random, place as u16)
    }),
    alone(Rule::B, "frozen and listed", |lent, random| {
        let place = any_place(lent, random, STATE_FROZEN)?;
        append_item(lent, random, place as u16)
    }),
    alone(Rule::B, "item P", |lent, random| append_item(lent, random, lent.cards.len() as u16)),
    alone(Rule::B, "item of all bits", |lent, random| append_item(lent, random, u16::MAX)),
    alone(Rule::B, "list longer than P", |lent, random| {
        let level = random.below(4);
        set_head(lent, HEAD_LENGTHS + level, lent.cards.len() as u64 + 1)
    }),
    alone(Rule::B, "list length of 64 bits", |lent, random| {
        let level = random.below(4);
        set_head(lent, HEAD_LENGTHS + level, u64::MAX)
    }),
    alone(Rule::B, "free card with a link", |lent, random| {
        let place = any_place(lent, random, STATE_FREE)?;
        set_card(lent, place, ROW_COUNT, 1)
    }),
    alone(Rule::B, "frozen card with a link", |lent, random| {
        let place = any_place(lent, random, STATE_FROZEN)?;
        set_card(lent, place, ROW_COUNT, 1)
    }),
    alone(Rule::C, "damaged live table", |lent, random| {
        let place = any_place(lent, random, STATE_LIVE)?;
        damage_table(&mut lent.area[place * PLACE_BYTES..][..PLACE_BYTES], random)
    }),
    alone(Rule::C, "damaged frozen table", |lent, random| {
        let place = any_place(lent, random, STATE_FROZEN)?;
        damage_table(&mut lent.area[place * PLACE_BYTES..][..PLACE_BYTES], random)
    }),
    alone(Rule::C, "live table without entries", |lent, random| {
        let place = any_place(lent, random, STATE_LIVE)?;
        let bytes = &mut lent.area[place * PLACE_BYTES..][..PLACE_BYTES];
        bytes.fill(0);
        bytes[..4].copy_from_slice(&[8, 0, 32, 0]);
        Some(())
    }),
    alone(Rule::C, "live table with a value one byte too long", |lent, random| {
        let place = any_place(lent, random, STATE_LIVE)?;
        lengthen_value(&mut lent.area[place * PLACE_BYTES..][..PLACE_BYTES])
    }),
    alone(Rule::C, "frozen table with a value one byte too long", |lent, random| {
        let place = any_place(lent, random, STATE_FROZEN)?;
        lengthen_value(&mut lent.area[place * PLACE_BYTES..][..PLACE_BYTES])
    }),
    alone(Rule::D, "memory with a value one byte too long", |lent, _| {
        lengthen_value(&mut lent.memory)
    }),
    alone(Rule::D, "memory of zeros", |lent, _| {
        lent.memory.fill(0);
        Some(())
    }),
    alone(Rule::D, "damaged memory", |lent, random| damage_table(&mut lent.memory, random)),
    alone(Rule::F, "frozen without a link", |lent, random| {
        let free = any_place(lent, random, STATE_FREE)?;
        let live = any_place(lent, random, STATE_LIVE)?;
        lent.area.copy_within(live * PLACE_BYTES..(live + 1) * PLACE_BYTES, free * PLACE_BYTES);
        let summary = lent.summary(live);
        put_summary(&mut lent.cards[free], &summary);
        set_card(lent, free, ROW_STATE, STATE_FROZEN)
    }),
    alone(Rule::F, "last link taken away", |lent, random| {
        let (place, word) = any_link(lent, random)?;
        let frozen = lent.cards[place][word + LINK_PLACE];
        let links = (0..lent.cards.len()).flat_map(|place| lent.links(place));
        let named = links.filter(|link| link[LINK_PLACE] == frozen).count();
        ((lent.cards[place][ROW_COUNT], named) == (1, 1)).then_some(())?;
        lent.cards[place][ROW_COUNT..ROW_SUMMARY].fill(0);
        Some(())
    }),
    alone(Rule::G, "two tables in the wrong order", |lent, random| {
        let level = 1 + random.below(3);
        let [first, second, ..] = *lent.list(level) else { return None };
        (least_own(lent, first)? < least_own(lent, second)?).then_some(())?;
        let start = level * lent.cards.len();
        lent.lists.swap(start, start + 1);
        Some(())
    }),
    alone(Rule::G, "mark flag above 1", |lent, random| {
        let flag = HEAD_MARKS + 2 * random.below(2);
        let value = *random.pick(&[2, 3, u64::MAX]);
        set_head(lent, flag, value)
    }),
    alone(Rule::G, "key of no mark", |lent, random| {
        let flag = HEAD_MARKS + 2 * random.below(2);
        set_head(lent, flag, 0)?;
        set_head(lent, flag + 1, 1 + random.word() / 2)
    }),
    alone(Rule::G, "word beyond a card's links", |lent, random| {
        let place = random.below(lent.cards.len());
        next_link(lent, place)?;
        set_card(lent, place, ROW_SUMMARY - 1, 1)
    }),
    alone(Rule::G, "item beyond a list's length", |lent, random| {
        let level = random.below(4);
        (lent.list(level).len() < lent.cards.len()).then_some(())?;
        let last = (level + 1) * lent.cards.len() - 1;
        lent.lists[last] = 1 + random.below(9) as u16;
        Some(())
    }),
];

fn set_head(lent: &mut Lent, word: usize, value: u64) -> Option<()> {
    lent.head[word] = value;
    Some(())
}

pub(super) fn set_card(lent: &mut Lent, place: usize, word: usize, value: u64) -> Option<()> {
    lent.cards[place][word] = value;
    Some(())
}

pub(super) fn any_place(lent: &Lent, random: &mut Random, state: u64) -> Option<usize> {
    let places: Vec<usize> =
        (0..lent.cards.len()).filter(|place| lent.cards[*place][ROW_STATE] == state).collect();
    (!places.is_empty()).then(|| *random.pick(&places))
}

/// A live place that a list names.
fn any_listed(lent: &Lent, random: &mut Random) -> Option<usize> {
    let place = any_place(lent, random, STATE_LIVE)?;
    level_of(lent, place).map(|_| place)
}

/// The level whose list names a place.
pub(super) fn level_of(lent: &Lent, place: usize) -> Option<usize> {
    (0..LEVELS).find(|level| lent.list(*level).iter().any(|item| usize::from(*item) == place))
}

/// The least own key of the table in a place, or none where there is no such place or table.
pub(super) fn least_own(lent: &Lent, item: u16) -> Option<Key> {
    let place = usize::from(item);
    let shown = (place < lent.cards.len()).then(|| read_table(lent.place(place), 1))??;
    Some(shown.first()?.0)
}

fn append_item(lent: &mut Lent, random: &mut Random, item: u16) -> Option<()> {
    let level = random.below(4);
    let length = lent.head[HEAD_LENGTHS + level] as usize;
    let list = &mut lent.lists[level * lent.cards.len()..][..lent.cards.len()];
    *list.get_mut(length)? = item;
    lent.head[HEAD_LENGTHS + level] += 1;
    Some(())
}

/// Gives the last entry of a table a value one byte longer than the longest; everything else is as a table's.
fn lengthen_value(bytes: &mut [u8]) -> Option<()> {
    let mut table = owned(&read_table(bytes, 1)?);
    *table.values_mut().next_back()? = Entry::Value(vec![7; VALUE_BYTES + 1]);
    bytes.copy_from_slice(&table_bytes(&table));
    Some(())
}

/// Breaks a table of at least two entries in one of several ways.
fn damage_table(bytes: &mut [u8], random: &mut Random) -> Option<()> {
    read_table(bytes, 2)?;
    // Where the second entry begins; the longest table ends before its place does.
    let second = TABLE_HEAD + usize::from(bytes[TABLE_HEAD]);
    match random.below(11) {
        0 => bytes[0] ^= 1,
        1 => bytes[2] = 31,
        2 => bytes[4] += 1,
        3 => bytes[4] -= 1,
        4 => bytes[6] = 1,
        5 => bytes[8] = ENTRY_BYTES as u8 + 1,
        6 => bytes[8] = 11,
        7 => bytes[10] = 3,
        8 => bytes[PLACE_BYTES - 1] = 1,
        9 => bytes[7] = 1,
        // The second key becomes the first: keys no longer rise.
        _ => bytes.copy_within(12..20, second + 4),
    }
    Some(())
}
