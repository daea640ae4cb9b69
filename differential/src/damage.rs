//! Random damage to lent memory, one to four blows at a time: what a worn drive or a wrong host could do to it. Several blows
//! often break several rules, and the letter must be that of the first.

use reference::generate::damage::{damages, Damage};
use reference::generate::random::Random;
use reference::lent::*;
use reference::limits::{CARD_LINKS, ENTRY_BYTES, LEVELS, PLACE_BYTES, TABLE_ENTRIES, TABLE_HEAD};

/// One way to damage lent memory.
type Blow = fn(&mut Lent, &mut Random);

const BLOWS: [Blow; 16] = [
    flip_in_area,
    flip_in_table_head,
    flip_in_row,
    flip_in_list,
    flip_in_head,
    flip_in_memory,
    cut_table_short,
    swap_tables,
    double_list_item,
    drop_list_item,
    retarget_link,
    widen_link,
    empty_link,
    miscount_link,
    flip_in_summary,
    copy_summary,
];

/// One to four blows; now and then one of them is a named damage.
pub fn strike(lent: &mut Lent, random: &mut Random) {
    for _ in 0..1 + random.below(4) {
        let blow = BLOWS[random.below(BLOWS.len())];
        let blow = if random.once_in(8) { named_damage } else { blow };
        blow(lent, random);
    }
}

fn places(lent: &Lent) -> usize {
    lent.cards.len()
}

/// One of a number's bits; low ones come often, since they stay near sound values.
fn some_bit(random: &mut Random, bits: usize) -> usize {
    let reach = if random.once_in(3) { bits } else { 5 };
    random.below(reach)
}

fn flip_in_area(lent: &mut Lent, random: &mut Random) {
    let byte = random.below(lent.area.len());
    lent.area[byte] ^= 1 << random.below(8);
}

/// The first bytes of places are where lengths, counts and first entries stand.
fn flip_in_table_head(lent: &mut Lent, random: &mut Random) {
    let byte = random.below(places(lent)) * PLACE_BYTES + random.below(40);
    lent.area[byte] ^= 1 << random.below(8);
}

fn flip_in_row(lent: &mut Lent, random: &mut Random) {
    let place = random.below(places(lent));
    let (word, bit) = match random.below(3) {
        0 => (random.below(2), random.below(3)),
        1 => (random.below(ROW_WORDS), random.below(64)),
        // State, count and two links.
        _ => (random.below(ROW_LINKS + 2 * LINK_WORDS), random.below(8)),
    };
    lent.cards[place][word] ^= 1 << bit;
}

fn flip_in_summary(lent: &mut Lent, random: &mut Random) {
    let (place, word) = (random.below(places(lent)), random.below(ROW_WORDS - ROW_SUMMARY));
    lent.cards[place][ROW_SUMMARY + word] ^= 1 << random.below(64);
}

/// The bits of another card, which may be as good.
fn copy_summary(lent: &mut Lent, random: &mut Random) {
    let summary = lent.summary(random.below(places(lent)));
    let place = random.below(places(lent));
    put_summary(&mut lent.cards[place], &summary);
}

fn flip_in_list(lent: &mut Lent, random: &mut Random) {
    let level = random.below(LEVELS);
    let length = (lent.head[HEAD_LENGTHS + level] as usize).min(places(lent));
    let item =
        if random.once_in(4) { random.below(places(lent)) } else { random.below(length + 1) };
    let at = level * places(lent) + item.min(places(lent) - 1);
    lent.lists[at] ^= 1 << some_bit(random, 16);
}

fn flip_in_head(lent: &mut Lent, random: &mut Random) {
    let word = random.below(10);
    lent.head[word] ^= 1 << some_bit(random, 64);
}

fn flip_in_memory(lent: &mut Lent, random: &mut Random) {
    let reach = if random.once_in(3) { PLACE_BYTES } else { TABLE_HEAD + ENTRY_BYTES };
    let byte = random.below(reach);
    lent.memory[byte] ^= 1 << random.below(8);
}

fn cut_table_short(lent: &mut Lent, random: &mut Random) {
    let start = random.below(places(lent)) * PLACE_BYTES;
    let from = random.below(PLACE_BYTES);
    lent.area[start + from..start + PLACE_BYTES].fill(0);
}

fn swap_tables(lent: &mut Lent, random: &mut Random) {
    let (one, other) = (random.below(places(lent)), random.below(places(lent)));
    for byte in 0..PLACE_BYTES {
        lent.area.swap(one * PLACE_BYTES + byte, other * PLACE_BYTES + byte);
    }
}

/// A level with items, and where they begin.
fn some_list(lent: &Lent, random: &mut Random) -> Option<(usize, usize, usize)> {
    let level = random.below(LEVELS);
    let length = lent.head[HEAD_LENGTHS + level] as usize;
    (length > 0 && length < places(lent)).then_some((level, level * places(lent), length))
}

fn double_list_item(lent: &mut Lent, random: &mut Random) {
    if let Some((level, start, length)) = some_list(lent, random) {
        let item = random.below(length);
        lent.lists[start + length] = lent.lists[start + item];
        lent.head[HEAD_LENGTHS + level] += 1;
    }
}

fn drop_list_item(lent: &mut Lent, random: &mut Random) {
    if let Some((level, start, length)) = some_list(lent, random) {
        let item = random.below(length);
        lent.lists.copy_within(start + item + 1..start + length, start + item);
        lent.lists[start + length - 1] = 0;
        lent.head[HEAD_LENGTHS + level] -= 1;
    }
}

/// The row and the first word of a random link.
fn some_link(lent: &Lent, random: &mut Random) -> Option<(usize, usize)> {
    let linked: Vec<usize> = (0..places(lent))
        .filter(|&place| (1..=CARD_LINKS as u64).contains(&lent.cards[place][ROW_COUNT]))
        .collect();
    if linked.is_empty() {
        return None;
    }
    let place = *random.pick(&linked);
    let link = random.below(lent.cards[place][ROW_COUNT] as usize);
    Some((place, ROW_LINKS + LINK_WORDS * link))
}

fn retarget_link(lent: &mut Lent, random: &mut Random) {
    if let Some((place, word)) = some_link(lent, random) {
        lent.cards[place][word + LINK_PLACE] = random.below(places(lent) + 2) as u64;
    }
}

fn widen_link(lent: &mut Lent, random: &mut Random) {
    if let Some((place, word)) = some_link(lent, random) {
        let link = &mut lent.cards[place][word..word + LINK_WORDS];
        link[LINK_LOW] = link[LINK_LOW].saturating_sub(1 << random.below(40));
        link[LINK_HIGH] = link[LINK_HIGH].saturating_add(1 << random.below(40));
    }
}

fn empty_link(lent: &mut Lent, random: &mut Random) {
    if let Some((place, word)) = some_link(lent, random) {
        lent.cards[place][word + LINK_HIGH] =
            lent.cards[place][word + LINK_LOW].wrapping_sub(random.below(2) as u64);
    }
}

/// Another number that a link might have, which is the right one at times.
fn miscount_link(lent: &mut Lent, random: &mut Random) {
    if let Some((place, word)) = some_link(lent, random) {
        lent.cards[place][word + LINK_NUMBER] = random.below(TABLE_ENTRIES + 2) as u64;
    }
}

/// One of the damages that the second implementation's own tests know by name.
pub fn named_damage(lent: &mut Lent, random: &mut Random) {
    let all: Vec<&Damage> = damages().collect();
    (random.pick(&all).plant)(lent, random);
}
