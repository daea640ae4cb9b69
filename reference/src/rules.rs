//! Rules A to G over lent memory of any content: the set of all that are broken, and the letter that goes by the first of them.

use crate::lent::*;
use crate::limits::{CARD_LINKS, LEVELS, THRESHOLDS};
use crate::slip::Slip;
use crate::summary::{summary_of, NO_BITS};
use crate::table::{read_table, Key, Shown};
use std::collections::{BTreeMap, BTreeSet};

/// A rule of a sound store.
#[derive(Clone, Copy, PartialEq, Eq, PartialOrd, Ord, Debug)]
pub enum Rule {
    A,
    B,
    C,
    D,
    E,
    F,
    G,
}

impl Rule {
    /// In the order that the letter goes by.
    pub const ALL: [Rule; 7] = [Rule::A, Rule::B, Rule::C, Rule::D, Rule::E, Rule::F, Rule::G];

    /// The letter as its ASCII code.
    pub fn letter(self) -> u8 {
        b'A' + self as u8
    }
}

/// All broken rules. Each is judged by itself, so that it does not matter which is tried first.
pub type Broken = BTreeSet<Rule>;

/// The letter that comes with these broken rules: that of the first in the order A to G, 0 where none is broken. A slip goes by
/// another order.
pub fn letter_of(broken: &Broken, slip: Option<Slip>) -> u8 {
    use Rule::*;
    let order = match slip {
        Some(Slip::MemoryJudgedBeforePlaces) => [A, B, D, C, E, F, G],
        Some(Slip::FrozenJudgedWithLinks) => [A, B, C, D, F, E, G],
        Some(Slip::LastBrokenGiven) => [G, F, E, D, C, B, A],
        _ => Rule::ALL,
    };
    order.iter().find(|rule| broken.contains(rule)).map_or(0, |rule| rule.letter())
}

/// The answer of a check: 0, 1 or 5, and with 5 every broken rule.
#[derive(Clone, PartialEq, Eq, Debug)]
pub struct Verdict {
    pub number: u16,
    pub broken: Broken,
}

/// Checks lent memory of any sizes and any content.
pub fn check(lent: &Lent) -> Verdict {
    check_with_slip(lent, None)
}

/// The same as a mutant does it.
pub fn check_with_slip(lent: &Lent, slip: Option<Slip>) -> Verdict {
    let Some(places) = lent.places() else {
        return Verdict { number: 1, broken: Broken::new() };
    };
    let image = Image { lent, places, slip };
    let broken = image.broken();
    let number = if broken.is_empty() { 0 } else { 5 };
    Verdict { number, broken }
}

/// A link as it stands in a row; its numbers may mean nothing.
struct RawLink {
    on: usize,
    level: usize,
    place: u64,
    low: Key,
    high: Key,
    number: u64,
}

/// Lent memory of fitting sizes.
struct Image<'a> {
    lent: &'a Lent,
    places: usize,
    slip: Option<Slip>,
}

impl<'a> Image<'a> {
    fn broken(&self) -> Broken {
        let (listed_right, tables) = (self.rule_b(), self.tables());
        let mut kept = vec![
            (Rule::A, self.rule_a()),
            (Rule::B, listed_right),
            (Rule::C, tables.is_some()),
            (Rule::D, read_table(&self.lent.memory, 0).is_some()),
        ];
        // E, F and G speak of listed tables and their entries: without B and C they count as kept.
        if let (true, Some(tables)) = (listed_right, tables) {
            let links = self.links();
            kept.push((Rule::E, self.rule_e(&links, &tables)));
            kept.push((Rule::F, self.rule_f(&links)));
            let bits_fit = self.bits_in_rule_c() || self.all_bits_right(&tables);
            let spans_fit = self.spans_apart(&links, &tables);
            kept.push((Rule::G, spans_fit && self.unused_is_zero() && bits_fit));
        }
        kept.iter().filter(|(_, kept)| !kept).map(|(rule, _)| *rule).collect()
    }

    fn state(&self, place: usize) -> u64 {
        self.lent.cards[place][ROW_STATE]
    }

    fn holds_table(&self, place: usize) -> bool {
        matches!(self.state(place), STATE_LIVE | STATE_FROZEN)
    }

    /// What live and frozen places show, or none if one of them holds no table or has other bits on its card (rule C).
    fn tables(&self) -> Option<Vec<Shown<'a>>> {
        let read = |place| match self.holds_table(place) {
            true => read_table(self.lent.place(place), 1),
            false => Some(Vec::new()),
        };
        let tables: Option<Vec<Shown>> = (0..self.places).map(read).collect();
        tables.filter(|tables| !self.bits_in_rule_c() || self.all_bits_right(tables))
    }

    fn bits_in_rule_c(&self) -> bool {
        self.slip != Some(Slip::WrongBitsJudgedLast)
    }

    /// Whether the summary of each live or frozen card is that of its table's keys.
    fn all_bits_right(&self, tables: &[Shown]) -> bool {
        (0..self.places).all(|place| !self.holds_table(place) || self.bits_right(place, tables))
    }

    fn bits_right(&self, place: usize, tables: &[Shown]) -> bool {
        let (own, right) =
            (self.lent.summary(place), summary_of(tables[place].iter().map(|(key, _)| *key)));
        if self.slip == Some(Slip::MoreBitsAreSound) {
            return own.iter().zip(right).all(|(own, right)| own & right == right);
        }
        own == right
    }

    /// The links of all listed tables, oldest first on each.
    fn links(&self) -> Vec<RawLink> {
        let mut links = Vec::new();
        for level in 0..LEVELS {
            for item in self.lent.list(level) {
                let on = usize::from(*item);
                links.extend(self.lent.links(on).map(|words| RawLink {
                    on,
                    level,
                    place: words[LINK_PLACE],
                    low: words[LINK_LOW],
                    high: words[LINK_HIGH],
                    number: words[LINK_NUMBER],
                }));
            }
        }
        links
    }

    fn rule_a(&self) -> bool {
        THRESHOLDS.contains(&self.lent.head[HEAD_THRESHOLD])
            && self.lent.head[HEAD_CURSOR] < self.places as u64
    }

    fn rule_b(&self) -> bool {
        let mut listed = vec![0; self.places];
        for level in 0..LEVELS {
            if self.lent.head[HEAD_LENGTHS + level] > self.places as u64 {
                return false;
            }
            for item in self.lent.list(level) {
                match listed.get_mut(usize::from(*item)) {
                    Some(times) => *times += 1,
                    None => return false,
                }
            }
        }
        self.lent.cards.iter().zip(listed).all(|(row, times)| match row[ROW_STATE] {
            STATE_FREE | STATE_FROZEN => times == 0 && row[ROW_COUNT] == 0,
            STATE_LIVE => times == 1,
            _ => false,
        })
    }

    fn rule_e(&self, links: &[RawLink], tables: &[Shown]) -> bool {
        let threshold = self.lent.head[HEAD_THRESHOLD];
        let few = self.lent.cards.iter().all(|row| row[ROW_COUNT] <= threshold);
        let level_0_bare = self.lent.list(0).iter().all(|place| {
            let row = &self.lent.cards[usize::from(*place)];
            row[ROW_COUNT] == 0
        });
        few && level_0_bare
            && links.iter().all(|link| self.holds_its_number(link, tables))
            && slices_apart(links)
    }

    /// Low is not above high, and the link names a frozen place with as many entries in its range as its number says, at least
    /// one.
    fn holds_its_number(&self, link: &RawLink, tables: &[Shown]) -> bool {
        if link.place >= self.places as u64 || self.state(link.place as usize) != STATE_FROZEN {
            return false;
        }
        let holds = |(key, _): &&(Key, _)| (link.low..=link.high).contains(key);
        let held = tables[link.place as usize].iter().filter(holds).count();
        held > 0 && link.number == held as u64
    }

    fn rule_f(&self, links: &[RawLink]) -> bool {
        let named: BTreeSet<u64> = links.iter().map(|link| link.place).collect();
        (0..self.places)
            .all(|place| (self.state(place) == STATE_FROZEN) == named.contains(&(place as u64)))
    }

    /// On levels 1 to 3 each span ends below the start of the next.
    fn spans_apart(&self, links: &[RawLink], tables: &[Shown]) -> bool {
        let mut ends: BTreeMap<usize, Vec<Key>> = BTreeMap::new();
        for link in links {
            ends.entry(link.on).or_default().extend([link.low, link.high]);
        }
        let span = |item: &u16| {
            let place = usize::from(*item);
            let own = tables[place].iter().map(|(key, _)| *key);
            let keys: Vec<Key> =
                own.chain(ends.get(&place).into_iter().flatten().copied()).collect();
            (keys.iter().min().copied(), keys.iter().max().copied())
        };
        (1..LEVELS).all(|level| {
            let spans: Vec<_> = self.lent.list(level).iter().map(span).collect();
            spans.windows(2).all(|pair| pair[0].1 < pair[1].0)
        })
    }

    /// Marks without a key, words beyond a card's links, the summary of a free card, and items beyond a list's length.
    fn unused_is_zero(&self) -> bool {
        let marks = self.lent.head[HEAD_MARKS..HEAD_LENGTHS].chunks(2);
        let marks_fit =
            marks.into_iter().all(|mark| mark[0] == 1 || (mark[0] == 0 && mark[1] == 0));
        let rows_fit = self.lent.cards.iter().all(|row| {
            let used = row[ROW_COUNT].min(CARD_LINKS as u64) as usize;
            row[ROW_LINKS + LINK_WORDS * used..ROW_SUMMARY].iter().all(|word| *word == 0)
        });
        let bits_fit = self.slip == Some(Slip::FreeBitsNotAsked)
            || (0..self.places)
                .all(|place| self.holds_table(place) || self.lent.summary(place) == NO_BITS);
        let lists_fit = (0..LEVELS).all(|level| {
            let list = &self.lent.lists[level * self.places..][..self.places];
            list[self.lent.list(level).len()..].iter().all(|item| *item == 0)
        });
        marks_fit && rows_fit && bits_fit && lists_fit
    }
}

/// Links naming one place share no key and hang on one level.
fn slices_apart(links: &[RawLink]) -> bool {
    let mut by_place: BTreeMap<u64, Vec<&RawLink>> = BTreeMap::new();
    for link in links {
        by_place.entry(link.place).or_default().push(link);
    }
    by_place.values_mut().all(|named| {
        // A range upside down holds no key; such a link breaks E elsewhere.
        named.retain(|link| link.low <= link.high);
        named.sort_by_key(|link| link.low);
        named.windows(2).all(|pair| pair[0].high < pair[1].low && pair[0].level == pair[1].level)
    })
}
