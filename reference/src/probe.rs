//! Look-ups by the summaries (note 6): which tables are asked for a key, which of them are opened, and what request kind 8 tells
//! of it.

use crate::limits::LEVELS;
use crate::request::Reply;
use crate::slip::Slip;
use crate::store::Store;
use crate::summary::{bits_set, may_hold};
use crate::table::{greatest, least, Entries, Entry, Key};

/// What a look-up came to, and by which way.
pub struct Probed<'a> {
    /// The entry that decides.
    pub entry: Option<&'a Entry>,
    /// The tables opened, up to the one that holds that entry.
    pub opened: usize,
    /// The bits set in their summaries, added up.
    pub bits: usize,
}

impl Store {
    /// The value under a key.
    pub fn look_up(&self, key: Key) -> Option<&[u8]> {
        self.probe(key).entry.and_then(Entry::value)
    }

    /// Goes through the read order and opens only tables that have the key's three bits set. Memory is not a table.
    pub fn probe(&self, key: Key) -> Probed<'_> {
        let mut probed = Probed { entry: self.memory.get(&key), opened: 0, bits: 0 };
        if probed.entry.is_some() {
            probed.opened += usize::from(self.slips(Slip::MemoryCounted));
            return probed;
        }
        for place in self.asked(key) {
            if !may_hold(&self.summaries[place], key, self.slip) {
                probed.opened += usize::from(self.slips(Slip::ClosedTablesCounted));
                continue;
            }
            probed.entry = self.table(place).get(&key);
            if probed.entry.is_none() || !self.slips(Slip::DecidingTableNotCounted) {
                probed.opened += 1;
                probed.bits = self.bits_added(probed.bits, place);
            }
            if probed.entry.is_some() {
                break;
            }
        }
        probed
    }

    /// The bits of the tables opened so far and of one more.
    fn bits_added(&self, before: usize, place: usize) -> usize {
        match self.slip {
            Some(Slip::BitsOfLastTableAlone) => bits_set(&self.summaries[place]),
            Some(Slip::ThreeBitsForEachKey) => before + 3 * self.table(place).len(),
            _ => before + bits_set(&self.summaries[place]),
        }
    }

    /// The places of the tables that the read order has for a key, behind memory: of level 0 every one, of each other level the
    /// table whose span holds the key, after those of its links whose range holds it.
    fn asked(&self, key: Key) -> Vec<usize> {
        let mut asked = self.level_0_newest_first();
        if self.slips(Slip::Level0AskedByKeys) {
            asked.retain(|place| own_keys_hold(self.table(*place), key));
        }
        for level in 1..LEVELS {
            let Some(place) = self.spanning(level, key) else { continue };
            let (table, links) = self.live(place);
            if self.slips(Slip::AskedByOwnKeys) && !own_keys_hold(table, key) {
                continue;
            }
            let any_range = self.slips(Slip::LinksAskedBeyondRange);
            let links = self.newest_first(links).into_iter();
            let holding = links.filter(|link| any_range || link.holds(key));
            asked.extend(holding.map(|link| link.place));
            asked.push(place);
        }
        asked
    }

    /// The reply of kind 8: found, tables opened, their bits, and the value if found. It is never 64.
    pub fn probe_reply(&self, key: Key) -> Reply {
        let Probed { entry, opened, bits } = self.probe(key);
        let value = entry.and_then(Entry::value);
        let found = match self.slip {
            Some(Slip::FoundByMark) => entry.is_some(),
            Some(Slip::EmptyValueNotFound) => value.is_some_and(|value| !value.is_empty()),
            _ => value.is_some(),
        };
        if self.slips(Slip::ProbeSays64) && !found {
            return Reply::bare(64);
        }
        let mut body = u16::from(found).to_le_bytes().to_vec();
        body.extend((opened as u16).to_le_bytes());
        body.extend((bits as u32).to_le_bytes());
        body.extend(value.unwrap_or_default());
        Reply::done(body)
    }
}

/// Whether a key lies between the least and the greatest of a table.
fn own_keys_hold(table: &Entries, key: Key) -> bool {
    (least(table)..=greatest(table)).contains(&key)
}
