//! Weighing planted tables against their links: just due by weight, one entry short of it, or far from it.

use super::planted::Garden;
use super::random::Random;
use crate::limits::{LEVELS, TABLE_ENTRIES};
use crate::store::Place;
use crate::table::{Entries, Key};

/// How the tables of a planted store weigh against their links.
#[derive(Clone, Copy, PartialEq, Eq, Debug)]
pub(super) enum Balance {
    /// As it comes.
    Any,
    /// A table has as many entries as its links' numbers add up to, one more or one less.
    Even,
    /// A table has more, so that none is due by weight.
    Light,
}

impl Balance {
    /// How many entries a table should have, or none where it stays as it is; at most as many as it can have.
    fn own(self, random: &mut Random, weight: usize, most: usize) -> Option<usize> {
        let wanted = match self {
            Balance::Any => return None,
            Balance::Even => weight - 1 + random.below(3),
            Balance::Light => (weight + 1 + random.below(8)).min(most),
        };
        (1..=most).contains(&wanted).then_some(wanted)
    }
}

impl Garden<'_> {
    /// Gives the tables with links as many entries as the balance asks for, where their plots have keys enough.
    pub(super) fn weigh(&mut self) {
        let plots = self.plots[1..LEVELS].iter().flatten();
        let plots: Vec<(usize, Vec<Key>)> =
            plots.map(|plot| (plot.place, plot.points.clone())).collect();
        for (place, points) in plots {
            let weight: usize = self.store.live(place).1.iter().map(|link| link.number).sum();
            let most = points.len().min(TABLE_ENTRIES);
            if weight > 0 {
                let own = self.balance.own(self.random, weight, most);
                own.into_iter().for_each(|own| self.refill(place, points.clone(), own));
            }
        }
    }

    /// Another table of so many of these keys in a place; its links stay.
    fn refill(&mut self, place: usize, mut keys: Vec<Key>, own: usize) {
        self.random.shuffle(&mut keys);
        keys.truncate(own);
        let entries: Entries = keys.into_iter().map(|key| (key, self.any_entry())).collect();
        self.store.write_with_bits(place, &entries);
        if let Place::Live { table, .. } = &mut self.store.places[place] {
            *table = entries;
        }
    }
}
