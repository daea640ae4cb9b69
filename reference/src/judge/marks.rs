//! Which delete marks a merge drops, worked from the working's own lists; and what became of them,
//! for counting what a test run reached.

use super::met;
use super::working::{Rows, Slice, Working};
use std::collections::BTreeMap;

/// Slices by the place that they hang on.
type Hanging<'a> = BTreeMap<usize, Vec<&'a Slice>>;

/// What became of the delete marks of a merge.
#[derive(Clone, Copy, PartialEq, Eq, Debug)]
pub struct Marks {
    pub dropped: usize,
    pub kept: usize,
    /// Whether the free places suffice only because some were dropped.
    pub made_room: bool,
}

/// How many delete marks of a merge go and how many stay, and what is special about the latter.
#[derive(Default)]
pub(super) struct Sifted {
    pub dropped: usize,
    pub kept: usize,
    pub met: Vec<&'static str>,
}

/// A table that lies lower than a merge, with what hangs on it.
struct Lower<'a> {
    level: usize,
    rows: &'a Rows,
    slices: &'a [&'a Slice],
    low: u64,
    high: u64,
}

impl Lower<'_> {
    fn holds(&self, key: u64) -> bool {
        self.low <= key && key <= self.high
    }

    /// Whether the key is below or above all own ones.
    fn is_beyond_own(&self, key: u64) -> bool {
        self.rows.iter().all(|row| key < row.0) || self.rows.iter().all(|row| row.0 < key)
    }

    /// The slices whose range holds the key.
    fn slices_with(&self, key: u64) -> impl Iterator<Item = &&Slice> {
        self.slices.iter().filter(move |slice| slice.low <= key && key <= slice.high)
    }
}

impl Working {
    /// The least and the greatest of a table's own keys and the range ends of what hangs on it.
    pub(super) fn hull(&self, place: usize, slices: &[&Slice]) -> (u64, u64) {
        let mut points: Vec<u64> = self.rows(place).iter().map(|row| row.0).collect();
        points.extend(slices.iter().flat_map(|slice| [slice.low, slice.high]));
        points.sort_unstable();
        (points[0], points[points.len() - 1])
    }

    /// Takes out the delete marks that a merge on this level drops: those that no table lying lower
    /// holds between the ends of its hull.
    pub(super) fn sift(&self, on: usize, rows: &mut Rows) -> Sifted {
        let hanging = self.hanging();
        let lower = self.lower(on, &hanging);
        let mut sifted = Sifted::default();
        rows.retain(|(key, value)| {
            if value.is_some() {
                return true;
            }
            let holding: Vec<&Lower> = lower.iter().filter(|table| table.holds(*key)).collect();
            if holding.is_empty() {
                sifted.dropped += 1;
                return false;
            }
            sifted.kept += 1;
            sifted.met.extend(self.stays(on, *key, &holding));
            true
        });
        sifted
    }

    /// All tables on levels of greater number.
    fn lower<'a>(&'a self, on: usize, hanging: &'a Hanging) -> Vec<Lower<'a>> {
        let listed =
            (on + 1..4).flat_map(|level| self.levels[level].iter().map(move |it| (level, it)));
        let lower = listed.map(|(level, place)| {
            let slices = hanging.get(place).map_or(&[][..], |slices| slices);
            let (low, high) = self.hull(*place, slices);
            Lower { level, rows: self.rows(*place), slices, low, high }
        });
        lower.collect()
    }

    /// What is special about a delete mark that stays for these tables, of which there is one.
    fn stays(&self, on: usize, key: u64, holding: &[&Lower]) -> Vec<&'static str> {
        let beyond = |table: &&Lower| table.is_beyond_own(key);
        let between = |table: &&Lower| beyond(table) && table.slices_with(key).next().is_none();
        let bare = |table: &&Lower| {
            let mut slices = table.slices_with(key).flat_map(|slice| self.sliced(slice));
            table.rows.iter().all(|row| row.0 != key) && slices.all(|row| row.0 != key)
        };
        let levels: Vec<usize> = holding.iter().map(|table| table.level).collect();
        let tables = || holding.iter();
        let seen = [
            (tables().all(beyond), met::STAYS_BY_RANGE),
            (tables().all(between), met::STAYS_BETWEEN),
            (tables().all(bare), met::STAYS_BARE),
            (on == 1 && levels == [2], met::STAYS_BY_NEXT),
            (on == 1 && levels == [3], met::STAYS_BY_LAST),
        ];
        seen.iter().filter(|(is_so, _)| *is_so).map(|(_, name)| *name).collect()
    }
}
