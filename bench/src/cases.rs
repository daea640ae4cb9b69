//! The stores that are timed: those of the main tables, and others where a change that helps these might cost something. Of the others
//! the proved store alone takes part, and an earlier one where there is one.

use crate::engine::{LOOK_UPS, MOST_TIDIES, SCANS};
use crate::engines::Kind;
use crate::rounds::Times;
use crate::setup::Setup;
use crate::thresholds::KEYS_A_PLACE;
use crate::workload::{Lengths, Workload};
use reference::limits::TABLE_ENTRIES;

/// Batches of look-ups of each sort, and of scans, in a round of the main tables.
const LOOK_UP_BATCHES: usize = 6;
const SCAN_BATCHES: usize = 2;

/// How a store is set up, and what it is asked.
#[derive(Clone, Copy)]
pub struct Case {
    pub setup: Setup,
    pub keys: usize,
    pub lengths: Lengths,
    /// Of each sort.
    pub look_ups: usize,
    pub scans: usize,
    /// Rounds for each one that is asked for: the shorter a round, the more of them.
    pub rounds: usize,
}

/// The times of each store.
pub struct CaseTimes<'a> {
    pub case: Case,
    pub kinds: &'a [&'a Kind],
    pub times: Vec<Times>,
}

impl Case {
    /// A store of the main tables.
    pub fn main(places: usize, keys: usize, lengths: Lengths) -> Case {
        let (look_ups, scans) = (LOOK_UP_BATCHES * LOOK_UPS, SCAN_BATCHES * SCANS);
        Case { setup: Setup::of(places), keys, lengths, look_ups, scans, rounds: 1 }
    }

    /// One batch of each sort, and the longest values.
    const fn of(setup: Setup, keys: usize, rounds: usize) -> Case {
        let lengths = Lengths::Longest;
        Case { setup, keys, lengths, look_ups: LOOK_UPS, scans: SCANS, rounds }
    }

    pub fn workload(&self, seed: u64) -> Workload {
        Workload::of_lengths(self.lengths, seed, self.keys, self.look_ups, self.scans)
    }
}

/// Tables that a recorder who never tidies leaves on level 0, and keys to fill them: half are put twice, so the last table is not
/// quite full.
pub const LEFT: usize = 100;
const KEYS_LEFT: usize = LEFT * TABLE_ENTRIES * 2 / 3;

/// The rounds are even, so that each of two stores begins as often as the other: the first of a round finds colder caches.
pub const CASES: [Case; 6] = {
    let of_256 = Setup::of(256);
    // Each link is merged at once, so a flush needs many tidies from the first on.
    let merging = Setup { threshold: 1, tidies: Some(MOST_TIDIES), ..of_256 };
    let linking = Setup { threshold: 8, ..of_256 };
    let left = Setup { tidies: None, ..of_256 };
    [
        Case::of(Setup::of(32), 150, 16),
        Case::of(merging, 256 * KEYS_A_PLACE, 6),
        Case::of(linking, 1_500, 6),
        Case { lengths: Lengths::Mixed, ..Case::of(of_256, 1_500, 6) },
        Case { lengths: Lengths::Mixed, ..Case::of(Setup::of(4_096), 25_000, 2) },
        // Each scan goes over all of the tables.
        Case { scans: SCANS / 16, ..Case::of(left, KEYS_LEFT, 6) },
    ]
};
