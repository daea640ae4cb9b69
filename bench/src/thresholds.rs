//! What the threshold does: places that compaction writes and steps that a flush needs, on the same keys for several thresholds.
//! They are counted by the store's replies, many steps to a list: `places` looks at the whole area after each single one.

use crate::lists::Listed;
use crate::places::{tables, Steps, Written};
use crate::workload::Put;

/// Keys for each place: few enough to fit with threshold 1 too, whose merges leave many tables of one entry.
pub const KEYS_A_PLACE: usize = 3;

/// Tidies of one list.
const AT_ONCE: usize = 16;

/// Leads a new store through all puts as `Watched` does, and counts the same.
pub fn count(store: &mut Listed, puts: &[Put]) -> Written {
    let mut written = Written::default();
    for batch in tables(puts) {
        store.only_put(batch);
        store.flush();
        written.puts += batch.len();
        written.flushes += 1;
        written.places += 1;
        written.most = written.most.max(1);
        settle(store, &mut written);
    }
    written
}

/// Tidies until there is nothing to do. Each step takes one table off its level; what is more there afterwards a merge has written.
fn settle(store: &mut Listed, written: &mut Written) {
    let mut live = store.live();
    loop {
        let told = store.told_tidies(AT_ONCE);
        for (level, after) in &told {
            let places = after[*level] + 1 - live[*level];
            written.tidies += 1;
            written.places += places;
            written.most = written.most.max(places);
            live = *after;
        }
        if told.len() < AT_ONCE {
            return;
        }
    }
}
