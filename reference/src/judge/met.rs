//! Names for what tidies and probes met on the way, for counting what a test run reached; each tells two
//! readings of a rule apart.

// Which merges are due.
pub const ONE_BELOW: &str = "not due at a weight one below";
pub const JUST_DUE: &str = "due by weight alone, just the own entry count";
pub const FIRST_LINK: &str = "a table of one entry due at its first link";
pub const BY_MARKS: &str = "due by weight alone, with delete marks counted";
pub const BY_HIDDEN: &str = "due by weight alone, with hidden entries counted";
pub const WEIGHT_BY_KEY: &str = "due by weight before one by count, on one level";
pub const WEIGHT_BY_LEVEL: &str = "due by weight before one by count, on two levels";
pub const COUNT_BY_KEY: &str = "due by count before one by weight, on one level";
pub const COUNT_BY_LEVEL: &str = "due by count before one by weight, on two levels";
pub const MARK_COUNTED: &str = "a number that counts a delete mark";
pub const HIDDEN_COUNTED: &str = "a number that counts a hidden entry";

// Which level is relieved: for levels 0, 1 and 2.
pub const OF_LEVELS: [[&str; 2]; 3] = [
    ["level 0 just at its capacity", "level 0 one above its capacity"],
    ["level 1 just at its capacity", "level 1 one above its capacity"],
    ["level 2 just at its capacity", "level 2 one above its capacity"],
];
pub const DEEP: &str = "more than 128 tables on level 3";

// Which delete marks stay.
pub const STAYS_BY_RANGE: &str = "delete mark that stays beyond the own keys below";
pub const STAYS_BETWEEN: &str = "delete mark that stays between own keys and ranges below";
pub const STAYS_BARE: &str = "delete mark that stays without an entry of its key below";
pub const STAYS_BY_NEXT: &str = "delete mark of level 1 that stays by level 2 alone";
pub const STAYS_BY_LAST: &str = "delete mark of level 1 that stays by level 3 alone";

// Which tables a probe opens.
pub const PROBED_MEMORY: &str = "probe decided by memory";
pub const PROBED_MEMORY_MARK: &str = "probe decided by a delete mark in memory";
pub const PROBED_ON_0: &str = "probe decided by a table of level 0";
pub const PROBED_ON_1: &str = "probe decided by a table of level 1";
pub const PROBED_ON_2: &str = "probe decided by a table of level 2";
pub const PROBED_ON_3: &str = "probe decided by a table of level 3";
pub const PROBED_LINK_1: &str = "probe decided through a link on level 1";
pub const PROBED_LINK_2: &str = "probe decided through a link on level 2";
pub const PROBED_LINK_3: &str = "probe decided through a link on level 3";
pub const PROBED_MARK: &str = "probe decided by a delete mark of a live table";
pub const PROBED_LINKED_MARK: &str = "probe decided by a delete mark through a link";
pub const PROBED_EMPTY: &str = "probe decided by an empty value of a table";
pub const VAIN_ON_0: &str = "table of level 0 opened in vain";
pub const VAIN_LOWER: &str = "table of levels 1 to 3 opened in vain";
pub const VAIN_FROZEN: &str = "frozen table opened in vain";
pub const BEYOND_ON_0: &str = "table of level 0 opened for a key beyond its own";
pub const BEYOND_LOWER: &str = "table of levels 1 to 3 opened for a key beyond its own";
pub const BEYOND_RANGE: &str = "frozen table with the bits, not asked by its link's range";
pub const NOT_OPENED: &str = "table asked and not opened";
pub const NONE_OPENED: &str = "probe that opens none of the tables asked";
pub const ALL_IN_VAIN: &str = "probe that opens tables and meets no entry";
pub const SEVERAL_OPENED: &str = "probe that opens three tables or more";
pub const OUTSIDE_SPANS: &str = "probe of a key in no span of a level that has tables";

/// Those of probes.
pub const OF_PROBES: [&str; 23] = [
    PROBED_MEMORY,
    PROBED_MEMORY_MARK,
    PROBED_ON_0,
    PROBED_ON_1,
    PROBED_ON_2,
    PROBED_ON_3,
    PROBED_LINK_1,
    PROBED_LINK_2,
    PROBED_LINK_3,
    PROBED_MARK,
    PROBED_LINKED_MARK,
    PROBED_EMPTY,
    VAIN_ON_0,
    VAIN_LOWER,
    VAIN_FROZEN,
    BEYOND_ON_0,
    BEYOND_LOWER,
    BEYOND_RANGE,
    NOT_OPENED,
    NONE_OPENED,
    ALL_IN_VAIN,
    SEVERAL_OPENED,
    OUTSIDE_SPANS,
];

/// Those of delete marks.
pub const OF_MARKS: [&str; 5] =
    [STAYS_BY_RANGE, STAYS_BETWEEN, STAYS_BARE, STAYS_BY_NEXT, STAYS_BY_LAST];

/// Met on planted stores alone: a tidy links to one level, and what is due there is merged before
/// the next link; and the range of a link that a tidy makes holds all own keys of its table.
pub const BEYOND_NEW: [&str; 3] = [WEIGHT_BY_LEVEL, COUNT_BY_LEVEL, STAYS_BETWEEN];

/// Those of tidies.
pub const OF_TIDIES: [&str; 16] = [
    ONE_BELOW,
    JUST_DUE,
    FIRST_LINK,
    BY_MARKS,
    BY_HIDDEN,
    WEIGHT_BY_KEY,
    WEIGHT_BY_LEVEL,
    COUNT_BY_KEY,
    COUNT_BY_LEVEL,
    MARK_COUNTED,
    HIDDEN_COUNTED,
    STAYS_BY_RANGE,
    STAYS_BETWEEN,
    STAYS_BARE,
    STAYS_BY_NEXT,
    STAYS_BY_LAST,
];

/// All of them but for `DEEP`, which asks for large stores.
pub fn all() -> impl Iterator<Item = &'static str> {
    OF_TIDIES.into_iter().chain(OF_LEVELS.into_iter().flatten()).chain(OF_PROBES)
}
