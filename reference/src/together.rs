//! Counters of rules that come together in one store, broken or planted: how many at once, and which pairs.

use crate::reached::Reached;
use crate::rules::{Broken, Rule};

/// Two rules, the first of them first.
pub type Pair = (Rule, Rule);

/// Every two rules.
pub fn pairs() -> impl Iterator<Item = Pair> {
    let before = |other: Rule| Rule::ALL.into_iter().filter(move |rule| *rule < other);
    Rule::ALL.into_iter().flat_map(move |other| before(other).map(move |rule| (rule, other)))
}

/// Whether two rules can be broken in one store. E, F and G count as kept where B or C is broken.
pub fn can_break((first, second): Pair) -> bool {
    !(matches!(first, Rule::B | Rule::C) && second >= Rule::E)
}

/// The name of the counter of a pair.
pub fn pair_name((first, second): Pair) -> String {
    format!("{first:?} and {second:?} in one store")
}

fn size_name(size: usize) -> String {
    format!("{size} of the rules in one store")
}

/// Counts the rules of one store.
pub fn count(reached: &mut Reached, rules: &Broken) {
    reached.count(size_name(rules.len()));
    let both = |(first, second): &Pair| rules.contains(first) && rules.contains(second);
    pairs().filter(both).for_each(|pair| reached.count(pair_name(pair)));
}

/// What must have come: one to four rules at once, and these pairs.
pub fn required(pairs: impl Iterator<Item = Pair>) -> Vec<String> {
    (1..=4).map(size_name).chain(pairs.map(pair_name)).collect()
}

/// Fails if two rules were broken in one store that cannot be.
pub fn none_but_possible(reached: &Reached) {
    for pair in pairs().filter(|pair| !can_break(*pair)) {
        assert_eq!(reached.times(&pair_name(pair)), 0, "{}", pair_name(pair));
    }
}
