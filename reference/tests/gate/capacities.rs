//! Capacities without a list (note 7): the three that document 01 lists, cases by name of which level a tidy relieves, and which slips
//! show in them.

use crate::common::announce;
use reference::generate::relieved;
use reference::generate::sketch::Case;
use reference::implementation::Reference;
use reference::limits::capacity;
use reference::slip::Slip;
use reference::trial::Eyes;

/// Makes a test of each case of `relieved`, and a list of all by name.
macro_rules! tests {
    ($($name:ident)*) => {
        $(
            #[test]
            fn $name() {
                for (number, case) in relieved::$name().iter().enumerate() {
                    let held = case.hold(&Reference::default(), Eyes::WholeBook);
                    assert_eq!(held, Ok(()), "case {number}");
                }
            }
        )*

        const CASES: &[(&str, fn() -> Vec<Case>)] = &[$((stringify!($name), relieved::$name)),*];
    };
}

reference::every_relieved_case!(tests);

#[test]
fn the_capacities_are_those_of_document_01() {
    assert_eq!([0, 1, 2].map(capacity), [2, 8, 32]);
}

#[test]
#[should_panic(expected = "level 3 has no capacity")]
fn nobody_asks_for_a_capacity_of_level_3() {
    capacity(3);
}

/// Slips in the capacities, and in how levels are compared by them.
const IN_CAPACITIES: [Slip; 6] = [
    Slip::CapacityShiftedOnce,
    Slip::CapacityFromLevelOne,
    Slip::LastLevelHasCapacity,
    Slip::CapacityReachedIsAbove,
    Slip::RatiosAsWholeNumbers,
    Slip::TiesToHigherLevel,
];

/// The names of the functions that give a case which does not hold with a slip.
fn shows_in(slip: Slip) -> Vec<&'static str> {
    let subject = Reference { slip: Some(slip) };
    let fails = |case: &Case| case.hold(&subject, Eyes::Comparison).is_err();
    CASES.iter().filter(|(_, cases)| cases().iter().any(fails)).map(|(name, _)| *name).collect()
}

#[test]
fn every_slip_in_capacities_shows_in_a_case_by_name_and_every_case_fails_with_one() {
    let mut shown = Vec::new();
    for slip in IN_CAPACITIES {
        let names = shows_in(slip);
        announce(&format!("{slip:?} shows in {} of {} cases", names.len(), CASES.len()));
        assert!(!names.is_empty(), "{slip:?} shows in none");
        shown.extend(names);
    }
    let without = CASES.iter().find(|(name, _)| !shown.contains(name));
    assert_eq!(without.map(|(name, _)| *name), None, "holds with every slip");
}
