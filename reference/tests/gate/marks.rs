//! Which delete marks a merge drops (note 5): cases by name, which slips show in them, and that it
//! makes no difference whether spans are read before the merge or after it.

use crate::common::{announce, on_two_threads};
use reference::generate::descent::{self, descent};
use reference::generate::keys::Keys;
use reference::generate::marked;
use reference::generate::planted::planted_with_marks;
use reference::generate::profile::{Source, DELETING};
use reference::generate::random::Random;
use reference::generate::requests::tidy;
use reference::generate::sketch::Case;
use reference::implementation::Reference;
use reference::judge::met;
use reference::lent::Lent;
use reference::reached::Reached;
use reference::run::{make, run};
use reference::slip::Slip;
use reference::store::Store;
use reference::table::{Entry, Key};
use reference::tidy::Step;
use reference::trial::{Eyes, Trial};

/// Makes a test of each case of `marked`, and a list of all by name.
macro_rules! tests {
    ($($name:ident)*) => {
        $(
            #[test]
            fn $name() {
                hold(&marked::$name());
            }
        )*

        const CASES: &[(&str, fn() -> Vec<Case>)] = &[$((stringify!($name), marked::$name)),*];
    };
}

reference::every_marked_case!(tests);

fn hold(cases: &[Case]) {
    for (number, case) in cases.iter().enumerate() {
        let held = case.hold(&Reference::default(), Eyes::WholeBook);
        assert_eq!(held, Ok(()), "case {number}");
    }
}

/// Slips in which delete marks a merge drops, or in what that comes to.
const IN_MARKS: [Slip; 11] = [
    Slip::EveryMarkDropped,
    Slip::NeedCountedBeforeMarksGo,
    Slip::MarksGoBeforeNewerWins,
    Slip::MarksGoOnLevel3Alone,
    Slip::MarksStayOnLevel3,
    Slip::OwnLevelLowerLying,
    Slip::NextLevelAloneAsked,
    Slip::OneFreeLevelIsEnough,
    Slip::SpanOfOwnKeys,
    Slip::SpanOfSingleRanges,
    Slip::SpanOfExactKeys,
];

/// Which of these cases don't hold with a slip.
fn failing(slip: Slip, cases: &[Case]) -> Vec<usize> {
    let subject = Reference { slip: Some(slip) };
    let fails = |number: &usize| cases[*number].hold(&subject, Eyes::Comparison).is_err();
    (0..cases.len()).filter(fails).collect()
}

#[test]
fn every_slip_in_delete_marks_shows_in_a_case_by_name() {
    for slip in IN_MARKS {
        let shows = |(_, cases): &&(&str, fn() -> Vec<Case>)| !failing(slip, &cases()).is_empty();
        let names: Vec<&str> = CASES.iter().filter(shows).map(|(name, _)| *name).collect();
        announce(&format!("{slip:?} shows in {} of {} cases", names.len(), CASES.len()));
        assert!(!names.is_empty(), "{slip:?} shows in none");
    }
}

#[test]
fn every_case_by_name_fails_with_some_slip() {
    // The last is for the case that is refused even without the marks that go.
    let slips = [&IN_MARKS[..], &[Slip::OldPlaceReused]].concat();
    for (name, cases) in CASES {
        let fails = slips.iter().any(|slip| !failing(*slip, &cases()).is_empty());
        assert!(fails, "{name} holds with every slip");
    }
}

#[test]
fn the_need_counted_before_marks_go_shows_on_every_level() {
    let cases = marked::marks_that_go_want_no_place();
    assert_eq!(failing(Slip::NeedCountedBeforeMarksGo, &cases), [0, 1, 2]);
}

/// The list on which the definition is compared, too.
#[test]
fn the_descent_drops_marks_on_levels_1_and_2() {
    let lent = Lent::zeroed(16);
    let subject = Reference::default();
    let trial = Trial::of_new_store(&subject, Eyes::WholeBook, lent, descent::THRESHOLD);
    let mut trial = trial.expect("made");
    trial.run(&descent(), 1 << 14).expect("judged right");
    assert_eq!(trial.reached.times("kind 6 with nothing to do"), 0);
    let names = ["dropped on 1", "kept on 1", "dropped on 2", "kept on 2"];
    let counts = names.map(|name| trial.reached.times(&format!("delete marks {name}")));
    assert_eq!(counts, [1, 15, 15, 0]);
    // Its probes open tables in most ways.
    let names = [met::PROBED_LINK_1, met::PROBED_ON_0, met::PROBED_MARK, met::ALL_IN_VAIN];
    assert!(names.iter().all(|name| trial.reached.times(name) > 0), "{}", trial.reached);
}

/// The keys of the entries that a merge of this table meets.
fn keys_met(store: &Store, place: usize) -> Vec<Key> {
    let (table, links) = store.live(place);
    let sliced = links.iter().flat_map(|link| store.frozen(link.place).range(link.low..=link.high));
    table.iter().chain(sliced).map(|(key, _)| *key).collect()
}

/// Does the merge that is due and asks both stores, before and after it, for what lies lower.
fn asks_before_and_after(store: &Store, level: usize, place: usize, reached: &mut Reached) {
    let mut after = store.clone();
    after.do_step(&store.name_step());
    let spans = |store: &Store| -> Vec<(usize, (Key, Key))> {
        let lower = store.levels[level + 1..].iter().flatten();
        lower.map(|place| (*place, store.span(*place))).collect()
    };
    assert_eq!(spans(&after), spans(store));
    for key in keys_met(store, place) {
        assert_eq!(after.drops_mark(level, key), store.drops_mark(level, key), "key {key}");
    }
    let marks = store.merged(level, place).values().filter(|it| **it == Entry::DeleteMark).count();
    if marks > 0 {
        reached.count(format!("merge on {level} that keeps marks"));
    }
    reached.count(format!("merge on {level}"));
}

/// A history of requests, each merge of which is looked at.
fn history(number: u64) -> Reached {
    let mut random = Random::new(number);
    let keys = [Keys::Dense(100), Keys::Edges(150), Keys::Wide(200)][number as usize % 3];
    let places = [16, 24, 48, 64][number as usize / 3 % 4];
    let mut lent = Lent::zeroed(places);
    make(&mut lent, 1 + number % 4);
    let planted = !number.is_multiple_of(8);
    if planted {
        lent = planted_with_marks(&mut random, places, keys).encode();
    }
    let mut source = Source::new(DELETING, keys, number);
    let mut reached = Reached::default();
    for _ in 0..if planted { 60 } else { 600 } {
        let request = source.request();
        if request == tidy() {
            let store = Store::decode(&lent).expect("sound");
            if let Step::Merged { level, place, .. } = store.name_step() {
                asks_before_and_after(&store, level, place, &mut reached);
            }
        }
        run(&mut lent, &request, 1024);
    }
    reached
}

/// No slip: a merge touches no lower-lying level.
#[test]
fn spans_read_after_the_merge_give_the_same_as_spans_read_before_it() {
    let numbers: Vec<u64> = (0..800).collect();
    let mut reached = Reached::requiring((1..4).map(|level| format!("merge on {level}")));
    on_two_threads(&numbers, |number| history(*number)).iter().for_each(|it| reached.add(it));
    announce(&format!("merges asked before and after:\n{reached}"));
    for level in 1..4 {
        assert!(reached.times(&format!("merge on {level}")) > 200, "{reached}");
    }
    for level in 1..3 {
        assert!(reached.times(&format!("merge on {level} that keeps marks")) > 200, "{reached}");
    }
}
