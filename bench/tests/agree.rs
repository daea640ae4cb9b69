//! All stores that are here give the same answers, a store that gives others is found, and the two survey stores leave the same bytes.

use bench::compare::{Expected, Sum};
use bench::engine::{Engine, SeeEntry, SeeValue, LOOK_UPS, PUTS, SCANS};
use bench::engines::{Kind, Second, KINDS};
use bench::lists::Listed;
use bench::proved::Proved;
use bench::rounds::{median, Measure, Plan};
use bench::setup::Setup;
use bench::workload::{Key, Lengths, Put, Value, Workload};
use reference::limits::VALUE_BYTES;
use std::collections::{BTreeMap, BTreeSet};

/// With keys for all levels of 256 places.
fn workload(seed: u64) -> Workload {
    Workload::uniform(seed, 1200, 500, 200)
}

fn agree(kinds: &[&Kind], workload: &Workload) {
    let plan = Plan {
        setup: Setup::of(256),
        workload,
        kinds,
        measures: &Measure::ALL,
        rounds: 2,
        repeats: 2,
        plain: false,
    };
    let times = plan.run(&mut |_| {}).unwrap();
    assert_eq!(times.len(), kinds.len());
    for (kind, times) in kinds.iter().zip(&times) {
        for measure in Measure::ALL {
            assert!(times.whole(measure).is_some_and(|time| time > 0.0), "{}", kind.title);
            let survey = ["zilgwern", "second"].contains(&kind.word);
            assert_eq!(times.own(measure).is_some(), survey, "{}", kind.title);
        }
    }
}

#[test]
fn all_stores_agree() {
    let here = |kind: &&Kind| {
        let there = (kind.open)(Setup::of(16)).is_some();
        if !there {
            println!("{} is skipped: the package {:?} is not installed", kind.title, kind.package);
        }
        there
    };
    let kinds: Vec<&Kind> = KINDS.iter().filter(here).collect();
    agree(&kinds, &workload(1));
    let mixed = Workload::of_lengths(Lengths::Mixed, 1, 1200, 500, 200);
    let lengths: BTreeSet<usize> = mixed.puts.iter().map(|(_, value)| value.len()).collect();
    assert_eq!(lengths, (0..=VALUE_BYTES).collect(), "values of every length");
    agree(&kinds, &mixed);
}

/// Keys are unsigned in the survey stores; in the others they must be made so.
#[test]
fn all_stores_agree_at_the_ends_of_the_key_range() {
    let middle: Key = 1 << 63;
    let keys = [0, 1, 255, 256, middle - 1, middle, middle + 1, Key::MAX - 1, Key::MAX];
    let workload = Workload {
        puts: keys.map(|key| (key, Value::of(&[key as u8 | 1; VALUE_BYTES]))).to_vec(),
        hits: keys.to_vec(),
        misses: vec![2, 257, middle - 2, middle + 2, Key::MAX - 2],
        scans: [keys.to_vec(), vec![2, middle - 2, middle + 2]].concat(),
    };
    let expected = Expected::of(&workload);
    for mut engine in KINDS.iter().filter_map(|kind| (kind.open)(Setup::of(16))) {
        engine.put(&workload.puts);
        expected.compare(&workload, &mut *engine).unwrap();
    }
}

#[test]
fn the_survey_stores_leave_the_same_bytes() {
    let workload = workload(5);
    let mut proved = Listed::new(Proved, 256);
    let mut second = Listed::new(Second, 256);
    for batch in workload.puts.chunks(300) {
        proved.put(batch);
        second.put(batch);
        assert_eq!(proved.lent().difference(second.lent()), None);
    }
    proved.settle();
    second.settle();
    assert_eq!(proved.lent().difference(second.lent()), None);
    let levels = &proved.lent().head[6..];
    assert!(levels.iter().all(|tables| *tables > 0), "tables on all levels: {levels:?}");
}

/// What a wrong store does wrong.
#[derive(Clone, Copy, PartialEq, Debug)]
enum Wrong {
    Nothing,
    KeepsTheOlderValue,
    ChangesTheMiddleOfAValue,
    ForgetsAKey,
    FindsWhatIsNotThere,
    ScansFromTheNextKey,
    ScansFifteen,
}

struct Faulty {
    wrong: Wrong,
    values: BTreeMap<Key, Value>,
}

impl Engine for Faulty {
    fn name(&self) -> &'static str {
        "faulty"
    }

    fn put(&mut self, batch: &[Put]) {
        for (key, value) in batch {
            match self.wrong {
                Wrong::KeepsTheOlderValue => drop(self.values.entry(*key).or_insert(*value)),
                _ => drop(self.values.insert(*key, *value)),
            }
        }
        let middle = self.values.len() / 2;
        let key = *self.values.keys().nth(middle).expect("a key");
        match self.wrong {
            Wrong::ChangesTheMiddleOfAValue => {
                let value = self.values.get_mut(&key).expect("there");
                let mut bytes = value.to_vec();
                bytes[20] ^= 1;
                *value = Value::of(&bytes);
            }
            Wrong::ForgetsAKey => drop(self.values.remove(&key)),
            _ => {}
        }
    }

    fn look_up(&mut self, keys: &[Key], see: &mut SeeValue) {
        for key in keys {
            let value = self.values.get(key).map(|value| &value[..]);
            match self.wrong {
                Wrong::FindsWhatIsNotThere => see(value.or(Some(&[0; VALUE_BYTES]))),
                _ => see(value),
            }
        }
    }

    fn scan(&mut self, from: &[Key], see: &mut SeeEntry) {
        let beyond = u64::from(self.wrong == Wrong::ScansFromTheNextKey);
        let most = if self.wrong == Wrong::ScansFifteen { 15 } else { 16 };
        for (number, low) in from.iter().enumerate() {
            for (key, value) in self.values.range(low.saturating_add(beyond)..).take(most) {
                see(number, *key, value);
            }
        }
    }
}

#[test]
fn a_wrong_store_is_found() {
    use Wrong::*;
    let workload = workload(2);
    let expected = Expected::of(&workload);
    let all = [
        Nothing,
        KeepsTheOlderValue,
        ChangesTheMiddleOfAValue,
        ForgetsAKey,
        FindsWhatIsNotThere,
        ScansFromTheNextKey,
        ScansFifteen,
    ];
    for wrong in all {
        let mut faulty = Faulty { wrong, values: BTreeMap::new() };
        faulty.put(&workload.puts);
        let found = expected.compare(&workload, &mut faulty);
        assert_eq!(found.is_err(), wrong != Nothing, "{wrong:?}: {found:?}");
    }
}

/// The sums that are compared while the clock runs must tell wrong answers too.
#[test]
fn a_wrong_store_ends_the_rounds() {
    static WRONG: [Kind; 2] = [
        Kind { word: "a", title: "a", package: None, open: &|_| faulty(Wrong::KeepsTheOlderValue) },
        Kind { word: "b", title: "b", package: None, open: &|_| faulty(Wrong::Nothing) },
    ];
    fn faulty(wrong: Wrong) -> Option<Box<dyn Engine>> {
        Some(Box::new(Faulty { wrong, values: BTreeMap::new() }))
    }
    let workload = workload(3);
    for (kind, measure, fails) in [
        (&WRONG[0], Measure::Hit, true),
        (&WRONG[0], Measure::Scan, true),
        (&WRONG[0], Measure::Miss, false),
        (&WRONG[1], Measure::Hit, false),
        (&WRONG[1], Measure::Scan, false),
    ] {
        let kinds = [kind];
        let plan = Plan {
            setup: Setup::of(16),
            workload: &workload,
            kinds: &kinds,
            measures: &[measure],
            rounds: 1,
            repeats: 1,
            // Without the comparison of whole answers.
            plain: true,
        };
        assert_eq!(plan.run(&mut |_| {}).is_err(), fails, "{} {measure:?}", kind.word);
    }
}

/// They see both ends of a value, whatever its length, and that there is one.
#[test]
fn sums_tell_values_apart() {
    let sum = |value: Option<&[u8]>| {
        let mut sum = Sum::default();
        sum.value(value);
        format!("{sum:?}")
    };
    let bytes: Vec<u8> = (1..=VALUE_BYTES as u8).collect();
    let mut sums = vec![sum(None), sum(Some(&[]))];
    for length in 1..=VALUE_BYTES {
        let value = &bytes[..length];
        let mut first = value.to_vec();
        first[0] ^= 0x80;
        let mut last = value.to_vec();
        last[length - 1] ^= 0x40;
        sums.extend([value, &first, &last].map(|value| sum(Some(value))));
    }
    assert_eq!(sums.iter().collect::<BTreeSet<_>>().len(), 2 + 3 * VALUE_BYTES);
}

#[test]
fn half_of_the_keys_are_put_twice() {
    let workload = workload(4);
    let (first, again) = workload.puts.split_at(1200);
    let keys = |puts: &[Put]| puts.iter().map(|(key, _)| *key).collect::<BTreeSet<Key>>();
    assert_eq!((keys(first).len(), again.len(), keys(again).len()), (1200, 600, 600));
    assert!(keys(again).is_subset(&keys(first)));
    assert!(workload.hits.iter().all(|key| keys(first).contains(key)));
    assert!(workload.misses.iter().all(|key| !keys(first).contains(key)));
    let values: BTreeSet<Value> = workload.puts.iter().map(|(_, value)| *value).collect();
    assert_eq!(values.len(), 1800, "no two values are the same");
}

#[test]
fn skewed_keys_follow_zipf() {
    let workload = Workload::skewed(5, 1000, 1, 1);
    let mut times: BTreeMap<Key, usize> = BTreeMap::new();
    workload.puts.iter().for_each(|(key, _)| *times.entry(*key).or_default() += 1);
    let mut times: Vec<usize> = times.into_values().collect();
    times.sort_unstable_by(|one, other| other.cmp(one));
    assert_eq!(workload.puts.len(), 1500);
    // The harmonic number of 1,000 is 7.485: the first key has 200 of 1,500 puts on average, the first ten have 587.
    assert!((150..=250).contains(&times[0]), "{}", times[0]);
    let ten: usize = times[..10].iter().sum();
    assert!((520..=650).contains(&ten), "{ten}");
}

#[test]
fn batches_fit_a_list() {
    // 16 of the longest puts, a flush and twelve tidies of 4 bytes each; look-ups of 12 bytes and scans of 20.
    let sixteen = 16 * (12 + VALUE_BYTES) + 4 + 12 * 4;
    let lists = [PUTS / 16 * sixteen, LOOK_UPS * 12, SCANS * 20];
    assert!(lists.iter().all(|bytes| *bytes <= 65_536), "{lists:?}");
    let one_more = [lists[0] + sixteen, lists[1] + 12, lists[2] + 20];
    assert!(one_more.iter().all(|bytes| *bytes > 65_536), "as many as fit: {one_more:?}");
}

#[test]
fn medians() {
    assert_eq!(median(&[]), None);
    assert_eq!(median(&[3.0, 1.0, 2.0]), Some(2.0));
    assert_eq!(median(&[4.0, 1.0, 3.0, 2.0]), Some(2.5));
}
