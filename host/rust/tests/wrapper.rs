//! The wrapper beside a map, and its errors and limits.

mod common;

use common::{linked, Random};
use std::collections::BTreeMap;
use zilgwern::*;

/// Makes room for a new key: flushes, and tidies while there is something to do. Gives the number of steps.
fn make_room(store: &mut Store) -> usize {
    assert_eq!(store.flush(), Ok(true));
    let mut tidy = || store.tidy().expect("a store of this size does not fill");
    std::iter::from_fn(&mut tidy).count()
}

#[test]
fn a_map_and_the_store_stay_alike() {
    let mut store = Store::owned(64, 2).unwrap();
    let mut map = BTreeMap::new();
    let mut random = Random(1);
    let (mut full, mut steps) = (0, 0);
    for round in 0..2000 {
        let key = Key(random.below(200));
        let value = vec![round as u8; random.below(VALUE_BYTES as u64 + 1) as usize];
        let done = match random.below(4) {
            0 => store.delete(key).map(|()| map.remove(&key)),
            _ => store.put(key, &value).map(|()| map.insert(key, value)),
        };
        if let Err(error) = done {
            assert_eq!(error, Error::Request(Refusal::MemoryFull));
            full += 1;
            steps += make_room(&mut store);
        }
        assert_eq!(store.look_up(key).unwrap().as_ref(), map.get(&key));
        if round % 100 == 0 {
            let all: Result<Vec<_>, _> = store.range(Key::LEAST, Key::GREATEST).collect();
            let expected: Vec<_> = map.iter().map(|(key, value)| (*key, value.clone())).collect();
            assert_eq!(all.unwrap(), expected);
        }
    }
    assert!(full > 50 && steps > 50 && map.len() > 100);
    assert_eq!(store.check(), Ok(()));
}

#[test]
fn ranges_end_where_they_should() {
    let mut store = Store::owned(16, 4).unwrap();
    let keys = |store: &mut Store, low: u64, high: u64| -> Vec<u64> {
        store.range(low, high).map(|found| found.unwrap().0 .0).collect()
    };
    assert!(keys(&mut store, 0, u64::MAX).is_empty());
    let ends: Vec<u64> = (0..16).map(|key| u64::MAX - 15 + key).collect();
    ends.iter().for_each(|key| store.put(*key, b"").unwrap());
    assert_eq!(keys(&mut store, 0, u64::MAX), ends);
    store.flush().unwrap();
    store.put(0, b"").unwrap();
    assert_eq!(keys(&mut store, 0, u64::MAX), [&[0], &ends[..]].concat());
    assert_eq!(keys(&mut store, u64::MAX, u64::MAX), [u64::MAX]);
    let refused: Vec<_> = store.range(7, 6).collect();
    assert_eq!(refused, [Err(Error::Request(Refusal::WrongRange))]);
}

#[test]
fn long_lists_are_run_to_their_end() {
    let mut store = Store::owned(16, 4).unwrap();
    let mut list = List::new();
    for key in 0..16u64 {
        list.put(key, &[b'v'; VALUE_BYTES]).unwrap();
    }
    while list.scan(0, 15).is_ok() {}
    assert_eq!(list.scan(0, 15).err(), Some(ListError::Full));
    let replies = store.run(&list).unwrap();
    assert_eq!(replies.len(), list.len());
    assert!(list.len() > 3000);
    let page = replies.last().unwrap();
    assert!(replies[16..].iter().all(|reply| reply == page));
    let Reply::Page(Page { values, more: false }) = page else { panic!("{page:?}") };
    assert_eq!(values.len(), 16);
}

#[test]
fn refusals_are_named() {
    let number =
        |result: Result<(), Error>| result.map_err(|error| (error.number(), error.to_string()));
    let sizes = number(Store::owned(4097, 4).map(|_| ()));
    assert_eq!(sizes.unwrap_err().0, 1);
    // So many that there is no such memory, or that the number of bytes has no 64 bits.
    for places in [0, 15, 1 << 40, 1 << 54, usize::MAX] {
        let refused = Store::owned(places, 9).err();
        assert_eq!(refused, Some(Error::Refused(Refused::Sizes)), "{places}");
    }
    let threshold = number(Store::owned(16, 9).map(|_| ()));
    assert_eq!(threshold.unwrap_err(), (2, "2: threshold outside 1 to 8".into()));
    let mut store = Store::owned(16, 4).unwrap();
    assert_eq!(store.run_bytes(&[], &mut [0; 1023]), Err(Refused::ShortAnswer));
    assert_eq!(store.run_bytes(&[3, 0, 5, 0], &mut [0; 1024]), Err(Refused::BrokenList));
    assert_eq!(number(store.put(1, &[0; VALUE_BYTES + 1])).unwrap_err().0, 17);
    (0..16u64).for_each(|key| store.put(key, b"").unwrap());
    assert_eq!(number(store.put(16, b"")).unwrap_err().0, 18);
    assert_eq!(store.put(15, b"again"), Ok(()));
    assert_eq!(
        number(store.scan(7, 6).map(|_| ())).unwrap_err(),
        (19, "19: scan with low above high".into())
    );
    let mut memory = Memory::zeroed(16);
    Store::make(memory.lend(), 4).unwrap();
    memory.head[0] = 9;
    let before = memory.clone();
    let error = Store::open(memory.lend()).err().unwrap();
    assert_eq!(error, Error::Refused(Refused::NotSound(Rule::A)));
    assert_eq!(memory, before);
}

#[test]
fn a_full_store_refuses_by_20_and_steps_are_told() {
    let mut store = Store::owned(16, 4).unwrap();
    for key in 0..16u64 {
        store.put(key, b"v").unwrap();
        assert_eq!(store.flush(), Ok(true));
    }
    assert_eq!(store.flush(), Ok(false));
    store.put(99, b"v").unwrap();
    assert_eq!(store.flush(), Err(Error::Request(Refusal::NoPlace)));
    let report = Report { free: 0, live: [16, 0, 0, 0], frozen: 0, links: 0, memory: 1 };
    assert_eq!(store.report(), Ok(report));
    assert_eq!(store.tidy(), Ok(Some(Stepped { step: Step::Moved, level: 0 })));
    assert_eq!(store.tidy(), Ok(Some(Stepped { step: Step::Linked, level: 0 })));
    let report = Report { live: [14, 1, 0, 0], frozen: 1, links: 1, ..report };
    assert_eq!(store.report(), Ok(report));
    // The table has one entry and its link another, so its merge is due, and no place is free for it.
    assert_eq!(store.tidy(), Err(Error::Request(Refusal::NoPlace)));
    assert_eq!(store.report(), Ok(report));
}

#[test]
fn a_wrong_number_of_a_link_breaks_rule_e_and_one_beyond_the_links_rule_g() {
    let mut memory = linked();
    let good = memory.clone();
    // State and link count, then place, low, high and number of each link.
    assert_eq!(memory.cards[0][..6], [1, 1, 1, 0, u64::MAX, 2]);
    let wrong = [0, 1, 3, 16, 1 << 32 | 2, u64::MAX].map(|number| (5, number, Rule::E));
    for (word, number, rule) in wrong.into_iter().chain([(9, 2, Rule::G), (33, 1, Rule::G)]) {
        memory.cards[0][word] = number;
        let damaged = memory.clone();
        let error = Store::open(memory.lend()).err();
        assert_eq!(error, Some(Error::Refused(Refused::NotSound(rule))), "{word}: {number}");
        assert_eq!(memory, damaged);
        memory = good.clone();
    }
    assert!(Store::open(memory.lend()).is_ok());
}

/// The entries that a table's links hold, counted in the frozen tables.
fn held(view: &View, table: &Table) -> usize {
    let frozen = |place| view.frozen.iter().find(|frozen| frozen.place == place).unwrap();
    let count = |link: &Link| {
        let entries = frozen(link.place).entries.iter();
        let count = entries.filter(|entry| link.holds(entry.key)).count();
        assert_eq!(link.number, count);
        count
    };
    table.links.iter().map(count).sum()
}

/// The first table of which a merge is due, in the order's words: its level, its place, and whether it has T links.
fn first_due(view: &View) -> Option<(u16, usize, bool)> {
    let tables = (1..4).flat_map(|level| view.levels[level].iter().map(move |it| (level, it)));
    let mut due = tables.filter(|(_, table)| {
        let many = table.links.len() as u64 == view.threshold;
        let due = many || held(view, table) >= table.entries.len();
        assert_eq!(view.is_due(table), due);
        due
    });
    due.next().map(|(level, it)| (level as u16, it.place, it.links.len() as u64 == view.threshold))
}

#[test]
fn a_tidy_merges_the_first_table_that_is_due_by_links_or_by_weight() {
    let mut store = Store::owned(256, 3).unwrap();
    let mut random = Random(7);
    let (mut by_links, mut by_weight) = (0, 0);
    for round in 0..300 {
        for _ in 0..1 + random.below(16) {
            let key = random.below(1500);
            match random.below(4) {
                0 => store.delete(key).unwrap(),
                _ => store.put(key, &[round as u8]).unwrap(),
            }
        }
        assert_eq!(store.flush(), Ok(true));
        loop {
            let due = first_due(&store.view());
            let stepped = store.tidy().expect("a store of this size does not fill");
            let Some((level, place, many)) = due else {
                if stepped.is_none() {
                    break;
                }
                continue;
            };
            assert_eq!(stepped, Some(Stepped { step: Step::Merged, level }));
            // What was merged is free; its results stand elsewhere.
            assert!(store.view().levels.iter().flatten().all(|table| table.place != place));
            *if many { &mut by_links } else { &mut by_weight } += 1;
        }
    }
    assert!(by_links > 50 && by_weight > 50, "{by_links} {by_weight}");
}
