//! Which delete marks a merge drops (document 02, note 5), as the wrapper's view tells it before and shows it afterwards.

mod common;

use common::Random;
use std::collections::BTreeMap;
use zilgwern::{Key, Step, Store, Table, View};

/// What a table and its links hold, the newer winning; a delete mark has no value.
fn gathered(view: &View, table: &Table) -> BTreeMap<Key, Option<Vec<u8>>> {
    let frozen = |place: usize| view.frozen.iter().find(|table| table.place == place).unwrap();
    let slices = table
        .links
        .iter()
        .flat_map(|link| frozen(link.place).entries.iter().filter(|entry| link.holds(entry.key)));
    let all = table.entries.iter().chain(slices);
    all.map(|entry| (entry.key, entry.value.clone())).collect()
}

/// Whether a table's own keys and range ends lie on both sides of a key, or on it.
fn spans(table: &Table, key: Key) -> bool {
    let ends = || {
        let own = table.entries.iter().map(|entry| entry.key);
        own.chain(table.links.iter().flat_map(|link| [link.low, link.high]))
    };
    ends().any(|end| end <= key) && ends().any(|end| key <= end)
}

#[test]
fn a_merge_drops_the_marks_that_no_span_below_holds() {
    let mut store = Store::owned(256, 3).unwrap();
    let mut random = Random(11);
    let (mut dropped, mut kept) = ([0; 4], [0; 4]);
    for round in 0..400 {
        for _ in 0..1 + random.below(16) {
            let key = random.below(1500);
            match random.below(5) {
                0 | 1 => store.delete(key).unwrap(),
                _ => store.put(key, &[round as u8]).unwrap(),
            }
        }
        assert_eq!(store.flush(), Ok(true));
        loop {
            let before = store.view();
            let Some(stepped) = store.tidy().expect("a store of this size does not fill") else {
                break;
            };
            if stepped.step != Step::Merged {
                continue;
            }
            let (after, level) = (store.view(), usize::from(stepped.level));
            let stands =
                |table: &&Table| after.levels[level].iter().all(|it| it.place != table.place);
            let merged =
                before.levels[level].iter().find(stands).expect("the merged table is gone");
            let mut expected = gathered(&before, merged);
            expected.retain(|key, value| {
                let stays = before.levels[level + 1..].iter().flatten().any(|it| spans(it, *key));
                assert_eq!(before.drops_mark(level, *key), !stays);
                if value.is_none() {
                    *if stays { &mut kept[level] } else { &mut dropped[level] } += 1;
                }
                value.is_some() || stays
            });
            let old =
                |table: &&Table| before.levels[level].iter().all(|it| it.place != table.place);
            let new = after.levels[level].iter().filter(old).flat_map(|table| &table.entries);
            let came: BTreeMap<_, _> = new.map(|entry| (entry.key, entry.value.clone())).collect();
            assert_eq!(came, expected);
        }
    }
    println!("delete marks dropped on levels 1 to 3 {:?}, kept {:?}", &dropped[1..], &kept[1..]);
    assert!(dropped[1..].iter().chain(&kept[1..3]).all(|count| *count > 20) && kept[3] == 0);
}

#[test]
fn a_survey_that_is_deleted_gives_its_places_back() {
    let mut store = Store::owned(16, 4).unwrap();
    (0..16).for_each(|key| store.put(key, b"crack").unwrap());
    store.flush().unwrap();
    (0..16).for_each(|key| store.delete(key).unwrap());
    store.flush().unwrap();
    for key in [100, 101] {
        store.put(key, b"joint").unwrap();
        store.flush().unwrap();
    }
    assert_eq!((store.view().free(), store.view().delete_marks(0)), (12, 16));
    let steps: Vec<Step> = std::iter::from_fn(|| store.tidy().unwrap().map(|it| it.step)).collect();
    assert_eq!(steps, [Step::Moved, Step::Linked, Step::Merged]);
    let view = store.view();
    assert_eq!(view.levels.iter().map(Vec::len).collect::<Vec<_>>(), [2, 0, 0, 0]);
    assert_eq!((view.free(), view.delete_marks(0) + view.delete_marks(1)), (14, 0));
}
