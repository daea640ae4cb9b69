//! Merge by weight: the trigger for all small cases, what a link's number counts, and that the judge sees a wrong one.

use crate::build::{lent_of, serve, store_of};
use reference::generate::requests::{delete, flush, put, report, tidy};
use reference::implementation::{Implementation, Reference};
use reference::judge::Judge;
use reference::lent::{Lent, LINK_NUMBER, ROW_LINKS};
use reference::rules::check;
use reference::store::{Link, Place, Store};
use reference::table::{Entries, Entry, Key};
use reference::tidy::{Cause, Step};
use reference::trial::{Eyes, Trial};

/// A store with a table of so many entries on a level in place 0, and from place 1 on a frozen table for each of these numbers,
/// of as many entries, that hangs on it whole.
fn loaded(threshold: usize, level: usize, own: u64, numbers: &[u64]) -> Store {
    let keys: Vec<Key> = (100..100 + own).collect();
    let mut store = store_of(16, threshold, &[(level, &keys)]);
    let mut hung = Vec::new();
    for (place, number) in (1..).zip(numbers) {
        let table: Entries = (0..*number).map(|key| (key, Entry::DeleteMark)).collect();
        store.settle_frozen(place, table);
        hung.push(Link { place, low: 0, high: 50, number: *number as usize });
    }
    if let Place::Live { links, .. } = &mut store.places[0] {
        *links = hung;
    }
    store
}

/// Thresholds, own entry counts and numbers: up to T links, all of one entry but the last, which has any number.
fn cases() -> Vec<(usize, u64, Vec<u64>)> {
    let links = (1..=8).flat_map(|threshold| (1..=threshold).map(move |links| (threshold, links)));
    let counts = || (1..=16).flat_map(|own| (1..=16).map(move |last| (own, last)));
    let cases = links.flat_map(|(threshold, links)| {
        counts().map(move |(own, last)| (threshold, own, [vec![1; links - 1], vec![last]].concat()))
    });
    cases.collect()
}

#[test]
fn due_by_count_or_weight_and_not_otherwise() {
    let (mut due, mut not_due) = (0, 0);
    for (threshold, own, numbers) in cases() {
        let is_due = numbers.len() >= threshold || numbers.iter().sum::<u64>() >= own;
        let merged = Step::Merged { level: 1, place: 0, cause: Cause::Due };
        let expected = if is_due { merged } else { Step::Idle };
        assert_eq!(loaded(threshold, 1, own, &numbers).name_step(), expected);
        *(if is_due { &mut due } else { &mut not_due }) += 1;
    }
    assert_eq!(due + not_due, 36 * 256);
    assert!(due > 1000 && not_due > 1000, "{due} due, {not_due} not");
}

#[test]
fn both_implementations_take_the_edges_alike() {
    let subject = Reference::default();
    for level in 1..=3 {
        for (own, numbers) in [(3, &[1, 2][..]), (4, &[1, 2]), (1, &[1]), (2, &[1]), (16, &[1, 15])]
        {
            let lent = loaded(4, level, own, numbers).encode();
            assert_eq!(check(&lent).number, 0);
            let mut trial = Trial::of_sound_store(&subject, Eyes::WholeBook, lent);
            assert!(trial.run(&tidy(), 1024).is_ok(), "{own} and {numbers:?}");
        }
    }
}

#[test]
fn the_number_counts_delete_marks_and_hidden_entries() {
    let mut lent = lent_of(16, 8, &[(1, &[100, 110, 120, 130])]);
    serve(&mut lent, &[put(5, b"old"), delete(6), delete(7), flush()]);
    serve(&mut lent, &[put(5, b"new"), flush(), put(8, b""), flush(), tidy()]);
    let links = |lent: &Lent| Store::decode(lent).expect("sound").live(0).1.to_vec();
    let link = |place, number| Link { place, low: 0, high: Key::MAX, number };
    assert_eq!(links(&lent), [link(1, 3)]);
    serve(&mut lent, &[put(9, b""), flush(), tidy()]);
    assert_eq!(links(&lent), [link(1, 3), link(2, 1)]);
    // Four of four, with three keys and one value.
    let answers = serve(&mut lent, &[tidy()]).answers;
    assert_eq!(answers[6..], [3, 0, 1, 0]);
}

#[test]
fn the_judge_sees_a_wrong_number_without_looking_at_soundness() {
    let before = loaded(4, 1, 9, &[3, 2]).encode();
    let followed = |number: u64| {
        let mut after = before.clone();
        let mut answers = vec![0; 1024];
        let ran = Reference::default().run(&mut after, &report(), &mut answers);
        after.cards[0][ROW_LINKS + LINK_NUMBER] = number;
        let mut judge = Judge::of_sound_store(&before).with_soundness_every(2);
        judge.follow(&report(), &ran, &answers, &after).map(|_| ())
    };
    assert_eq!(followed(3), Ok(()));
    for number in [0, 2, 4, 5, 3 + (1 << 32), u64::MAX] {
        assert!(followed(number).is_err_and(|words| words.contains("links")), "{number}");
    }
}
