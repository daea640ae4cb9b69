//! The table of refused runs and requests: each row's small example, the order of the numbers, and
//! that a refusal changes nothing.

use crate::build::{hex, lent_of, new_lent, serve};
use crate::common::announce;
use reference::generate::broken::BREAKAGES;
use reference::generate::random::Random;
use reference::generate::requests::{flush, look_up, put, request, scan, tidy};
use reference::lent::{Lent, HEAD_THRESHOLD, ROW_FREE};
use reference::limits::{LIST_BYTES, VALUE_BYTES};
use reference::rules::{check, Rule};
use reference::run::{make, run};
use reference::table::Key;

/// Runs, and shows that a refused run serves nothing, writes nothing and changes nothing.
fn refused_number(lent: &Lent, list: &[u8], room: usize) -> u16 {
    let mut after = lent.clone();
    let outcome = run(&mut after, list, room);
    assert_eq!((outcome.served, outcome.answers.len()), (0, 0));
    assert_eq!(&after, lent);
    outcome.number
}

/// Images of wrong sizes.
fn misshapen() -> Vec<(&'static str, Lent)> {
    let with = |change: fn(&mut Lent)| {
        let mut lent = new_lent(16, 4);
        change(&mut lent);
        lent
    };
    vec![
        ("area of 15,000 bytes", with(|lent| lent.area.truncate(15_000))),
        ("15 places", Lent::zeroed(15)),
        ("no place", Lent::zeroed(0)),
        ("4,097 places", Lent::zeroed(4097)),
        ("a byte too many", with(|lent| lent.area.push(0))),
        ("a card too few", with(|lent| lent.cards.truncate(15))),
        ("a card too many", with(|lent| lent.cards.push(ROW_FREE))),
        ("a list item too few", with(|lent| lent.lists.truncate(63))),
        ("a list item too many", with(|lent| lent.lists.push(0))),
    ]
}

#[test]
fn number_1_for_every_wrong_size() {
    for (name, mut lent) in misshapen() {
        assert_eq!(check(&lent).number, 1, "{name}");
        // 1 comes before 2, 3 and 4.
        assert_eq!(refused_number(&lent, &[3, 0, 5, 0], 0), 1, "{name}");
        let before = lent.clone();
        assert_eq!(make(&mut lent, 0), 1, "{name}");
        assert_eq!(lent, before, "{name}");
    }
    for places in [16, 4096] {
        assert_eq!(make(&mut Lent::zeroed(places), 1), 0);
    }
}

#[test]
fn number_2_for_a_threshold_outside_1_to_8() {
    for threshold in [0, 9, 257, u64::MAX] {
        let mut lent = Lent::zeroed(16);
        assert_eq!(make(&mut lent, threshold), 2);
        assert_eq!(lent, Lent::zeroed(16));
    }
    for threshold in 1..=8 {
        assert_eq!(make(&mut Lent::zeroed(16), threshold), 0);
    }
}

#[test]
fn number_3_for_an_answer_buffer_under_1024_bytes() {
    let lent = new_lent(16, 4);
    assert_eq!(refused_number(&lent, &flush(), 1023), 3);
    // 3 comes before 4 and 5.
    let mut unsound = new_lent(16, 4);
    unsound.head[HEAD_THRESHOLD] = 9;
    assert_eq!(refused_number(&unsound, &[3, 0, 5, 0], 1023), 3);
    assert_eq!(run(&mut new_lent(16, 4), &flush(), 1024).served, 1);
}

#[test]
fn number_4_for_each_kind_of_broken_list() {
    let lent = new_lent(16, 4);
    let mut unsound = lent.clone();
    unsound.head[HEAD_THRESHOLD] = 9;
    let mut random = Random::new(4);
    for (name, breakage) in BREAKAGES {
        let list = breakage(&mut random);
        assert_eq!(refused_number(&lent, &list, 1 << 20), 4, "{name}");
        // 4 comes before 5.
        assert_eq!(refused_number(&unsound, &list, 1 << 20), 4, "{name}");
    }
    let longest = flush().repeat(LIST_BYTES / 4);
    assert_eq!(run(&mut lent.clone(), &longest, 1 << 20).served, LIST_BYTES / 4);
    announce(&format!("{} kinds of broken lists refused", BREAKAGES.len()));
}

#[test]
fn number_5_for_a_threshold_of_9_in_the_book() {
    let mut lent = new_lent(16, 4);
    lent.head[HEAD_THRESHOLD] = 9;
    let outcome = run(&mut lent, &flush(), 1024);
    assert_eq!(outcome.number, 5);
    assert_eq!(outcome.broken, [Rule::A].into());
    assert_eq!(refused_number(&lent, &[], 1024), 5);
}

/// Serves one request that is refused by its number: six bytes, and the store stays as it was.
fn refusal(lent: &Lent, list: Vec<u8>) -> Vec<u8> {
    let mut after = lent.clone();
    let answers = serve(&mut after, &[list]).answers;
    assert_eq!(&after, lent);
    answers
}

#[test]
fn numbers_16_and_17_in_this_order() {
    let lent = new_lent(16, 4);
    assert_eq!(refusal(&lent, request(99, &[])), hex("06 00 63 00 10 00"));
    assert_eq!(refusal(&lent, request(0, &[1; 300])), hex("06 00 00 00 10 00"));
    assert_eq!(refusal(&lent, request(0x0108, &[])), hex("06 00 08 01 10 00"));
    assert_eq!(refusal(&lent, request(1, &[0; 7])), hex("06 00 01 00 11 00"));
    assert_eq!(refusal(&lent, request(1, &[0; 8 + VALUE_BYTES + 1])), hex("06 00 01 00 11 00"));
    assert_eq!(refusal(&lent, request(4, &[255; 15])), hex("06 00 04 00 11 00"));
    assert_eq!(refusal(&lent, request(6, &[0])), hex("06 00 06 00 11 00"));
    for length in [0, 7, 9, 16] {
        assert_eq!(refusal(&lent, request(8, &vec![0; length])), hex("06 00 08 00 11 00"));
    }
    assert_eq!(refusal(&lent, request(9, &[0; 8])), hex("06 00 09 00 10 00"));
}

#[test]
fn number_18_for_the_17th_key() {
    let mut lent = new_lent(16, 4);
    // The key is in a table below, but new to the memory.
    serve(&mut lent, &[put(99, b"old"), flush()]);
    serve(&mut lent, &(0..16).map(|key| put(key, &[])).collect::<Vec<_>>());
    assert_eq!(refusal(&lent, put(99, &[])), hex("06 00 01 00 12 00"));
    // 17 comes before 18.
    assert_eq!(refusal(&lent, request(1, &[9; 8 + VALUE_BYTES + 1])), hex("06 00 01 00 11 00"));
}

#[test]
fn number_19_for_a_scan_from_7_to_6() {
    let lent = new_lent(16, 4);
    assert_eq!(refusal(&lent, scan(7, 6)), hex("06 00 04 00 13 00"));
    assert_eq!(refusal(&lent, scan(Key::MAX, 0)), hex("06 00 04 00 13 00"));
}

#[test]
fn number_20_for_a_flush_with_no_place_free() {
    let mut lent = new_lent(16, 4);
    for key in 0..16 {
        serve(&mut lent, &[put(key, &[]), flush()]);
    }
    // Nothing to write wants no place.
    assert_eq!(refusal(&lent, flush()), hex("06 00 05 00 41 00"));
    serve(&mut lent, &[put(5, &[])]);
    assert_eq!(refusal(&lent, flush()), hex("06 00 05 00 14 00"));
}

/// A full store: three tables with sixteen keys each on level 1, the rest on level 0.
fn full_store(threshold: usize) -> Lent {
    let wide: Vec<Vec<Key>> =
        (0..3).map(|table| (0..16).map(|key| table * 1000 + key).collect()).collect();
    let mut tables: Vec<(usize, &[Key])> = wide.iter().map(|keys| (1, &keys[..])).collect();
    tables.extend(std::iter::repeat_n((0, &[5, 1005, 2005][..]), 13));
    lent_of(16, threshold, &tables)
}

#[test]
fn number_20_for_a_due_merge_with_no_place_free() {
    let mut lent = full_store(1);
    serve(&mut lent, &[tidy()]);
    // The old table and the frozen one would be freed, but that doesn't count.
    assert_eq!(refusal(&lent, tidy()), hex("06 00 06 00 14 00"));
}

#[test]
fn a_request_refused_does_not_end_the_run() {
    let mut lent = new_lent(16, 4);
    let answers =
        serve(&mut lent, &[request(99, &[]), put(1, b"v"), scan(2, 1), look_up(1)]).answers;
    let expected = "06006300 1000  06000100 0000  06000400 1300  07000300 0000 76";
    assert_eq!(answers, hex(expected));
}

#[test]
fn a_run_stops_before_every_position() {
    let requests: Vec<Vec<u8>> = (0..12).map(|key| put(key, &[])).collect();
    for position in 1..12 {
        // Each reply has six bytes, so this leaves 1,023 before the request at this position.
        let room = 1023 + 6 * position;
        let mut stopped = new_lent(16, 4);
        let outcome = run(&mut stopped, &requests.concat(), room);
        assert_eq!(
            (outcome.number, outcome.served, outcome.answers.len()),
            (0, position, 6 * position)
        );
        let mut shorter = new_lent(16, 4);
        serve(&mut shorter, &requests[..position]);
        assert_eq!(stopped, shorter);
        assert_eq!(run(&mut new_lent(16, 4), &requests.concat(), room + 1).served, position + 1);
    }
}
