//! Refused requests and runs, runs that stop, and the empty list.

use crate::client::{list, Ask, Client, Reply};
use reference::limits::VALUE_BYTES;

/// The longest body of a put.
const PUT_BODY: usize = 8 + VALUE_BYTES;

#[test]
fn low_above_high_is_19() {
    let mut store = Client::new(16, 4);
    store.flush_table([6, 7], "v");
    assert_eq!(store.ask_in_vain(Ask::Scan(7, 6)), Reply::Not(19));
    assert_eq!(store.ask_in_vain(Ask::Scan(u64::MAX, 0)), Reply::Not(19));
}

#[test]
fn a_new_key_in_a_full_memory_is_18_and_a_repeated_one_done() {
    let mut store = Client::new(16, 4);
    // Key 99 stands in a table below, but it is new to the memory.
    store.flush_table([99], "v");
    let sixteen: Vec<Ask> = (0..16).map(|key| Ask::Put(key, "m")).collect();
    store.ask(&sixteen);
    assert_eq!(store.ask_in_vain(Ask::Put(16, "x")), Reply::Not(18));
    assert_eq!(store.ask_in_vain(Ask::Delete(16)), Reply::Not(18));
    assert_eq!(store.ask_in_vain(Ask::Put(99, "x")), Reply::Not(18));
    assert_eq!(store.ask_in_vain(Ask::Delete(99)), Reply::Not(18));
    let repeated = [
        Ask::Put(15, "y"),
        Ask::Delete(0),
        Ask::Put(0, "z"),
        Ask::LookUp(15),
        Ask::LookUp(0),
        Ask::Report,
    ];
    let expected = [
        Reply::Done,
        Reply::Done,
        Reply::Done,
        Reply::Value("y".into()),
        Reply::Value("z".into()),
        Reply::Counts([15, 1, 0, 0, 0, 0, 0, 16]),
    ];
    assert_eq!(store.ask(&repeated), expected);
}

#[test]
fn unknown_kinds_are_16_whatever_the_body() {
    let mut store = Client::new(16, 4);
    for kind in [0, 9, 10, 255, 256, 257, 258, 264, 65535] {
        for length in [0, 1, 8, 300] {
            assert_eq!(store.ask_in_vain(Ask::Odd(kind, length)), Reply::Not(16));
        }
    }
    let (_, answers) = store.run(&[4, 0, 0xFF, 0xFF], 1024);
    assert_eq!(answers, [6, 0, 0xFF, 0xFF, 16, 0]);
}

#[test]
fn wrong_body_lengths_are_17() {
    let mut store = Client::new(16, 4);
    let wrong: [(u16, &[usize]); 8] = [
        (1, &[0, 7, PUT_BODY + 1, PUT_BODY + 2, 300]),
        (2, &[0, 7, 9, 16]),
        (3, &[0, 7, 9, 16]),
        (4, &[0, 8, 15, 17, 24]),
        (5, &[1, 8]),
        (6, &[1, 8]),
        (7, &[1, 8, 16]),
        (8, &[0, 1, 7, 9, 16]),
    ];
    for (kind, lengths) in wrong {
        for length in lengths {
            assert_eq!(
                store.ask_in_vain(Ask::Odd(kind, *length)),
                Reply::Not(17),
                "{kind} {length}"
            );
        }
    }
    // The shortest and the longest put are good.
    assert_eq!(store.ask(&[Ask::Odd(1, 8), Ask::Odd(1, PUT_BODY)]), [Reply::Done, Reply::Done]);
}

#[test]
fn a_flush_of_an_empty_memory_is_65() {
    let mut store = Client::new(16, 4);
    assert_eq!(store.ask_in_vain(Ask::Flush), Reply::Not(65));
    store.flush_table([1], "v");
    assert_eq!(store.ask_in_vain(Ask::Flush), Reply::Not(65));
}

#[test]
fn a_flush_without_a_free_place_is_20() {
    let mut store = Client::new(16, 4);
    for key in 0..16 {
        store.flush_table([key], "v");
    }
    // Nothing to write wants no place.
    assert_eq!(store.ask_in_vain(Ask::Flush), Reply::Not(65));
    store.ask(&[Ask::Put(5, "new")]);
    assert_eq!(store.ask_in_vain(Ask::Flush), Reply::Not(20));
    let after = [Reply::Value("new".into()), Reply::Counts([0, 16, 0, 0, 0, 0, 0, 1])];
    assert_eq!(store.ask(&[Ask::LookUp(5), Ask::Report]), after);
}

#[test]
fn a_due_merge_without_a_free_place_is_20() {
    let mut store = Client::new(16, 1);
    store.flush_table([1], "a");
    store.flush_table([2], "b");
    store.flush_table([3], "c");
    assert_eq!(store.ask_one(Ask::Tidy), Reply::Step(1, 0));
    store.flush_table([4], "d");
    assert_eq!(store.ask_one(Ask::Tidy), Reply::Step(2, 0));
    for key in 10..22 {
        store.flush_table([key], "v");
    }
    assert_eq!(store.ask_one(Ask::Report), Reply::Counts([0, 14, 1, 0, 0, 1, 1, 0]));
    // It would free two places, but those don't count.
    assert_eq!(store.ask_in_vain(Ask::Tidy), Reply::Not(20));
    assert_eq!(store.ask_in_vain(Ask::Tidy), Reply::Not(20));
    let reads = [Ask::LookUp(1), Ask::LookUp(2)];
    assert_eq!(store.ask(&reads), [Reply::Value("a".into()), Reply::Value("b".into())]);
}

#[test]
fn a_refused_request_does_not_end_the_run() {
    let mut store = Client::new(16, 4);
    let asks = [Ask::Odd(99, 0), Ask::Put(1, "v"), Ask::Scan(2, 1), Ask::Odd(2, 7), Ask::LookUp(1)];
    let expected =
        [Reply::Not(16), Reply::Done, Reply::Not(19), Reply::Not(17), Reply::Value("v".into())];
    assert_eq!(store.ask(&asks), expected);
}

#[test]
fn an_empty_list_serves_none() {
    let mut store = Client::new(16, 4);
    let before = store.lent.clone();
    let (outcome, answers) = store.run(&[], 1024);
    assert_eq!((outcome.number, outcome.letter, outcome.served, outcome.written), (0, 0, 0, 0));
    assert!(answers.is_empty());
    assert_eq!(store.lent, before);
}

#[test]
fn a_run_stops_for_want_of_room() {
    let puts = list(&[Ask::Put(1, "a"), Ask::Put(2, "b"), Ask::Put(3, "c")]);
    // Each reply takes six bytes, and 1,024 must be left before a request.
    for (room, served) in [(1024, 1), (1029, 1), (1030, 2), (1035, 2), (1036, 3), (5000, 3)] {
        let mut store = Client::new(16, 4);
        let (outcome, answers) = store.run(&puts, room);
        assert_eq!((outcome.number, outcome.served, outcome.written), (0, served, 6 * served));
        assert_eq!(answers, [6, 0, 1, 0, 0, 0].repeat(served as usize));
        assert_eq!(
            store.ask_one(Ask::Report),
            Reply::Counts([16, 0, 0, 0, 0, 0, 0, served as u16])
        );
    }
}

#[test]
fn refused_runs_change_and_write_nothing() {
    let good = list(&[Ask::Put(1, "a")]);
    let mut over = list(&vec![Ask::Tidy; 16_384]);
    over.extend(Ask::Tidy.bytes());
    let cases: [(u64, &[u8], usize); 8] = [
        (3, &good, 1023),
        (3, &[3, 0, 5, 0], 0),
        (4, &[3, 0, 5, 0], 1024),
        (4, &[4, 0, 5], 1024),
        (4, &[4], 1024),
        (4, &good[..12], 1024),
        (4, &[4, 0, 5, 0, 0, 0, 5, 0], 1024),
        (4, &over, 100_000),
    ];
    for (number, list, room) in cases {
        let mut store = Client::new(16, 4);
        let before = store.lent.clone();
        let (outcome, _) = store.run(list, room);
        assert_eq!((outcome.number, outcome.letter), (number, 0));
        assert_eq!((outcome.served, outcome.written), (0, 0));
        assert_eq!(store.lent, before);
    }
    // The longest list is served whole.
    let mut store = Client::new(16, 4);
    let (outcome, _) = store.run(&over[..65_536], 1024 + 6 * 16_384);
    assert_eq!((outcome.number, outcome.served), (0, 16_384));
}

#[test]
fn a_threshold_of_9_in_the_book_is_5_by_letter_a() {
    let mut store = Client::new(16, 4);
    store.lent.head[0] = 9;
    let before = store.lent.clone();
    let (outcome, _) = store.run(&list(&[Ask::Put(1, "a")]), 1024);
    assert_eq!((outcome.number, outcome.letter), (5, u64::from(b'A')));
    assert_eq!((outcome.served, outcome.written), (0, 0));
    assert_eq!(store.lent, before);
}

#[test]
fn an_area_of_15000_bytes_is_1() {
    let mut store = Client::new(16, 4);
    store.lent.area.truncate(15_000);
    let before = store.lent.clone();
    let (outcome, _) = store.run(&[3, 0, 5, 0], 0);
    assert_eq!((outcome.number, outcome.letter, outcome.served, outcome.written), (1, 0, 0, 0));
    assert_eq!(store.lent, before);
}
