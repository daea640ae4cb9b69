//! Request kind 8 (note 6): which tables a look-up opens and what is told of it. The stores and replies of `probed` are those that
//! the second implementation is held to as well; here the judge and the comparison look on, and every buffer stands between
//! guards.

use crate::client::{Ask, Client, Reply, GREATEST};
use differential::Proved;
use reference::generate::probed;
use reference::trial::Eyes;

/// Makes a test of each case of `probed`.
macro_rules! tests {
    ($($name:ident)*) => {
        $(
            #[test]
            fn $name() {
                for (number, case) in probed::$name().iter().enumerate() {
                    assert_eq!(case.hold(&Proved, Eyes::Both), Ok(()), "case {number}");
                }
            }
        )*
    };
}

reference::every_probed_case!(tests);

fn found(value: &str, opened: u16, bits: u32) -> Reply {
    Reply::Probed(Some(value.into()), opened, bits)
}

fn lacking(opened: u16, bits: u32) -> Reply {
    Reply::Probed(None, opened, bits)
}

#[test]
fn request_and_replies_in_bytes() {
    let mut store = Client::new(16, 4);
    store.ask(&[Ask::Put(5, "A"), Ask::Delete(6), Ask::Flush]);
    let probe = |key: u8| [12, 0, 8, 0, key, 0, 0, 0, 0, 0, 0, 0];
    let (_, answers) = store.run(&[probe(5), probe(6), probe(7)].concat(), 2048);
    let value = [15, 0, 8, 0, 0, 0, 1, 0, 1, 0, 2, 0, 0, 0, b'A'];
    let mark = [14, 0, 8, 0, 0, 0, 0, 0, 1, 0, 2, 0, 0, 0];
    let none = [14, 0, 8, 0, 0, 0, 0, 0, 0, 0, 0, 0, 0, 0];
    assert_eq!(answers, [&value[..], &mark, &none].concat());
}

#[test]
fn a_body_that_is_not_one_key_is_17() {
    let mut store = Client::new(16, 4);
    store.flush_table([0x0707_0707_0707_0707], "v");
    for length in [0, 1, 7, 9, 10, 16, 300] {
        assert_eq!(store.ask_in_vain(Ask::Odd(8, length)), Reply::Not(17), "{length}");
    }
    // A body of eight bytes 7 is one: three bits, 0, 56 and 252.
    assert_eq!(store.ask_in_vain(Ask::Odd(8, 8)), found("v", 1, 3));
}

#[test]
fn the_kinds_next_to_it_and_with_its_low_byte_are_unknown() {
    let mut store = Client::new(16, 4);
    for kind in [9, 10, 0x0800, 0x0108, 99] {
        assert_eq!(store.ask_in_vain(Ask::Odd(kind, 8)), Reply::Not(16), "{kind}");
    }
}

#[test]
fn it_never_says_64() {
    let mut store = Client::new(16, 4);
    for key in [0, 5, 255, 256, 1 << 40, GREATEST] {
        assert_eq!(store.ask_in_vain(Ask::Probe(key)), lacking(0, 0));
        assert_eq!(store.ask_in_vain(Ask::LookUp(key)), Reply::Not(64));
    }
}

#[test]
fn the_longest_value_is_told() {
    let mut store = Client::new(16, 4);
    store.ask(&[Ask::PutLetters(5, 51)]);
    assert_eq!(store.ask_in_vain(Ask::Probe(5)), found(&"v".repeat(51), 0, 0));
    store.ask(&[Ask::Flush]);
    assert_eq!(store.ask_in_vain(Ask::Probe(5)), found(&"v".repeat(51), 1, 1));
}

#[test]
fn a_value_on_its_way_from_memory_through_a_link_to_a_merged_table() {
    let mut store = Client::new(16, 2);
    store.flush_table([10, 20, 30, 40, 50], "v");
    store.ask(&[Ask::Put(25, "w")]);
    assert_eq!(store.ask_in_vain(Ask::Probe(25)), found("w", 0, 0));
    store.ask(&[Ask::Flush]);
    assert_eq!(store.ask_in_vain(Ask::Probe(25)), found("w", 1, 1));
    // The first table moves, then that of 25 is linked to it.
    store.flush_table([60], "v");
    assert_eq!(store.ask_one(Ask::Tidy), Reply::Step(1, 0));
    store.flush_table([70], "v");
    assert_eq!(store.ask_one(Ask::Tidy), Reply::Step(2, 0));
    assert_eq!(store.ask_in_vain(Ask::Probe(25)), found("w", 1, 1));
    assert_eq!(store.ask_in_vain(Ask::Probe(20)), found("v", 1, 5));
    // A second link makes the merge due; its result has seven keys.
    store.flush_table([80], "v");
    assert_eq!(store.ask_one(Ask::Tidy), Reply::Step(2, 0));
    assert_eq!(store.ask_one(Ask::Tidy), Reply::Step(3, 1));
    assert_eq!(store.ask_in_vain(Ask::Probe(25)), found("w", 1, 7));
    // A delete mark decides from memory, and from the newest table.
    store.ask(&[Ask::Delete(25)]);
    assert_eq!(store.ask_in_vain(Ask::Probe(25)), lacking(0, 0));
    store.ask(&[Ask::Flush]);
    assert_eq!(store.ask_in_vain(Ask::Probe(25)), lacking(1, 1));
}

#[test]
fn a_full_table_has_fewer_bits_than_three_for_each_key() {
    // Sixteen keys with two or three bits each, 47 in all, of which many coincide.
    let keys: Vec<u64> = (1..=16).map(|number| number * 0x0102_0304_0506_0708).collect();
    let mut store = Client::new(16, 4);
    store.flush_table(keys.clone(), "v");
    for key in keys {
        assert_eq!(store.ask_in_vain(Ask::Probe(key)), found("v", 1, 32));
    }
}

/// So many tables on level 0 that the bits need more than one byte, all opened in vain.
#[test]
fn tables_and_bits_of_a_whole_level_are_added_up() {
    let mut store = Client::new(128, 4);
    // 8388741 has the bit of 5; each table has sixteen bits.
    let others = 20..35;
    for _ in 0..100 {
        store.flush_table(others.clone().chain([0x80_0085]), "v");
    }
    assert_eq!(store.level(0).len(), 100);
    assert_eq!(store.ask_in_vain(Ask::Probe(5)), lacking(100, 1600));
    assert_eq!(store.ask_in_vain(Ask::LookUp(5)), Reply::Not(64));
    assert_eq!(store.ask_in_vain(Ask::Probe(0x80_0085)), found("v", 1, 16));
}
