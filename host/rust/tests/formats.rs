//! The requests, replies, tables and limits that docs/FORMATS.md prints are what the library takes and gives.

mod common;

use common::{printed, written};
use zilgwern::*;

const PAGE: &str = include_str!("../../../docs/FORMATS.md");
const README: &str = include_str!("../../../README.md");
const HEADER: &str = include_str!("../../zilgwern.h");

/// The bytes of the example with these words: all pairs of digits before them.
fn example(words: &str) -> Vec<u8> {
    let mut lines = PAGE.lines().filter(|line| line.starts_with("    ") && line.ends_with(words));
    let (line, next) = (lines.next().expect(words), lines.next());
    assert_eq!(next, None, "{words}");
    let byte = |pair: &str| u8::from_str_radix(pair, 16).ok().filter(|_| pair.len() == 2);
    line.split_whitespace().map_while(byte).collect()
}

#[test]
fn requests_are_as_printed() {
    type Add = fn(&mut List) -> Result<&mut List, ListError>;
    let requests: [(&str, Add); 6] = [
        ("put \"A\" under key 5", |list| list.put(5, b"A")),
        ("delete key 5", |list| list.delete(5)),
        ("look up key 5", |list| list.look_up(5)),
        ("scan of all keys", |list| list.scan(Key::LEAST, Key::GREATEST)),
        ("  flush", List::flush),
        ("probe of key 5", |list| list.probe(5)),
    ];
    for (words, add) in requests {
        let mut list = List::new();
        add(&mut list).unwrap();
        assert_eq!(list.as_bytes(), example(words), "{words}");
    }
}

/// The answer of the library to the last of the requests.
fn answer(store: &mut Store, list: &List) -> Vec<u8> {
    let mut answers = vec![0; 70_000];
    let (served, written) = store.run_bytes(list.as_bytes(), &mut answers).unwrap();
    assert_eq!(served, list.len());
    let mut rest = &answers[..written];
    for _ in 1..served {
        Reply::take(&mut rest).unwrap();
    }
    rest.to_vec()
}

#[test]
fn replies_are_as_printed() {
    let replies = [
        ("no value (64)", List::new().look_up(5).cloned()),
        ("nothing to flush (65)", List::new().flush().cloned()),
        ("value \"A\"", List::new().put(5, b"A").and_then(|list| list.look_up(5)).cloned()),
        ("one entry, no more", List::new().scan(0, 99).cloned()),
        ("probe: no value, and no table was opened", List::new().probe(8).cloned()),
        (
            "free 31, live on level 0 one, in memory two",
            List::new()
                .flush()
                .unwrap()
                .put(1, b"")
                .unwrap()
                .put(2, b"")
                .unwrap()
                .report()
                .cloned(),
        ),
    ];
    let mut store = Store::owned(32, 4).unwrap();
    for (words, list) in replies {
        assert_eq!(answer(&mut store, &list.unwrap()), example(words), "{words}");
    }
    let probed = answer(&mut store, List::new().probe(5).unwrap());
    assert_eq!(probed, example("probe: value \"A\", from one table, which has one bit set"));
    let mut list = List::new();
    list.flush().unwrap().put(3, b"").unwrap().flush().unwrap().tidy().unwrap();
    assert_eq!(answer(&mut store, &list), example("a table moved from level 0"));
}

/// Those of the store with a link, and the tables that a look-up asks there.
#[test]
fn probes_of_the_store_with_a_link_are_as_printed() {
    let mut store = Store::open_owned(printed()).unwrap();
    for (key, words, asked) in [
        (5, "probe of key 5: one table opened, two bits", &[3, 2, 1][..]),
        (256, "probe of key 256: one table opened, three bits", &[3, 2, 1, 0]),
        (8, "probe of key 8: none of four tables opened", &[3, 2, 1, 0]),
    ] {
        assert_eq!(answer(&mut store, List::new().probe(key).unwrap()), example(words), "{words}");
        let places: Vec<usize> =
            store.view().asked(Key(key)).iter().map(|it| it.table.place).collect();
        assert_eq!(places, asked, "{words}");
    }
}

/// Puts sixteen of the longest values, under keys from 5 on.
fn fill(store: &mut Store) {
    (5..21u64).for_each(|key| store.put(key, &[b'v'; VALUE_BYTES]).unwrap());
}

/// An example that is cut off: the first bytes of these, which are so many, and the last are the value's.
fn begins(words: &str, bytes: &[u8], length: usize) {
    assert!(bytes.starts_with(&example(words)), "{words}: {bytes:?}");
    assert_eq!((bytes.len(), bytes.last()), (length, Some(&b'v')), "{words}");
}

#[test]
fn the_longest_examples_are_as_printed() {
    let mut list = List::new();
    list.put(5, &[b'v'; VALUE_BYTES]).unwrap();
    let words = format!("put of the longest value, {VALUE_BYTES} letters \"v\"");
    begins(&words, list.as_bytes(), ENTRY_BYTES);
    let mut store = Store::owned(16, 4).unwrap();
    fill(&mut store);
    let found = answer(&mut store, List::new().look_up(5).unwrap());
    begins("the longest value", &found, 6 + VALUE_BYTES);
    let scanned = answer(&mut store, List::new().scan(0, 99).unwrap());
    let words = "the longest reply: sixteen of the longest entries, no more";
    begins(words, &scanned, REPLY_BYTES);
    let words = format!("the longest entry: {VALUE_BYTES} letters \"v\" under key 5");
    begins(&words, &scanned[10..][..ENTRY_BYTES], ENTRY_BYTES);
}

#[test]
fn a_table_of_the_longest_entries_is_as_printed() {
    let mut memory = Memory::zeroed(16);
    let mut store = Store::make(memory.lend(), 4).unwrap();
    fill(&mut store);
    assert_eq!(store.flush(), Ok(true));
    let words = "(the entries up to 3F7, then eight zeros)";
    // The first number of the line is the position.
    let line = PAGE.lines().find(|line| line.ends_with(words)).unwrap();
    let (_, shown) = line.trim_start().split_once("  ").unwrap();
    let byte = |pair| u8::from_str_radix(pair, 16).ok();
    let shown: Vec<u8> = shown.split_whitespace().map_while(byte).collect();
    assert_eq!(shown.len(), 12);
    assert!(memory.area.starts_with(&shown));
    assert_eq!(8 + 16 * ENTRY_BYTES, 0x3F8);
    assert_eq!(memory.area[0x3F7..0x400], [b'v', 0, 0, 0, 0, 0, 0, 0, 0]);
}

/// A line of the table of limits.
fn limit(what: &str) -> &'static str {
    let line = PAGE.lines().find(|line| line.starts_with(&format!("| {what} | ")));
    line.expect(what).split(" | ").nth(1).unwrap().trim_end_matches(" |")
}

#[test]
fn limits_are_those_of_the_wrapper() {
    let (least, most) = (written(*PLACES.start()), written(*PLACES.end()));
    assert_eq!(limit("places, P"), format!("{least} to {most}"));
    assert_eq!(limit("value"), format!("0 to {} bytes", written(VALUE_BYTES)));
    assert_eq!(limit("entry"), format!("12 to {} bytes: 12 and the value", written(ENTRY_BYTES)));
    let full = written(8 + 16 * ENTRY_BYTES);
    let in_use = format!("20 to {full} bytes; of the memory table 8 to {full}");
    assert_eq!(limit("length in use of a table"), in_use);
    let request = format!("4 to 65,535 bytes; over {ENTRY_BYTES} it is refused by 16 or 17");
    assert_eq!(limit("request"), request);
    assert_eq!(limit("reply"), format!("6 to {} bytes", written(REPLY_BYTES)));
    assert_eq!(limit("request list"), format!("0 to {} bytes", written(LIST_BYTES)));
    assert_eq!(limit("answer buffer"), format!("{} bytes or more", written(ANSWER_ROOM)));
    assert_eq!(limit("values of one scan"), format!("0 to {SCAN_VALUES}"));
    let most = written(3 * TABLE_ENTRIES);
    let bits = format!("{} bits; of a live or frozen one 1 to {most} of them set,", Summary::BITS);
    assert!(limit("summary of a card").starts_with(&bits));
    let fixed = Memory::form_2_byte_count(0);
    let each = Memory::form_2_byte_count(1) - fixed;
    assert!(PAGE.contains(&format!("(length - {}) / {}.", written(fixed), written(each))));
    assert!(PAGE.contains(&format!("| end | {} P + {} |", written(each), written(fixed))));
}

#[test]
fn the_readme_and_the_header_say_the_same() {
    assert!(README.contains(&format!("values of\nup to {VALUE_BYTES} bytes,")));
    assert!(README.contains(&format!("values of at\n  most {VALUE_BYTES} bytes;")));
    let defined = |name: &str| {
        let mut lines = HEADER.lines().filter_map(|line| line.strip_prefix("#define ZILGWERN_"));
        let value = lines.find_map(|line| line.strip_prefix(name)).expect(name);
        value.split_whitespace().next().and_then(|word| word.parse::<usize>().ok()).expect(name)
    };
    assert_eq!(defined("VALUE_BYTES "), VALUE_BYTES);
    assert_eq!(defined("SCAN_VALUES "), SCAN_VALUES);
    assert_eq!(defined("LIST_BYTES "), LIST_BYTES);
    assert_eq!(defined("ANSWER_ROOM "), ANSWER_ROOM);
    let places = defined("LEAST_PLACES ")..=defined("MOST_PLACES ");
    assert_eq!(places, PLACES);
    assert_eq!(defined("TABLE_ENTRIES "), TABLE_ENTRIES);
    assert_eq!(8 * defined("SUMMARY_BYTES "), Summary::BITS);
    assert!(HEADER.contains("sizeof(zilgwern_card) == 304, \"a card is 38 words of 64 bits\""));
    assert_eq!(size_of::<Row>(), 304);
}

/// The letters and the numbers of refusals are all there, each with its line.
#[test]
fn every_refusal_has_its_line() {
    for rule in Rule::ALL {
        assert!(PAGE.contains(&format!("\n| {} | ", rule.letter())), "{rule:?}");
    }
    for number in (0..=5).chain(16..=20).chain([21, 22, 64, 65]) {
        assert!(PAGE.contains(&format!("\n| {number} | ")), "{number}");
    }
}
