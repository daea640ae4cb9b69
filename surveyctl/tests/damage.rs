//! A damaged file is refused by the letter of the first broken rule, with that rule's text, or by 1 or 21 where it is no store file, and
//! left as it is.

mod common;

use common::damaged::{self, Damage};
use common::{Came, Folder};
use zilgwern::Rule;

/// Where the pieces of the file below begin, as docs/FORMATS.md has them: the head's count of the area's bytes, the area, the book.
const COUNT: usize = 12;
const AREA: usize = 16;
const BOOK: usize = AREA + 16 * 1024;
const PLACES: usize = BOOK + 6;
const THRESHOLD: usize = BOOK + 8;
const CURSOR: usize = BOOK + 10;
const CARD_0: usize = BOOK + 32;
/// The only link: place, low, high and number.
const LINK: usize = CARD_0 + 4;
const CARD_1: usize = LINK + 20;
const LISTS: usize = CARD_1 + 15 * 4;
/// Of four lists, with two items on level 0 and one on level 1.
const LIST_BYTES: usize = 4 * 2 + 3 * 2;
/// The key of the first entry in memory.
const KEY: usize = LISTS + LIST_BYTES + 2 + 4;
const END: usize = KEY - 4 + 2 * 13;

/// The card of a place that has no links before it but that of place 0.
const fn card(place: usize) -> usize {
    CARD_1 + 4 * (place - 1)
}

/// A store of 16 places with a link and two entries in memory: place 0 on level 1 holds keys of place 1, which is frozen.
fn linked(name: &str) -> (Folder, Vec<u8>) {
    let folder = Folder::new(name);
    folder.done(&["--store", "s", "--places", "16", "new"]);
    let lines: String = (1..=4).map(|key| format!("put {key} v\nflush\n")).collect();
    let lines = format!("{lines}tidy\ntidy\nput 5 v\nput 6 v\n");
    folder.call_with(&["--store", "s", "script"], lines.as_bytes());
    let bytes = folder.read("s");
    assert_eq!((bytes[CARD_0], bytes[CARD_0 + 2], bytes[LINK], bytes[CARD_1]), (1, 1, 1, 2));
    assert_eq!((bytes[LINK + 18], bytes[KEY], bytes.len()), (1, 5, END));
    assert_eq!(bytes[LISTS..][..LIST_BYTES], [2, 0, 2, 0, 3, 0, 1, 0, 0, 0, 0, 0, 0, 0]);
    (folder, bytes)
}

const DAMAGES: [Damage; 13] = [
    (Rule::A, "threshold 9", |bytes| bytes[THRESHOLD] = 9),
    (Rule::A, "cursor 16", |bytes| bytes[CURSOR] = 16),
    (Rule::B, "a live place in no list", |bytes| bytes[card(9)] = 1),
    (Rule::B, "a link on a card that is not live", |bytes| bytes[CARD_0] = 0),
    (Rule::B, "a list item that names no place", |bytes| bytes[LISTS + 2] = 16),
    (Rule::C, "a table of another kind", |bytes| bytes[AREA + 2] = 33),
    (Rule::C, "a byte behind a table", |bytes| bytes[AREA + 1023] = 1),
    (Rule::D, "keys in memory that do not rise", |bytes| bytes[KEY] = 99),
    (Rule::E, "a link whose low is above its high", |bytes| {
        bytes[LINK + 2] = 1;
        bytes[LINK + 10..LINK + 18].fill(0);
    }),
    (Rule::E, "a link whose number is not that of its entries", |bytes| bytes[LINK + 18] = 2),
    (Rule::F, "a frozen place that had no link", |bytes| {
        bytes.copy_within(AREA + 1024..AREA + 2048, AREA + 10 * 1024);
        bytes[card(10)] = 2;
    }),
    (Rule::F, "a frozen place without its link", |bytes| {
        bytes.drain(LINK..LINK + 20);
        bytes[CARD_0 + 2] = 0;
        bytes[BOOK] -= 20;
    }),
    // Place 3, which stood on level 0, within the range of the link.
    (Rule::G, "a table on level 1 within the span of another", |bytes| {
        bytes[LISTS..][..10].copy_from_slice(&[1, 0, 2, 0, 2, 0, 0, 0, 3, 0]);
    }),
];

#[test]
fn each_rule_is_told_by_its_letter_and_its_text() {
    let (folder, sound) = linked("letters");
    damaged::each_is_told(&folder, &sound, &DAMAGES);
    folder.write("s", &sound);
    assert_eq!(folder.done(&["--store", "s", "check"]), "sound\n");
}

/// The letters that words name: of `rules A to C` three, of `rules F and G` two, of `rule A` one.
fn letters_in(words: &str) -> String {
    let named =
        words.split([' ', ';', '.']).filter(|word| matches!(word.as_bytes(), [b'A'..=b'G']));
    let named: Vec<char> = named.flat_map(str::chars).collect();
    named.first().map_or("".into(), |first| (*first..=named[named.len() - 1]).collect())
}

/// Does the first damage of each of these rules to the file, and wants `check` to tell this letter, the rules before it as held
/// and those behind it as perhaps broken.
fn told(folder: &Folder, sound: &[u8], rules: &[Rule], letter: char) {
    let mut bytes = sound.to_vec();
    for rule in rules {
        DAMAGES.iter().find(|(broken, ..)| broken == rule).expect("a damage").2(&mut bytes);
    }
    folder.write("s", &bytes);
    let Came { status, out, err } = folder.call(&["--store", "s", "check"]);
    assert_eq!((status, out), (3, format!("first broken rule {letter}\n")), "{rules:?}");
    let others = err.lines().rev().nth(1).expect("a line before the last");
    let (held, perhaps) = others.split_once(" hold").unwrap_or(("", others));
    let (before, behind) = "ABCDEFG".split_once(letter).expect("a letter");
    assert_eq!(
        (letters_in(held).as_str(), letters_in(perhaps).as_str()),
        (before, behind),
        "{err}"
    );
    assert_eq!(perhaps.contains("may be broken too"), !behind.is_empty(), "{err}");
}

#[test]
fn of_several_damages_the_first_is_told() {
    use Rule::*;
    let (folder, sound) = linked("several");
    let neighbours =
        [([A, B], 'A'), ([B, C], 'B'), ([C, D], 'C'), ([D, E], 'D'), ([E, F], 'E'), ([F, G], 'F')];
    let others =
        [([A, D], 'A'), ([A, G], 'A'), ([B, E], 'B'), ([C, G], 'C'), ([D, F], 'D'), ([E, G], 'E')];
    for (rules, letter) in neighbours.into_iter().chain(others) {
        told(&folder, &sound, &rules, letter);
        // Which damage came last does not matter.
        told(&folder, &sound, &[rules[1], rules[0]], letter);
    }
    // All seven, mended from the first on: the next letter comes each time.
    for (mended, letter) in "ABCDEFG".chars().enumerate() {
        told(&folder, &sound, &Rule::ALL[mended..], letter);
    }
}

/// The help text of `check` shows how to sort stores; its lines are run here. A file that is no store has no letter.
#[test]
fn stores_are_sorted_by_their_letters_as_the_help_text_shows() {
    let (folder, sound) = linked("sorted");
    let mut two = sound.clone();
    (two[THRESHOLD], two[KEY]) = (9, 99);
    let mut one = sound.clone();
    one[LINK + 18] = 9;
    for (name, bytes) in [("1", &sound[..]), ("2", &one), ("3 4", &two), ("5", &sound[1..])] {
        folder.write(&format!("{name}.store"), bytes);
    }
    let help = folder.done(&["help", "check"]);
    let lines: Vec<&str> = help.lines().filter_map(|line| line.strip_prefix("  ")).collect();
    let sorted =
        " 5.store\nfirst broken rule A 3 4.store\nfirst broken rule E 2.store\nsound 1.store\n";
    assert_eq!(folder.shell(&format!("export LC_ALL=C; {}", lines.join("\n"))), sorted);
}

/// A file that is refused by this number with these words, for whatever is asked, and left as it is.
fn refused(folder: &Folder, bytes: &[u8], number: u16, says: &str) {
    folder.write("s", bytes);
    for words in [&["report"][..], &["put", "9", "v"], &["check"], &["grow", "--places", "99"]] {
        let Came { status, out, err } = folder.call(&[&["--store", "s"], words].concat());
        assert_eq!((status, out.as_str()), (3, ""), "{err}");
        assert!(err.starts_with(&format!("surveyctl: s: refused, {number}: ")), "{err}");
        let words: Vec<&str> = err.split_whitespace().collect();
        assert!(words.join(" ").contains(says), "{says}: {err}");
        assert!(words.join(" ").ends_with("Nothing was changed."), "{err}");
        assert!(folder.read("s") == bytes, "the file was changed");
    }
}

#[test]
fn what_is_no_store_file_is_number_1() {
    let (folder, sound) = linked("no_file");
    let changed = |at: usize, byte: u8| {
        let mut bytes = sound.clone();
        bytes[at] = byte;
        bytes
    };
    let neither = |bytes: &[u8]| format!("This one has {} bytes and is neither.", bytes.len());
    for bytes in [&[][..], b"text", &sound[..5], &sound[1..], &changed(0, b'z')] {
        refused(&folder, bytes, 1, &neither(bytes));
    }
    refused(&folder, &sound[..10], 1, "It is cut off within its head.");
    refused(&folder, &sound[..5000], 1, "the area has 16384 bytes, and only 4984 follow:");
    refused(&folder, &changed(8, 4), 1, "It is a store file of form 4,");
    let words = "the area has 15360 bytes, which are not 16 to 4,096 whole places.";
    refused(&folder, &changed(COUNT + 1, 60), 1, words);
    refused(&folder, &changed(COUNT, 1), 1, "the area has 16385 bytes, which are not");
}

#[test]
fn a_book_that_is_none_is_number_21_and_one_of_more_places_22() {
    let (folder, sound) = linked("no_book");
    let changed = |at: usize, byte: u8| {
        let mut bytes = sound.clone();
        bytes[at] = byte;
        bytes
    };
    let length = END - BOOK;
    let words = format!("say that it has {length} bytes, and {} are there.", length - 1);
    refused(&folder, &sound[..END - 1], 21, &words);
    let words = format!("say that it has {length} bytes, and {} are there.", length + 1);
    refused(&folder, &[&sound[..], &[0]].concat(), 21, &words);
    refused(&folder, &sound[..BOOK + 5], 21, "more than the 5 bytes that are there.");
    refused(&folder, &changed(BOOK + 4, 49), 21, "It is of kind 49; a saved book is of kind 48.");
    refused(&folder, &changed(PLACES, 15), 21, "It names 15 places; a store has 16 to 4,096.");
    for (at, byte) in [(card(5), 3), (card(5) + 2, 9), (LISTS, 17), (KEY - 2, 3)] {
        refused(&folder, &changed(at, byte), 21, "what is wrong stands behind them.");
    }
    // A book of 17 places behind an area of 16.
    folder.done(&["--store", "t", "--places", "17", "new"]);
    let other = folder.read("t");
    let bytes = [&sound[..BOOK], &other[16 + 17 * 1024..]].concat();
    refused(&folder, &bytes, 22, "The book names 17 places, and the area has 16.");
}

/// No surveyctl writes such a file, but it is a store all the same.
#[test]
fn an_area_of_more_places_than_the_book_names_is_taken() {
    let (folder, sound) = linked("more");
    let mut bytes = sound.clone();
    bytes[COUNT + 1] += 4;
    bytes.splice(BOOK..BOOK, [0xA5; 1024]);
    folder.write("s", &bytes);
    let report =
        "free 13, live on levels 0 to 3: 2, 1, 0, 0, frozen 1, links 1, memory entries 2\n";
    assert_eq!(folder.done(&["--store", "s", "report"]), report);
    assert!(folder.read("s") == bytes, "it was only read");
    folder.done(&["--store", "s", "put", "7", "v"]);
    assert_eq!(folder.read("s").len(), bytes.len() + 4 + 13);
}

#[test]
fn a_file_that_another_program_changed_is_left_alone() {
    let (folder, _) = linked("changed");
    let mut prompt = folder.start(&["--store", "s", "prompt"]);
    // The prompt has read the file once it answers.
    assert_eq!(prompt.say_and_hear("get 4"), "v\n");
    assert_eq!(folder.done(&["--store", "s", "put", "60", "w"]), "done\n");
    // It is not told as done, since it is not kept.
    assert_eq!(prompt.say_and_hear("put 50 v"), "");
    let Came { status, err, .. } = prompt.end();
    assert_eq!(status, 4);
    assert!(err.contains("s: has been changed by another program since it was read"), "{err}");
    assert_eq!(folder.done(&["--store", "s", "scan", "7", "99"]), "60  w\n");
}
