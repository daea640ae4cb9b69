//! Files of the forms before this one. The second, the plain bytes of what is lent before cards had summaries, is still read, and a
//! damaged one is refused by the letter of the first broken rule; the first is told by name and never read.

mod common;

use common::damaged::{self, Damage};
use common::{second_form, Came, Folder};
use zilgwern::{Rule, Store};

/// The bytes of a card then, and where the pieces of an older file of 16 places begin.
const CARD: usize = 8 * 34;
const CARDS: usize = 16 * 1024;
const LISTS: usize = CARDS + 16 * CARD;
const HEAD: usize = LISTS + 4 * 16 * 2;
const MEMORY: usize = HEAD + 80;
const FORM: usize = MEMORY + 1024;

/// A store of 16 places with a link, in a file of the older form: place 0 on level 1 holds keys of place 1, which is frozen.
fn linked(name: &str) -> (Folder, Vec<u8>) {
    let folder = Folder::new(name);
    let mut store = Store::owned(16, 4).unwrap();
    for key in 1..=4u64 {
        store.put(key, b"v").unwrap();
        store.flush().unwrap();
    }
    (0..2).for_each(|_| assert!(store.tidy().unwrap().is_some()));
    let bytes = second_form(&store.memory());
    assert_eq!(
        (bytes[CARDS], bytes[CARDS + 8], bytes[CARDS + 16], bytes[CARDS + CARD]),
        (1, 1, 1, 2)
    );
    // Number of the link, and form.
    assert_eq!((bytes[CARDS + 40], &bytes[FORM..]), (1, &[2, 0, 0, 0, 0, 0, 0, 0][..]));
    folder.write("s", &bytes);
    (folder, bytes)
}

/// What is said of a file that is read.
const OLD: &str =
    "surveyctl: s: is of the older form; it is read, and the next change writes the new form\n";

/// Reading changes nothing; the next change writes the new form, with all that the store held.
#[test]
fn an_older_file_is_read_and_said_to_be_old() {
    let (folder, bytes) = linked("older");
    let calls: [(&[&str], &str); 4] = [
        (&["get", "3"], "v\n"),
        (&["check"], "sound\n"),
        (&["scan", "2", "3"], "2  v\n3  v\n"),
        (&["flush"], "nothing to do\n"),
    ];
    for (words, printed) in calls {
        let came = folder.call(&[&["--store", "s"], words].concat());
        assert_eq!(came, Came { status: 0, out: printed.into(), err: OLD.into() }, "{words:?}");
        assert!(folder.read("s") == bytes, "{words:?}");
    }
    let came = folder.call(&["--store", "s", "put", "9", "new"]);
    assert_eq!(came, Came { status: 0, out: "done\n".into(), err: OLD.into() });
    assert!(folder.read("s").starts_with(b"ZILGWERN"));
    assert_eq!(folder.done(&["--store", "s", "scan"]), "1  v\n2  v\n3  v\n4  v\n9  new\n");
    folder.done(&["--store", "s", "del", "9"]);
    folder.done(&["--store", "s", "flush"]);
    assert_eq!(folder.read("s")[16..][..4096], bytes[..4096]);
}

/// `grow` and `save` take an older file too.
#[test]
fn an_older_file_grows_and_is_saved() {
    let (folder, bytes) = linked("older_grows");
    let came = folder.call(&["--store", "s", "save", "--book", "b", "--area", "a"]);
    assert_eq!((came.status, came.err.as_str()), (0, OLD));
    assert!(folder.read("a") == bytes[..CARDS] && folder.read("s") == bytes);
    // The store that is opened from there looks the same.
    folder.done(&["--store", "t", "open", "--book", "b", "--area", "a"]);
    let shown = folder.done(&["--store", "t", "show"]);
    assert!(shown.contains("3 live, 1 frozen") && shown == folder.call(&["-s", "s", "show"]).out);
    // The bits are worked out from the area: a look-up opens the one table that has them.
    let probed = "found, 1 table opened, 1 bit set: v\n  place 1, linked from 0 on level 1: 1 of 256 bits (0 %), value\n  \
                  2 tables asked and not opened: a bit of the key is clear\n";
    assert_eq!(folder.call(&["-s", "s", "probe", "2"]).out, probed);
    let came = folder.call(&["--store", "s", "grow", "--places", "24"]);
    let printed = "s: 16 places before, 24 now\n";
    assert_eq!(came, Came { status: 0, out: printed.into(), err: OLD.into() });
    assert_eq!(folder.done(&["--store", "s", "scan"]), "1  v\n2  v\n3  v\n4  v\n");
}

const DAMAGES: [Damage; 15] = [
    (Rule::A, "threshold 9", |bytes| bytes[HEAD] = 9),
    (Rule::A, "cursor 16", |bytes| bytes[HEAD + 8] = 16),
    (Rule::B, "a live place in no list", |bytes| bytes[CARDS + 9 * CARD] = 1),
    (Rule::B, "a place that is neither free, live nor frozen", |bytes| bytes[CARDS] = 3),
    (Rule::B, "a list item that names no place", |bytes| bytes[LISTS] = 16),
    (Rule::C, "a table of another kind", |bytes| bytes[2] = 33),
    (Rule::C, "a byte behind a table", |bytes| bytes[1023] = 1),
    (Rule::D, "a memory table of another kind", |bytes| bytes[MEMORY + 2] = 33),
    (Rule::E, "a link whose low is above its high", |bytes| {
        bytes[CARDS + 24] = 1;
        bytes[CARDS + 32..CARDS + 40].fill(0);
    }),
    (Rule::E, "a link whose number is not that of its entries", |bytes| bytes[CARDS + 40] = 2),
    (Rule::F, "a frozen place that had no link", |bytes| {
        bytes.copy_within(1024..2048, 10 * 1024);
        bytes[CARDS + 10 * CARD] = 2;
    }),
    (Rule::F, "a frozen place without its link", |bytes| bytes[CARDS + 8..CARDS + 48].fill(0)),
    (Rule::G, "a number of a link that is none", |bytes| bytes[CARDS + 72] = 1),
    (Rule::G, "a word of a card beyond its links", |bytes| bytes[CARDS + CARD - 1] = 1),
    (Rule::G, "the key of a mark that is none", |bytes| bytes[HEAD + 24] = 1),
];

#[test]
fn each_rule_is_told_by_its_letter_and_its_text() {
    let (folder, sound) = linked("letters");
    damaged::each_is_told(&folder, &sound, &DAMAGES);
    folder.write("s", &sound);
    assert_eq!(folder.call(&["--store", "s", "check"]).out, "sound\n");
}

/// A new store of the first form: rows of 26 words, and nothing behind the memory table.
fn first_form(places: usize) -> Vec<u8> {
    let mut bytes = vec![0; places * (1024 + 26 * 8 + 8)];
    bytes.extend([[4, 0, 0, 0, 0, 0, 0, 0], [0; 8]].concat());
    bytes.extend([0; 64]);
    bytes.extend([8, 0, 32, 0]);
    bytes.extend([0; 1020]);
    bytes
}

#[test]
fn files_of_another_form_are_told_and_left_as_they_are() {
    let (folder, sound) = linked("forms");
    let mut later = sound.clone();
    later[FORM] = 4;
    let first = "It is a store file of the first form, from before links had numbers,";
    let other = "its last eight bytes, which say the form, are others.";
    // 61 places of the first form are as long as 58 of the second, 163 as long as 155 and eight bytes less.
    let files = [(first_form(16), first), (first_form(61), first), (first_form(163), first)];
    assert_eq!((files[0].0.len(), files[1].0.len()), (16 * 1240 + 1104, 58 * 1304 + 1112));
    for (bytes, told) in files.into_iter().chain([(later, other)]) {
        folder.write("s", &bytes);
        for words in [&["report"][..], &["put", "9", "v"], &["check"]] {
            let Came { status, out, err } = folder.call(&[&["--store", "s"], words].concat());
            assert_eq!((status, out.as_str()), (3, ""), "{err}");
            assert!(err.starts_with("surveyctl: s: refused, 1: "), "{err}");
            let words: Vec<&str> = err.split_whitespace().collect();
            assert!(words.join(" ").contains(told), "{err}");
            assert!(words.join(" ").ends_with("Nothing was changed."), "{err}");
            assert!(folder.read("s") == bytes, "the file was changed");
        }
    }
}
