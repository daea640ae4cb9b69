//! `save`, `open` and `grow`: the customer's two files, a store made of them, and a store with more places.

mod common;

use common::{Came, Folder};

/// A folder with a store of 16 places: a table in place 0, and a value and a delete mark in memory.
fn with_store(name: &str) -> Folder {
    let folder = Folder::new(name);
    folder.done(&["-s", "s", "--places", "16", "--threshold", "3", "new"]);
    let lines = b"put 4 table\nflush\nput 5 A\ndel 7\n";
    assert_eq!(folder.call_with(&["-s", "s", "script"], lines).status, 0);
    folder
}

/// The book of that store, written out from the note: length, kind, P, T, cursor; no marks; a live card and 15 free ones; one item on
/// level 0, none on the others; two entries.
fn book() -> Vec<u8> {
    let front = [&[133, 0, 0, 0, 48, 0, 16, 0, 3, 0, 1, 0][..], &[0; 20]].concat();
    let cards = [&[1, 0, 0, 0][..], &[0; 15 * 4]].concat();
    let lists = [1, 0, 0, 0, 0, 0, 0, 0, 0, 0];
    let value = [13, 0, 1, 0, 5, 0, 0, 0, 0, 0, 0, 0, b'A'];
    let mark = [12, 0, 2, 0, 7, 0, 0, 0, 0, 0, 0, 0];
    let book = [&front[..], &cards, &lists, &[2, 0], &value, &mark].concat();
    assert_eq!(book.len(), 133);
    book
}

const SAVE: [&str; 7] = ["-s", "s", "save", "--book", "b", "--area", "a"];

/// A call that fails with this status and says this, and leaves these files alone.
fn fails(folder: &Folder, words: &[&str], status: i32, says: &str) {
    let files = |folder: &Folder| -> Vec<(String, Vec<u8>)> {
        folder.names().into_iter().map(|name| (name.clone(), folder.read(&name))).collect()
    };
    let before = files(folder);
    let Came { status: came, out, err } = folder.call(words);
    assert_eq!((came, out.as_str()), (status, ""), "{words:?}: {err}");
    let words_said: Vec<&str> = err.split_whitespace().collect();
    assert!(words_said.join(" ").contains(says), "{words:?}: {err}");
    assert!(files(folder) == before, "{words:?}: a file was changed");
}

#[test]
fn a_saved_book_is_that_of_the_note_and_a_store_file_holds_it() {
    let folder = with_store("book");
    let store = folder.read("s");
    let printed =
        format!("saved the book of {} bytes in b, the area of 16 places in a\n", book().len());
    assert_eq!(folder.done(&SAVE), printed);
    assert_eq!(folder.read("b"), book());
    let area = folder.read("a");
    assert_eq!(area.len(), 16 * 1024);
    assert_eq!(area[..25], *b"\x19\0\x20\0\x01\0\0\0\x11\0\x01\0\x04\0\0\0\0\0\0\0table");
    // The store's own file: its name, form 3, the bytes of the area, then the two as they are.
    let head = [&b"ZILGWERN"[..], &[3, 0, 0, 0], &[0, 64, 0, 0]].concat();
    assert!(store == [head, area, book()].concat());
    assert!(folder.read("s") == store, "saving changes nothing");
}

#[test]
fn what_was_saved_is_opened_as_it_was() {
    let folder = with_store("opened");
    folder.done(&SAVE);
    let open = ["-s", "t", "open", "--book", "b", "--area", "a"];
    assert_eq!(folder.done(&open), "a store of 16 places, as it was saved, in t\n");
    assert!(folder.read("t") == folder.read("s"));
    // The bytes of free places do not matter; those of others do.
    let mut area = folder.read("a");
    area[5 * 1024..].fill(0xA5);
    folder.write("a", &area);
    std::fs::remove_file(folder.path("t")).unwrap();
    folder.done(&open);
    assert_eq!(folder.done(&["-s", "t", "scan"]), "4  table\n5  A\n");
    for (name, words) in [
        ("u", &["--places", "20", "open", "--book", "b", "--area", "a"][..]),
        ("v", &["open", "--places=20", "--area=a", "--book=b"]),
    ] {
        let printed = folder.done(&[&["-s", name], words].concat());
        assert_eq!(printed, format!("a store of 20 places, as it was saved, in {name}\n"));
        assert_eq!(folder.done(&["-s", name, "scan"]), "4  table\n5  A\n");
        let report = folder.done(&["-s", name, "report"]);
        assert!(report.starts_with("free 19, live on levels 0 to 3: 1, 0, 0, 0,"), "{report}");
    }
    assert!(folder.read("u") == folder.read("v"));
}

#[test]
fn an_open_that_is_refused_says_why_and_makes_nothing() {
    let folder = with_store("refused");
    folder.done(&SAVE);
    let open = |book, area| ["-s", "t", "open", "--book", book, "--area", area];
    let (saved, area) = (folder.read("b"), folder.read("a"));
    folder.write("short", &area[1..]);
    folder.write("small", &area[1024..]);
    folder.write("cut", &saved[..saved.len() - 1]);
    folder.write("long", [&saved[..], &[0]].concat());
    let mut other = area.clone();
    other[2] = 0;
    folder.write("other", &other);
    let mut threshold = saved.clone();
    threshold[8] = 9;
    folder.write("nine", &threshold);
    fails(&folder, &open("b", "short"), 3, "short: refused, 1: area not 16 to 4,096");
    fails(&folder, &open("b", "small"), 3, "small: refused, 1: ");
    // What is cut off within a place is not filled up.
    let filled = [&open("b", "short")[..], &["--places", "16"]].concat();
    fails(&folder, &filled, 3, "short: refused, 1: ");
    fails(&folder, &open("cut", "a"), 3, "cut: refused, 21: bytes that are not");
    fails(
        &folder,
        &open("cut", "a"),
        3,
        "it has 133 bytes, and 132 are there. Nothing was changed.",
    );
    fails(&folder, &open("long", "a"), 3, "it has 133 bytes, and 134 are there.");
    fails(&folder, &open("a", "b"), 3, "b: refused, 1: ");
    fails(&folder, &open("b", "other"), 3, "b: refused, 5: store not sound, first broken rule C: ");
    fails(&folder, &open("b", "other"), 3, "Is other of the same saving?");
    fails(
        &folder,
        &open("nine", "a"),
        3,
        "nine: refused, 5: store not sound, first broken rule A: ",
    );
    fails(&folder, &open("none", "a"), 4, "none: ");
    fails(&folder, &open("b", "none"), 4, "none: ");
    // More places than the area has are added, fewer are cut off.
    folder.done(&["-s", "s", "grow", "--places", "18"]);
    folder.done(&["-s", "s", "save", "--book", "b18", "--area", "a18"]);
    let cut = [&open("b18", "a18")[..], &["--places", "17"]].concat();
    fails(&folder, &cut, 3, "b18: refused, 22: area with fewer places than the saved book");
    fails(&folder, &cut, 3, "The book names 18 places, and the area has 17. Nothing was changed.");
    fails(&folder, &open("b18", "a"), 3, "b18: refused, 22: ");
    let many = [&open("b", "a")[..], &["--places", "18446744073709551615"]].concat();
    fails(&folder, &many, 3, "a: refused, 1: ");
    fails(&folder, &["-s", "s", "open", "--book", "b", "--area", "a"], 4, "s: is there already");
}

/// So book and area are never of two moments.
#[test]
fn saving_replaces_no_file() {
    let folder = with_store("spared_files");
    folder.done(&SAVE);
    folder.done(&["-s", "s", "put", "6", "later"]);
    let save = |book, area| ["-s", "s", "save", "--book", book, "--area", area];
    fails(&folder, &SAVE, 4, "a: is there already, and is left as it is");
    fails(&folder, &save("b", "a2"), 4, "b: is there already, and is left as it is");
    fails(&folder, &save("b2", "a"), 4, "a: is there already, and is left as it is");
    fails(&folder, &save("s", "a2"), 4, "s: is there already, and is left as it is");
    // Where the book can't be written, the area does not stay alone.
    fails(&folder, &save("none/b", "a2"), 4, "none/b: ");
    fails(&folder, &["-s", "none", "save", "--book", "c", "--area", "d"], 4, "none: there is no");
    folder.done(&save("b2", "a2"));
    assert_eq!(folder.read("b2").len(), folder.read("b").len() + 12 + 5);
}

#[test]
fn a_store_that_ran_short_of_places_grows_and_goes_on() {
    let folder = with_store("grown");
    let lines: String = (20..35).map(|key| format!("put {key} v\nflush\n")).collect();
    assert_eq!(folder.call_with(&["-s", "s", "script"], lines.as_bytes()).status, 0);
    folder.done(&["-s", "s", "put", "99", "v"]);
    let scanned = folder.done(&["-s", "s", "scan"]);
    assert_eq!(scanned.lines().count(), 18);
    fails(&folder, &["-s", "s", "flush"], 3, "refused, 20: ");
    let grow = |places| ["-s", "s", "grow", "--places", places];
    fails(&folder, &grow("15"), 3, "s: refused, 1: ");
    fails(&folder, &grow("4097"), 3, "s: refused, 1: ");
    assert_eq!(folder.done(&grow("17")), "s: 16 places before, 17 now\n");
    fails(&folder, &grow("16"), 3, "s: refused, 22: area with fewer places than the saved book");
    fails(&folder, &grow("16"), 3, "It has 17 places, and places are never taken away.");
    assert_eq!(folder.done(&["-s", "s", "flush"]), "done\n");
    assert_eq!(folder.done(&["-s", "s", "scan"]), scanned);
    // As many as it has already: nothing is written.
    let before = folder.read("s");
    assert_eq!(folder.done(&grow("17")), "s: 17 places before, 17 now\n");
    assert!(folder.read("s") == before);
    assert_eq!(
        folder.done(&["--places", "4096", "-s", "s", "grow"]),
        "s: 17 places before, 4096 now\n"
    );
    assert_eq!(folder.done(&["-s", "s", "tidy", "all"]).split(',').count(), 3);
    assert_eq!(folder.done(&["-s", "s", "scan"]), scanned);
}
