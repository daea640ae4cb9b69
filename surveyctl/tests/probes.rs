//! `probe`: what a look-up opens, by the library's reply and by the tables that the store's memory shows.

mod common;

use common::{Came, Folder};

/// A store of 16 places: place 0 on level 1 with keys 1, 2 and 3, its link to place 1 with key 4 and a delete mark under 5, keys 6 and 7
/// in places 2 and 3 on level 0, key 9 in memory.
fn linked(name: &str) -> Folder {
    let folder = Folder::new(name);
    folder.done(&["--store", "s", "--places", "16", "new"]);
    let lines = "put 1 a\nput 2 b\nput 3 c\nflush\nput 4 d\ndel 5\nflush\nput 6 f\nflush\nput 7 g\nflush\ntidy\ntidy\nput 9 i\n";
    assert_eq!(folder.call_with(&["--store", "s", "script"], lines.as_bytes()).status, 0);
    folder
}

const OTHERS: &str = "asked and not opened: a bit of the key is clear\n";

#[test]
fn a_probe_tells_what_is_opened_and_what_for() {
    let folder = linked("told");
    let before = folder.read("s");
    let told = [
        ("9", "found, 0 tables opened, 0 bits set: i\n  memory decides, no table is asked\n".into()),
        (
            "7",
            "found, 1 table opened, 1 bit set: g\n  place 3, level 0: 1 of 256 bits (0 %), value\n"
                .into(),
        ),
        (
            "3",
            format!(
                "found, 1 table opened, 3 bits set: c\n  place 0, level 1: 3 of 256 bits (1 %), value\n  3 tables {OTHERS}"
            ),
        ),
        (
            "5",
            format!(
                "not found, 1 table opened, 2 bits set\n  place 1, linked from 0 on level 1: 2 of 256 bits (1 %), delete \
                 mark\n  2 tables {OTHERS}"
            ),
        ),
        // The bits of 256 are 1, 1 and 2.
        (
            "256",
            format!(
                "not found, 1 table opened, 3 bits set\n  place 0, level 1: 3 of 256 bits (1 %), in vain\n  3 tables {OTHERS}"
            ),
        ),
        ("8", format!("not found, 0 tables opened, 0 bits set\n  4 tables {OTHERS}")),
    ];
    for (key, printed) in &told {
        // Whether there is a value or not, it is answered.
        assert_eq!(folder.done(&["--store", "s", "probe", key]), *printed, "{key}");
    }
    assert!(folder.read("s") == before, "a probe changes nothing");
    // At the prompt and in a script it is the same.
    let lines: String = told.iter().map(|(key, _)| format!("probe {key}\n")).collect();
    let all: String = told.iter().map(|(_, printed)| printed.as_str()).collect();
    for way in ["prompt", "script"] {
        let came = folder.call_with(&["--store", "s", way], lines.as_bytes());
        assert_eq!(came, Came { status: 0, out: all.clone(), err: "".into() });
    }
}

#[test]
fn a_new_store_has_no_table_to_ask() {
    let folder = Folder::new("none");
    let Came { status, out, err } = folder.call(&["probe", "12", "3.450"]);
    let printed = "not found, 0 tables opened, 0 bits set\n  no table is asked\n";
    assert_eq!((status, out.as_str()), (0, printed));
    assert!(err.contains("then forgotten"), "{err}");
    for (words, says) in
        [(&["probe"][..], "a key is missing"), (&["probe", "5", "6"], "`6` is too much")]
    {
        let came = folder.call(words);
        assert_eq!((came.status, came.out.as_str()), (2, ""));
        assert!(came.err.contains(says), "{}", came.err);
    }
}

/// The counts of the reply, from its line: tables opened and bits set.
fn counts(line: &str) -> (usize, usize) {
    let before = |word: &str| line.split(word).next().and_then(|it| it.rsplit(' ').next()).unwrap();
    (before(" table").parse().expect(line), before(" bit").parse().expect(line))
}

/// The bits of a table, from its line.
fn bits(row: &&str) -> usize {
    let bits = row.split(": ").nth(1).and_then(|it| it.split(' ').next());
    bits.and_then(|bits| bits.parse().ok()).expect(row)
}

/// The key of a put or a delete in a round of the store below.
fn key(round: u64, at: u64) -> String {
    format!("{} {}.250", 1 + (round * 7 + at * 13) % 30, (round * 31 + at * 17) % 50)
}

/// A store of many tables and links, with delete marks among them.
fn large(name: &str) -> Folder {
    let folder = Folder::new(name);
    folder.done(&["--store", "s", "--places", "256", "new"]);
    let request = |round: u64, at: u64| match (round + at) % 6 {
        0 => format!("del {}\n", key(round, at)),
        _ => format!("put {} v{round}\n", key(round, at)),
    };
    let day = |round| (0..8).map(|at| request(round, at)).chain(["flush\ntidy\n".into()]).collect();
    let lines: Vec<String> = (0..60).map(day).collect();
    let came = folder.call_with(&["--store", "s", "script"], lines.concat().as_bytes());
    assert_eq!(came.status, 0, "{}", came.err);
    folder
}

/// The library's counts and the tables that are listed agree, and so do what is found and what `get` gives.
#[test]
fn the_tables_listed_are_those_counted() {
    let folder = large("listed");
    let ask = |line: String| folder.call_with(&["--store", "s", "script"], line.as_bytes()).out;
    let (mut opened, mut in_vain, mut linked, mut passed) = (0, 0, 0, 0);
    for key in (0..60).map(|round| key(round, round % 9)) {
        let (probed, got) = (ask(format!("probe {key}\n")), ask(format!("get {key}\n")));
        let (reply, rows) = probed.split_once('\n').expect("a reply");
        match reply.split_once(" set: ") {
            Some((_, value)) => assert_eq!(format!("{value}\n"), got, "{key}"),
            None => assert_eq!(got, "no value\n", "{key}"),
        }
        let tables: Vec<&str> = rows.lines().filter(|row| row.starts_with("  place ")).collect();
        assert_eq!(counts(reply), (tables.len(), tables.iter().map(bits).sum()), "{probed}");
        assert!(probed.lines().all(|row| row.chars().count() <= 80), "{probed}");
        opened += tables.len();
        in_vain += tables.iter().filter(|row| row.ends_with(", in vain")).count();
        linked += tables.iter().filter(|row| row.contains(", linked from ")).count();
        passed += rows.lines().filter(|row| row.contains("not opened")).count();
    }
    // Each has been reached.
    let reached = [opened, in_vain, linked, passed];
    assert!(reached.iter().all(|count| *count > 0) && opened > in_vain, "{reached:?}");
    println!("opened {opened}, in vain {in_vain}, by links {linked}, with others passed {passed}");
}
