//! Calls of the program: what they print, their exit status, and what they keep.

mod common;

use common::{Came, Folder};
use zilgwern::VALUE_BYTES;

/// A folder with a store of 16 places in a file.
fn with_store(name: &str) -> Folder {
    let folder = Folder::new(name);
    folder.done(&["--store", "s", "--places", "16", "new"]);
    folder
}

/// A call that must fail with this status, words on standard error alone, and the file as it was.
fn fails(folder: &Folder, words: &[&str], status: i32, says: &str) {
    let before = std::fs::read(folder.path("s")).ok();
    let Came { status: came, out, err } = folder.call(words);
    assert_eq!(came, status, "{words:?}: {err}");
    assert_eq!(out, "", "{words:?}");
    assert!(err.starts_with("surveyctl: ") && err.contains(says), "{words:?}: {err}");
    assert_eq!(std::fs::read(folder.path("s")).ok(), before, "{words:?}");
}

#[test]
fn words_that_mean_nothing_have_status_2() {
    let folder = with_store("status_2");
    let cases: [(&[&str], &str); 32] = [
        (&["frob"], "frob: no such command; see `surveyctl --help`"),
        (&["--frob"], "--frob: no such option"),
        (&["--places"], "--places: a word is missing behind it"),
        (&["--places=x", "report"], "x is not a whole number"),
        (&["put", "12"], "a value is missing"),
        (&["put"], "a key is missing"),
        (&["get", "x"], "x: not a key"),
        (&["flush", "now"], "flush: `now` is too much"),
        (&["new"], "name the file"),
        (&["show", "--png", "x"], "`--png` is too much"),
        (&["show", "--svg"], "--svg wants a file behind it"),
        (&["decode"], "say whether it is a `list` or `answers`"),
        (&["replay"], "name the file of requests"),
        (&["prompt", "x"], "takes no words behind it"),
        (&["--whole-keys=1", "scan"], "--whole-keys: takes no value"),
        (&["--help=put"], "--help: takes no value"),
        (&["scan", "12"], "a range has two ends; all of a line is `scan line 12`"),
        (&["get", "18446744073709551616"], "too large"),
        // Metres that are not written as such are no beginning of a value.
        (&["-s", "s", "put", "12", "-3.450", "crack"], "-3.450: metres are written 3.450;"),
        (&["-s", "s", "put", "12", "3,450", "crack"], "3,450: metres are written"),
        (&["-s", "s", "put", "12", "3.", "crack"], "3.: metres are written"),
        (&["-s", "s", "put", "12", "3", "crack"], "3: metres (3.0), or a value"),
        (&["-s", "s", "get", "12", "-3.450"], "-3.450: metres are written"),
        (&["-s", "s", "put", "12", "1099511627.776", "x"], "metres to 1099511627.775"),
        (&["grow", "--places", "64"], "grow: name the file of the store"),
        (&["-s", "s", "grow"], "grow: say how many it shall have"),
        (&["-s", "s", "grow", "64"], "`64` is too much"),
        (&["-s", "s", "grow", "--places", "x"], "--places: x is not a whole number"),
        (&["-s", "s", "save", "--book", "b"], "save: name both files"),
        (&["-s", "s", "save", "--book"], "--book wants a word behind it"),
        (&["-s", "s", "save", "--book", "b", "--area", "b"], "book and area want two files"),
        (&["-s", "t", "open", "--area", "a"], "open: name both files"),
    ];
    for (words, says) in cases {
        fails(&folder, words, 2, says);
    }
}

#[test]
fn refusals_have_status_3_and_their_number() {
    let folder = with_store("status_3");
    fails(&folder, &["--places", "15", "report"], 3, "refused, 1: ");
    fails(&folder, &["--places", "100000000000", "report"], 3, "refused, 1: ");
    fails(&folder, &["--places", "18446744073709551615", "report"], 3, "refused, 1: ");
    fails(&folder, &["--threshold", "9", "report"], 3, "refused, 2: threshold outside 1 to 8");
    fails(&folder, &["--store", "t", "--places", "4097", "new"], 3, "refused, 1: ");
    assert!(!folder.path("t").exists());
    let long = "x".repeat(VALUE_BYTES + 1);
    let words = format!("refused, 17: the value has more than {VALUE_BYTES} bytes");
    fails(&folder, &["--store", "s", "put", "5", &long], 3, &words);
    assert_eq!(folder.done(&["--store", "s", "put", "5", &long[1..]]), "done\n");
    assert_eq!(folder.done(&["--store", "s", "get", "5"]), format!("{}\n", &long[1..]));
    for key in 0..16 {
        assert_eq!(folder.done(&["--store", "s", "put", &key.to_string(), "v"]), "done\n");
    }
    fails(&folder, &["--store", "s", "put", "16", "v"], 3, "refused, 18: ");
    fails(&folder, &["--store", "s", "put", "16", "v"], 3, "`flush` writes the memory table");
    fails(&folder, &["--store", "s", "scan", "7", "6"], 3, "refused, 19: scan with low above high");
}

#[test]
fn a_full_store_says_what_may_help() {
    let folder = with_store("full");
    let lines: String = (0..16).map(|key| format!("put {key} v\nflush\n")).collect();
    folder.call_with(&["-s", "s", "script"], format!("{lines}put 99 v\n").as_bytes());
    fails(&folder, &["-s", "s", "flush"], 3, "refused, 20: ");
    fails(&folder, &["-s", "s", "flush"], 3, "`tidy all` may free places");
    fails(&folder, &["-s", "s", "flush"], 3, "add some with `grow`");
}

#[test]
fn files_that_can_not_be_used_have_status_4() {
    let folder = with_store("status_4");
    fails(&folder, &["--store", "t", "get", "5"], 4, "make one with `surveyctl --store t new`");
    fails(&folder, &["--store", "s", "new"], 4, "s: is there already");
    fails(&folder, &["script", "none"], 4, "none: ");
    fails(&folder, &["replay", "none"], 4, "none: ");
    fails(&folder, &["encode", "none"], 4, "none: ");
    fails(&folder, &["show", "--svg", "none/picture"], 4, "none/picture: ");
}

#[test]
fn what_is_done_is_kept_in_the_file_and_nowhere_else() {
    let folder = with_store("kept");
    let new = folder.read("s");
    // Head, area, and the book of a new store: what stands before the cards, the cards, and counts of nothing.
    assert_eq!(new.len(), 16 + 16 * 1024 + 32 + 16 * 4 + 5 * 2);
    assert_eq!(folder.done(&["-s", "s", "put", "12", "3.450", "long", "crack"]), "done\n");
    assert_ne!(folder.read("s"), new);
    assert_eq!(folder.done(&["-s", "s", "get", "12", "3.450"]), "long crack\n");
    assert_eq!(folder.done(&["-s", "s", "flush"]), "done\n");
    let flushed = folder.read("s");
    // The table stands at the front of the area as the order lays it out.
    assert_eq!(flushed[16..][..8], [8 + 12 + 10, 0, 32, 0, 1, 0, 0, 0]);
    assert_eq!(flushed[16..][20..31], *b"long crack\0");
    for words in [&["get", "5"][..], &["scan"], &["report"], &["check"], &["show"], &["tidy"]] {
        folder.call(&[&["-s", "s"], words].concat());
        assert_eq!(folder.read("s"), flushed, "{words:?}");
    }
    assert_eq!(std::fs::read_dir(folder.path(".")).unwrap().count(), 1, "a file was left");
    // The shell takes the quotes from an empty value.
    assert_eq!(folder.done(&["-s", "s", "put", "7", ""]), "done\n");
    assert_eq!(folder.done(&["-s", "s", "get", "7"]), "\"\"\n");
    // Without a file nothing is kept, and that is said.
    let calls: [(&[&str], i32, &str); 3] = [
        (&["put", "5", "x"], 0, "done\n"),
        (&["get", "5"], 1, "no value\n"),
        (&["scan"], 0, "no values\n"),
    ];
    for (words, status, printed) in calls {
        let came = folder.call(words);
        assert_eq!((came.status, came.out.as_str()), (status, printed));
        assert!(came.err.contains("then forgotten"), "{words:?}");
    }
}

#[test]
fn scripts_stop_at_the_first_line_that_fails() {
    let folder = with_store("scripts");
    folder.write("lines", "# a comment\n\nput 5 a\nscan 7 6\nput 6 b\nget 9\nfrob\nput 7 c\n");
    let Came { status, out, err } = folder.call(&["-s", "s", "script", "lines"]);
    assert_eq!((status, out.as_str()), (3, "done\n"));
    assert!(err.contains("lines, line 4: refused, 19: "), "{err}");
    assert_eq!(folder.done(&["-s", "s", "scan"]), "5  a\n");
    let Came { status, out, err } = folder.call(&["-s", "s", "script", "-k", "lines"]);
    assert_eq!((status, out.as_str()), (2, "done\ndone\nno value\ndone\n"));
    assert!(err.contains("lines, line 4: refused, 19: ") && err.contains("lines, line 7: frob: "));
    assert_eq!(folder.done(&["-s", "s", "scan"]), "5  a\n6  b\n7  c\n");
    // Standard input that is no terminal is a script too; `quit` ends it.
    let came = folder.call_with(&["-s", "s"], b"del 6\nscan\nquit\nput 8 d\n");
    assert_eq!((came.status, came.out.as_str()), (0, "done\n5  a\n7  c\n"));
    let came = folder.call_with(&["-s", "s", "prompt"], b"frob\nget 5\n");
    assert_eq!((came.status, came.out.as_str()), (0, "a\n"));
    assert!(came.err.starts_with("frob: no such command"));
}

#[test]
fn tidy_all_goes_on_until_there_is_nothing_to_do() {
    let folder = with_store("tidy");
    let lines: String = (1..=5).map(|key| format!("put {key} v\nflush\n")).collect();
    folder.call_with(&["-s", "s", "script"], lines.as_bytes());
    assert_eq!(folder.done(&["-s", "s", "tidy"]), "moved a table down, level 0\n");
    // The first link weighs as much as the table of one entry, so that is merged; the second hangs on a table of two.
    assert_eq!(folder.done(&["-s", "s", "tidy", "all"]), "moved 0, linked 2, merged 1\n");
    assert_eq!(folder.done(&["-s", "s", "tidy", "all"]), "nothing to do\n");
    assert_eq!(folder.done(&["-s", "s", "tidy"]), "nothing to do\n");
    let report =
        "free 12, live on levels 0 to 3: 2, 1, 0, 0, frozen 1, links 1, memory entries 0\n";
    assert_eq!(folder.done(&["-s", "s", "report"]), report);
    assert_eq!(folder.done(&["-s", "s", "check"]), "sound\n");
}

#[test]
fn a_scan_goes_beyond_sixteen_values() {
    let folder = with_store("scan");
    let lines: String = (0..40)
        .map(|key| format!("put {key} v{key}\n{}", if key % 10 == 9 { "flush\n" } else { "" }))
        .collect();
    folder.call_with(&["-s", "s", "script"], lines.as_bytes());
    let expected: String = (3..=38).map(|key| format!("{key}  v{key}\n")).collect();
    assert_eq!(folder.done(&["-s", "s", "scan", "3", "38"]), expected);
    assert_eq!(folder.done(&["-s", "s", "scan", "100", "200"]), "no values\n");
}

#[test]
fn who_stops_reading_gets_no_complaint() {
    let folder = with_store("pipe");
    let lines: String =
        (0..16).map(|key| format!("put {key} {}\n", "v".repeat(VALUE_BYTES))).collect();
    folder.call_with(&["-s", "s", "script"], lines.as_bytes());
    let scans = "scan\n".repeat(500);
    folder.write("scans", scans);
    assert_eq!(folder.shell("surveyctl -s s script scans | head -n 1").lines().count(), 1);
}

/// What was done before nobody read any more is kept, and the status says that it was not all.
#[test]
fn a_script_whose_reader_is_gone_keeps_what_it_did() {
    let folder = with_store("gone");
    let lines = "report\n".repeat(20_000);
    folder.write("lines", format!("put 5 kept\n{lines}put 6 never\n"));
    for call in ["script lines", "prompt < lines"] {
        let line = format!("{{ surveyctl -s s {call}; echo status $? >&2; }} | head -n 1");
        let came = folder.shell(&line);
        assert!(came.contains("done\n") && came.contains("status 4\n"), "{came}");
        assert_eq!(came.lines().count(), 2, "{came}");
        assert_eq!(folder.done(&["-s", "s", "scan"]), "5  kept\n");
        folder.done(&["-s", "s", "del", "5"]);
    }
}

#[test]
fn bytes_that_are_no_text_are_told_so() {
    let folder = with_store("no_text");
    let input = b"put 5 a\n\xff\xfe\nput 6 b\n";
    let Came { status, out, err } = folder.call_with(&["-s", "s", "script"], input);
    assert_eq!((status, out.as_str()), (2, "done\n"));
    assert!(err.contains("standard input, line 2: these bytes are no text"), "{err}");
    assert_eq!(folder.done(&["-s", "s", "scan"]), "5  a\n");
    let Came { status, out, .. } = folder.call_with(&["-s", "s", "script", "-k"], input);
    assert_eq!((status, out.as_str()), (2, "done\ndone\n"));
    let Came { status, out, err } = folder.call_with(&["-s", "s", "prompt"], input);
    assert_eq!((status, out.as_str()), (0, "done\ndone\n"));
    assert!(err.starts_with("these bytes are no text"), "{err}");
    // A folder is no input at all, and going on would not help.
    let came = folder.shell("surveyctl script -k < . ; echo status $?");
    assert!(came.contains("the input can't be read") && came.ends_with("status 4\n"), "{came}");
}

#[test]
fn empty_input_is_an_empty_script_and_an_empty_list() {
    let folder = with_store("empty");
    let before = folder.read("s");
    for words in [&["-s", "s"][..], &["-s", "s", "prompt"], &["encode"], &["decode", "list"]] {
        let came = folder.call(words);
        assert_eq!(came, Came { status: 0, out: "".into(), err: "".into() }, "{words:?}");
    }
    let came = folder.call(&["-s", "s", "replay", "-"]);
    assert_eq!((came.status, came.out.as_str()), (0, "0 requests served\n"));
    assert_eq!(folder.read("s"), before);
}
