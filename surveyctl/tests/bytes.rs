//! Binary lists and answers, and files of long lists.

mod common;

use common::{Came, Folder};

/// Document 01's example.
const LIST: &str = "0D 00 01 00 05 00 00 00 00 00 00 00 41 0C 00 03 00 05 00 00 00 00 00 00 00\n";
const ANSWERS: &[u8] = &[6, 0, 1, 0, 0, 0, 7, 0, 3, 0, 0, 0, 0x41];

#[test]
fn the_order_s_example_is_encoded_run_and_decoded() {
    let folder = Folder::new("example");
    folder.write("text", "put 5 A\nget 5\n");
    assert_eq!(folder.done(&["encode", "--hex", "text"]), LIST);
    folder.shell("surveyctl encode text > list");
    assert_eq!(folder.read("list").len(), 25);
    assert_eq!(
        folder.done(&["replay", "--answers", "answers", "list"]),
        "2 requests served\n         2  done\n"
    );
    assert_eq!(folder.read("answers"), ANSWERS);
    assert_eq!(folder.done(&["decode", "answers", "answers"]), "put: done\nget: A\n");
    assert_eq!(folder.done(&["decode", "list", "list"]), "put 5 A\nget 5\n");
}

#[test]
fn every_kind_of_request_and_reply_comes_back() {
    let folder = Folder::new("kinds");
    let text = "put 12 3.450 crack\nput 13 0.000 \"\"\ndel 5\nget 12 3.450\nget 6\nscan 0 last\nscan 7 6\nflush\n\
                flush\ntidy\nreport\nprobe 12 3.450\nprobe 5\nprobe 6\n";
    folder.write("text", text);
    folder.shell("surveyctl encode text > list");
    assert_eq!(folder.done(&["decode", "list", "list"]), text);
    folder.done(&["replay", "--answers", "answers", "list"]);
    let expected = "put: done\nput: done\ndel: done\nget: crack\nget: no value\nscan:\n  12 3.450  crack\n  \
                    13 0.000  \"\"\nscan: refused, 19: scan with low above high\nflush: done\nflush: nothing to do\n\
                    tidy: nothing to do\nreport: free 31, live on levels 0 to 3: 1, 0, 0, 0, frozen 0, links 0, \
                    memory entries 0\nprobe: found, 1 table opened, 6 bits set: crack\nprobe: not found, 1 table opened, \
                    6 bits set\nprobe: not found, 0 tables opened, 0 bits set\n";
    assert_eq!(folder.done(&["decode", "answers", "answers"]), expected);
}

#[test]
fn what_is_no_list_or_answer_is_not_decoded() {
    let folder = Folder::new("broken");
    let came = folder.call_with(&["decode", "--hex", "list"], b"04 00 63 00 05 00 05 00 07");
    let comments = "# request 1: refused, 16: unknown kind\n# request 2: refused, 17: body length wrong for the kind\n";
    assert_eq!((came.status, came.out.as_str()), (0, comments));
    let came = folder.call_with(&["decode", "--hex", "list"], b"03 00 05 00");
    assert_eq!(came.status, 3);
    assert!(came.err.contains("refused, 4: "));
    for answers in
        ["06 00 01 00 00", "05 00 01 00 00", "06 00 01 00 63 00", "08 00 06 00 00 00 01 00"]
    {
        let came = folder.call_with(&["decode", "--hex", "answers"], answers.as_bytes());
        assert_eq!(came.status, 2, "{answers}");
        assert!(came.err.contains("byte 0: these are no answers of the store"), "{answers}");
    }
    assert_eq!(folder.call_with(&["decode", "--hex", "list"], b"0G").status, 2);
    for (text, says) in [
        ("put 5 a\ntidy all\n", "line 2: `tidy all` is no single request of a list"),
        ("check\n", "line 1: `check` is no single request"),
        ("frob\n", "line 1: frob: no such command"),
    ] {
        let Came { status, out, err } = folder.call_with(&["encode"], text.as_bytes());
        assert_eq!((status, out.as_str()), (2, ""));
        assert!(err.contains(says), "{err}");
    }
    let long = "report\n".repeat(16_385);
    let came = folder.call_with(&["encode"], long.as_bytes());
    assert_eq!(came.status, 3);
    assert!(came.err.contains("line 16385: refused, 4: "), "{}", came.err);
}

/// A list of a put and a scan, so often repeated that it takes many runs.
fn long_list(times: usize) -> Vec<u8> {
    let mut list = Vec::new();
    for time in 0..times {
        list.extend([13, 0, 1, 0, (time % 16) as u8, 0, 0, 0, 0, 0, 0, 0, b'v']);
        list.extend([20, 0, 4, 0]);
        list.extend([0; 8]);
        list.extend([255; 8]);
    }
    list
}

#[test]
fn long_files_are_replayed_in_many_runs_with_progress() {
    let folder = Folder::new("replay");
    folder.write("list", long_list(5_000));
    folder.done(&["--store", "s", "new"]);
    let words = ["--store", "s", "replay", "--progress", "--answers", "answers", "list"];
    let Came { status, out, err } = folder.call(&words);
    assert_eq!((status, out.as_str()), (0, "10000 requests served\n     10000  done\n"));
    assert!(err.contains("100 %  10000 of 10000 requests, "), "{err}");
    // A put's reply has 6 bytes; a scan's 10, and 13 more for each of the keys that are there by then.
    let values: usize = (1..=5_000).map(|time: usize| time.min(16)).sum();
    assert_eq!(folder.read("answers").len(), 5_000 * (6 + 10) + 13 * values);
    assert_eq!(folder.done(&["--store", "s", "scan", "14", "99"]), "14  v\n15  v\n");
}

/// Whatever bytes come, a call ends with one of its statuses, and with words where that is not 0.
#[test]
fn any_bytes_are_taken_or_refused() {
    let folder = Folder::new("any");
    let mut seed = 1u64;
    let mut next = || {
        seed = seed.wrapping_mul(6_364_136_223_846_793_005).wrapping_add(1_442_695_040_888_963_407);
        seed >> 33
    };
    let words: [&[&str]; 7] = [
        &["decode", "list"],
        &["decode", "answers"],
        &["decode", "--hex", "answers"],
        &["encode"],
        &["script", "-k"],
        &["prompt"],
        &["replay", "-"],
    ];
    let whole = [ANSWERS, &long_list(2), b"put 5 A\nscan 1 2\ntidy all\nshow\n"];
    let mut ends = [0; 5];
    for round in 0..350 {
        let mut bytes = whole[next() as usize % 3].repeat(1 + next() as usize % 3);
        for _ in 0..next() % 4 {
            let at = next() as usize % bytes.len();
            bytes[at] ^= 1 << (next() % 8);
        }
        bytes.truncate(next() as usize % (bytes.len() + 1));
        let Came { status, out: _, err } = folder.call_with(words[round % 7], &bytes);
        assert!((0..=3).contains(&status), "{:?} {bytes:?}: {status} {err}", words[round % 7]);
        assert!(status == 0 || !err.is_empty(), "{:?} {bytes:?}", words[round % 7]);
        ends[status as usize] += 1;
    }
    assert!(ends[0] > 30 && ends[2] > 30 && ends[3] > 30, "{ends:?}");
}

#[test]
fn a_broken_file_is_refused_before_anything_is_run() {
    let folder = Folder::new("broken_replay");
    folder.done(&["--store", "s", "new"]);
    let before = folder.read("s");
    for end in [&[3, 0, 5, 0][..], &[4, 0, 5], &[9, 0, 5, 0], &[0]] {
        folder.write("list", [&long_list(3_000)[..], end].concat());
        let Came { status, out, err } = folder.call(&["--store", "s", "replay", "list"]);
        assert_eq!((status, out.as_str()), (3, ""));
        assert!(err.contains("list: request 6001, at byte 99000: refused, 4: "), "{err}");
        assert_eq!(folder.read("s"), before);
    }
}
