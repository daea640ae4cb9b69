//! Keys and values in words: what is printed is read back as it was, and what makes no sense is not understood.

use surveyctl::{key_words, value_words, Command};
use zilgwern::{Key, Request, VALUE_BYTES};

/// Numbers that differ enough, from a seed.
fn numbers(mut seed: u64) -> impl FnMut() -> u64 {
    move || {
        seed = seed.wrapping_mul(6_364_136_223_846_793_005).wrapping_add(1_442_695_040_888_963_407);
        seed ^ seed >> 29
    }
}

fn read(line: &str) -> Option<Request> {
    Command::of(line).ok().flatten().and_then(Command::request)
}

/// A put of these is printed and read back.
fn comes_back(key: Key, value: &[u8]) {
    for whole in [false, true] {
        let line = format!("put {} {}", key_words(key, whole), value_words(value));
        assert_eq!(read(&line), Some(Request::Put(key, value.to_vec())), "{line}");
    }
}

#[test]
fn what_is_printed_is_read_back() {
    let keys = [0, 1, 999, 1 << 40, (1 << 40) - 1, 12 << 40 | 3450, u64::MAX - 1, u64::MAX];
    let values: [&[u8]; 20] = [
        b"",
        b"crack",
        b"a b  c",
        b" a",
        b"a ",
        b"\"",
        b"\"a\"",
        b"\\",
        b"hex:41",
        b"3.450",
        b"3.450 x",
        b"-3.450 x",
        b"3,450",
        b".5",
        b"20 % root",
        b"20",
        b"-20",
        b"\xff",
        b"a\nb",
        "ä · ∞".as_bytes(),
    ];
    for key in keys {
        values.iter().for_each(|value| comes_back(Key(key), value));
    }
    let mut next = numbers(1);
    for _ in 0..20_000 {
        let (key, length) = (Key(next() >> (next() % 64)), next() as usize % (VALUE_BYTES + 1));
        // Few different bytes, so that quotes, spaces, points and digits meet.
        let signs = b"3.4 \"\\hex:a\n\xc3\xa4-,+";
        let value: Vec<u8> = (0..length).map(|_| signs[next() as usize % signs.len()]).collect();
        comes_back(key, &value);
    }
}

#[test]
fn keys_are_lines_and_metres_or_whole_numbers() {
    let key = |words: &str| match read(&format!("get {words}")) {
        Some(Request::LookUp(key)) => Some(key),
        _ => None,
    };
    assert_eq!(key("12 3.450"), Key::of(12, 3450));
    assert_eq!(key("12 3.4"), Key::of(12, 3400));
    assert_eq!(key("  12   3.45  "), Key::of(12, 3450));
    assert_eq!(key("16777215 1099511627.775"), Some(Key::GREATEST));
    assert_eq!(key("13194139536762"), Key::of(12, 3450));
    assert_eq!(key("0xC0000000D7A"), Key::of(12, 3450));
    assert_eq!((key("first"), key("last")), (Some(Key::LEAST), Some(Key::GREATEST)));
    assert_eq!(key("18446744073709551615"), Some(Key::GREATEST));
    let wrong = [
        "",
        "x",
        "-1",
        "12 3",
        "12 3.4567",
        "12 .5",
        "12 3.",
        "16777216 0.0",
        "12 1099511627.776",
        "18446744073709551616",
        "12 3.450 4",
        "0x",
        "0x+5",
        "+5",
        "12 -3.450",
        "12 +3.450",
        "12 3,450",
        "12 99999999999999999999.000",
        "１２",
        "1.5",
    ];
    for words in wrong {
        assert_eq!(key(words), None, "{words}");
    }
}

#[test]
fn ranges_have_both_ends() {
    let range = |words: &str| match read(&format!("scan {words}")) {
        Some(Request::Scan(low, high)) => Some((low, high)),
        _ => None,
    };
    let at = |line, distance| Key::of(line, distance).unwrap();
    assert_eq!(range(""), Some((Key::LEAST, Key::GREATEST)));
    assert_eq!(range("12 3.000 4.000"), Some((at(12, 3000), at(12, 4000))));
    assert_eq!(range("12 3.000 13 0.500"), Some((at(12, 3000), at(13, 500))));
    assert_eq!(range("12 3.000 last"), Some((at(12, 3000), Key::GREATEST)));
    assert_eq!(range("first 12 3.000"), Some((Key::LEAST, at(12, 3000))));
    assert_eq!(range("5 99"), Some((Key(5), Key(99))));
    assert_eq!(range("line 12"), Some((at(12, 0), at(12, (1 << 40) - 1))));
    for words in ["5", "12 3.000", "line", "line x", "5 6 7", "line 16777216", "5 x"] {
        assert_eq!(range(words), None, "{words}");
    }
}

#[test]
fn values_are_text_or_hexadecimal() {
    let value = |words: &str| match read(&format!("put 5 {words}")) {
        Some(Request::Put(Key(5), value)) => Some(value),
        _ => None,
    };
    assert_eq!(value("root ingress, 20 %"), Some(b"root ingress, 20 %".to_vec()));
    assert_eq!(value("hex:00ff41"), Some(vec![0, 255, 0x41]));
    assert_eq!(value("hex:"), Some(vec![]));
    assert_eq!(value("\"\""), Some(vec![]));
    assert_eq!(value("20"), Some(b"20".to_vec()));
    assert_eq!(value("-20 %"), Some(b"-20 %".to_vec()));
    assert_eq!(value("\"20 % root\""), Some(b"20 % root".to_vec()));
    assert_eq!(value("裂缝 – Riß"), Some("裂缝 – Riß".as_bytes().to_vec()));
    // Behind metres a number is plainly a value.
    let behind = read("put 12 3.450 20 % root");
    assert_eq!(behind, Some(Request::Put(Key::of(12, 3450).unwrap(), b"20 % root".to_vec())));
    assert_eq!(value("\"a \\\" b\""), Some(b"a \" b".to_vec()));
    for words in [
        "20 % root",
        "-2.5",
        "2,5 %",
        ".5",
        "",
        "hex:0",
        "hex:0g",
        "hex:+1",
        "\"a",
        "\"a\" b",
        "\"",
    ] {
        assert_eq!(value(words), None, "{words}");
    }
}
