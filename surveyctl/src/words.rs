//! Keys and values in words, both ways: what is printed can be typed again; and counts.

use zilgwern::Key;

/// Takes the next word off a line.
pub fn take_word<'a>(rest: &mut &'a str) -> &'a str {
    let line = rest.trim_start();
    let (word, behind) = line.split_at(line.find(char::is_whitespace).unwrap_or(line.len()));
    *rest = behind.trim_start();
    word
}

/// The next word, left where it is.
fn next_word(rest: &str) -> &str {
    take_word(&mut { rest })
}

/// Whether a word is digits and nothing else.
fn digits(word: &str) -> bool {
    !word.is_empty() && word.bytes().all(|byte| byte.is_ascii_digit())
}

/// Whether a word is written as metres are: digits, a point, digits.
fn looks_like_metres(word: &str) -> bool {
    word.split_once('.').is_some_and(|(whole, part)| digits(whole) && digits(part))
}

/// Whether a word may be meant as metres and is not written so: -3.450, 3,450, .5, 3.
fn meant_as_metres(word: &str) -> bool {
    let sign = |byte: u8| byte.is_ascii_digit() || b".,+-".contains(&byte);
    let point = word.contains(['.', ',']) && word.bytes().any(|byte| byte.is_ascii_digit());
    point && word.bytes().all(sign) && !looks_like_metres(word)
}

/// Whether a value that begins so could be taken for metres and a value.
fn may_begin_with_metres(text: &str) -> bool {
    let mut rest = text;
    let word = take_word(&mut rest);
    looks_like_metres(word) || meant_as_metres(word) || (digits(word) && !rest.is_empty())
}

/// Metres with up to three digits behind the point, as millimetres.
fn millimetres(word: &str) -> Result<u64, String> {
    let (whole, part) = word.split_once('.').unwrap_or((word, ""));
    if part.len() > 3 {
        return Err(format!("{word}: metres have at most three digits behind the point"));
    }
    let number: Result<u64, _> = format!("{whole}{part:0<3}").parse();
    number.map_err(|_| format!("{word}: too many metres"))
}

/// A plain number, decimal or hexadecimal behind 0x.
fn number(word: &str) -> Result<u64, String> {
    let parsed = match word.strip_prefix("0x") {
        Some(digits) if !digits.starts_with('+') => u64::from_str_radix(digits, 16).ok(),
        None if digits(word) => word.parse().ok(),
        _ => None,
    };
    parsed.ok_or_else(|| match word {
        "" => "a key is missing".into(),
        _ if digits(word) => format!("{word}: too large; keys go to 18446744073709551615"),
        _ => format!("{word}: not a key; a key is LINE METRES (12 3.450) or a whole number"),
    })
}

/// The key of a line at so many metres.
fn at(line: u64, metres: &str) -> Result<Key, String> {
    let distance = millimetres(metres)?;
    let too_large = || format!("{line} {metres}: lines go to 16777215, metres to 1099511627.775");
    Key::of(line, distance).ok_or_else(too_large)
}

/// Takes a key off a line: a line and metres, a whole number, or `first` or `last`.
pub fn take_key(rest: &mut &str) -> Result<Key, String> {
    let word = take_word(rest);
    match word {
        "first" => return Ok(Key::LEAST),
        "last" => return Ok(Key::GREATEST),
        _ => {}
    }
    let number = number(word)?;
    match next_word(rest) {
        metres if looks_like_metres(metres) => at(number, take_word(rest)),
        other if meant_as_metres(other) => {
            Err(format!("{other}: metres are written 3.450; a value that begins so needs quotes"))
        }
        _ => Ok(Key(number)),
    }
}

/// Takes a key and a value off a line. What may be metres or a value is neither.
pub fn take_put(rest: &mut &str) -> Result<(Key, Vec<u8>), String> {
    let line = *rest;
    let key = take_key(rest)?;
    let text = std::mem::take(rest);
    let whole = key_is_one_number(&line[..line.len() - text.len()]);
    if whole && may_begin_with_metres(text) {
        let word = next_word(text);
        return Err(format!("{word}: metres ({word}.0), or a value (put it in double quotes)?"));
    }
    Ok((key, value(text)?))
}

/// Whether a key was given as one whole number, behind which metres could stand.
fn key_is_one_number(words: &str) -> bool {
    number(words.trim()).is_ok()
}

/// Takes the two ends of a range off a line.
pub fn take_range(rest: &mut &str) -> Result<(Key, Key), String> {
    match next_word(rest) {
        "" => return Ok((Key::LEAST, Key::GREATEST)),
        "line" => {
            take_word(rest);
            let line = number(take_word(rest))?;
            return Ok((at(line, "0.000")?, at(line, "1099511627.775")?));
        }
        _ => {}
    }
    let line = *rest;
    let low = take_key(rest)?;
    if rest.is_empty() {
        let line = next_word(line);
        return Err(format!("a range has two ends; all of a line is `scan line {line}`"));
    }
    if looks_like_metres(next_word(rest)) {
        return Ok((low, at(low.line(), take_word(rest))?));
    }
    Ok((low, take_key(rest)?))
}

/// A value: `hex:` and digits, text between double quotes, or the rest of the line as it stands.
fn value(rest: &str) -> Result<Vec<u8>, String> {
    let rest = rest.trim();
    if rest.is_empty() {
        return Err("a value is missing; an empty one is \"\"".into());
    }
    if let Some(digits) = rest.strip_prefix("hex:") {
        return hexadecimal(digits);
    }
    match rest.strip_prefix('"') {
        Some(quoted) => unquoted(quoted),
        None => Ok(rest.as_bytes().to_vec()),
    }
}

/// Bytes from hexadecimal digits; white space is passed over.
pub fn hexadecimal(text: &str) -> Result<Vec<u8>, String> {
    let digits: Vec<char> = text.chars().filter(|c| !c.is_whitespace()).collect();
    let byte = |pair: &[char]| {
        let word: String = pair.iter().collect();
        let good = pair.len() == 2 && pair.iter().all(char::is_ascii_hexdigit);
        good.then(|| u8::from_str_radix(&word, 16).ok())
            .flatten()
            .ok_or(format!("{word}: not a pair of hexadecimal digits"))
    };
    digits.chunks(2).map(byte).collect()
}

/// Text up to a closing quote at the line's end; a backslash makes the next character plain.
fn unquoted(quoted: &str) -> Result<Vec<u8>, String> {
    let mut text = String::new();
    let mut rest = quoted.chars();
    loop {
        match rest.next() {
            Some('"') if rest.as_str().is_empty() => return Ok(text.into_bytes()),
            Some('"') => return Err(format!("{}: words behind the closing quote", rest.as_str())),
            Some('\\') => text.extend(rest.next()),
            Some(other) => text.push(other),
            None => return Err("the closing quote is missing".into()),
        }
    }
}

/// A key as it is printed: a line and metres, or a whole number on line 0 and where that is wanted.
pub fn key_words(key: Key, whole: bool) -> String {
    let (line, distance) = (key.line(), key.distance());
    match (key, whole || line == 0) {
        (_, true) => key.0.to_string(),
        (Key::GREATEST, _) => "last".into(),
        _ => format!("{line} {}.{:03}", distance / 1000, distance % 1000),
    }
}

/// A range as it is printed, as short as a scan takes it: 12 3.000 to 4.000.
pub fn range_words(low: Key, high: Key, whole: bool) -> String {
    let (from, to) = (key_words(low, whole), key_words(high, whole));
    match to.strip_prefix(&format!("{} ", low.line())) {
        Some(metres) if from.contains(' ') => format!("{from} to {metres}"),
        _ => format!("{from} to {to}"),
    }
}

/// A value as it is printed: as it stands where that is read back alike, else between quotes, else in hexadecimal.
pub fn value_words(value: &[u8]) -> String {
    let Ok(text) = std::str::from_utf8(value) else { return hex_words(value) };
    if text.chars().any(|c| c.is_control() || (c.is_whitespace() && c != ' ')) {
        return hex_words(value);
    }
    let plain = !text.is_empty()
        && text.trim() == text
        && !text.starts_with('"')
        && !text.starts_with("hex:")
        && !may_begin_with_metres(text);
    if plain {
        return text.into();
    }
    format!("\"{}\"", text.replace('\\', "\\\\").replace('"', "\\\""))
}

fn hex_words(bytes: &[u8]) -> String {
    let digits: String = bytes.iter().map(|byte| format!("{byte:02x}")).collect();
    format!("hex:{digits}")
}

/// One or several of a thing.
pub fn counted(count: usize, one: &str, several: &str) -> String {
    match count {
        1 => format!("1 {one}"),
        _ => format!("{count} {several}"),
    }
}

/// So many of so many, in whole percent.
pub fn percent(part: usize, whole: usize) -> usize {
    (100 * part + whole / 2) / whole
}

/// How many of the bits are set.
pub fn share_words(set: usize, bits: usize) -> String {
    format!("{set} of {bits} bits ({} %)", percent(set, bits))
}
