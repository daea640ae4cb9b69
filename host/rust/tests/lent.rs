//! What docs/FORMATS.md prints of lent memory, summaries and older files is what the library leaves, refuses and takes.

mod common;

use common::{printed, written};
use zilgwern::*;

const PAGE: &str = include_str!("../../../docs/FORMATS.md");

/// The bytes of a line of an example, up to its words. `00 ..` stands for as many zeros as are said behind it, `(32)`, or as there are
/// to so many bytes.
fn spread(line: &str, length: usize) -> Vec<u8> {
    let mut bytes = Vec::new();
    for word in line.split_whitespace() {
        let count = word.strip_prefix('(').and_then(|word| word.strip_suffix(')'));
        match (word, u8::from_str_radix(word, 16), count) {
            // The zero before it is the first of them.
            ("..", ..) => assert_eq!(bytes.last(), Some(&0), "{line}"),
            (_, Ok(byte), _) if word.len() == 2 => bytes.push(byte),
            (_, _, Some(count)) => {
                bytes.resize(bytes.len() - 1 + count.parse::<usize>().expect(line), 0);
            }
            _ => break,
        }
    }
    if line.contains(" .. ") && !line.contains('(') {
        bytes.resize(length, 0);
    }
    bytes
}

/// The bits of keys in the table of three columns, and the summaries, which a flush of these keys writes.
#[test]
fn summaries_are_as_printed() {
    let far = Key::of(3, 1_250).unwrap();
    let (_, rows) = PAGE.split_once("| Key 256 | Key 5 |\n|---|---|---|---|\n").unwrap();
    let rows: Vec<Vec<u8>> = rows
        .lines()
        .take(3)
        .map(|row| {
            row.trim_matches(['|', ' '])
                .split(" | ")
                .skip(1)
                .map(|bit| bit.parse().unwrap())
                .collect()
        })
        .collect();
    for (column, key) in [far, Key(256), Key(5)].into_iter().enumerate() {
        let printed: Vec<u8> = rows.iter().map(|row| row[column]).collect();
        assert_eq!(Summary::bits_of(key).to_vec(), printed, "{key:?}");
    }
    for (keys, words) in [
        (&[Key(5), Key(7)][..], "of the table above, keys 5 and 7: bits 5 and 7"),
        (&[Key(256)], "of key 256 alone: bits 1 and 2"),
        (&[far], "of line 3 at 1,250 mm alone: bits 229, 233 and 252"),
    ] {
        let mut store = Store::owned(16, 4).unwrap();
        keys.iter().for_each(|key| store.put(*key, b"v").unwrap());
        assert_eq!(store.flush(), Ok(true));
        let line = PAGE.lines().find(|line| line.ends_with(words)).expect(words);
        let summary = store.view().levels[0][0].summary;
        assert_eq!(summary.bytes().to_vec(), spread(line, 32), "{words}");
        assert_eq!(summary, Summary::of(keys.iter().copied()));
    }
}

/// The bytes of a piece of the example with a link.
fn piece(name: &str, length: usize) -> Vec<u8> {
    let mut lines = PAGE.lines().skip_while(|line| !line.starts_with(&format!("    {name}  ")));
    let first = lines.next().expect(name);
    let others = lines.take_while(|line| line.starts_with(&" ".repeat(12)));
    [first].into_iter().chain(others).flat_map(|line| spread(&line[12..], length)).collect()
}

fn bytes_of(words: &[u64]) -> Vec<u8> {
    words.iter().flat_map(|word| word.to_le_bytes()).collect()
}

#[test]
fn a_link_is_as_printed() {
    let memory = printed();
    let view = Store::open_owned(memory.clone()).unwrap().view();
    let table = &view.levels[1][0];
    let link = Link { place: 1, low: Key::LEAST, high: Key::GREATEST, number: 2 };
    assert_eq!((&table.links[..], table.weight(), view.is_due(table)), (&[link][..], 2, false));
    assert_eq!(piece("card 0", 304), bytes_of(&memory.cards[0]));
    assert_eq!(piece("card 1", 304), bytes_of(&memory.cards[1]));
    let lists: Vec<u8> = memory.lists.iter().flat_map(|item| item.to_le_bytes()).collect();
    assert_eq!(piece("list 0", 64), lists[..64]);
    assert_eq!(size_of::<Row>(), 38 * 8);
    assert!(PAGE.contains("| cards | P rows of 38 words |"));
    assert!(PAGE.contains("| 3 cards | `zilgwern_card *`, 38 words each |"));
}

/// A row of the table of damages: where it stands in what `to_bytes` gives, the bytes there before and after, and the rule told.
fn damage(row: &str) -> (usize, Vec<u8>, Vec<u8>, Rule) {
    let cells: Vec<&str> = row.trim_matches(['|', ' ']).split(" | ").collect();
    let [changed, from, to, _, letter] = cells[..] else { panic!("{row}") };
    let (piece, at) = changed.split_once(", ").unwrap();
    let (piece, number) = piece.split_once(' ').unwrap_or((piece, "0"));
    let (number, head): (usize, usize) = (number.parse().unwrap(), 32 * (1024 + 38 * 8 + 8));
    let starts = match piece {
        "place" => 1024 * number,
        "card" => 32 * 1024 + 38 * 8 * number,
        "head" => head,
        "memory" => head + 80,
        _ => panic!("{row}"),
    };
    let (unit, at) = at.split_once(' ').unwrap();
    // Bytes are in hexadecimal.
    let (size, base) = if unit == "word" { (8, 10) } else { (1, 16) };
    let bytes = |cell: &str| {
        let number = u64::from_str_radix(cell.trim_matches('`'), base).unwrap();
        number.to_le_bytes()[..size].to_vec()
    };
    let rule = Rule::ALL.into_iter().find(|rule| letter == rule.letter().to_string());
    (starts + size * at.parse::<usize>().unwrap(), bytes(from), bytes(to), rule.unwrap())
}

#[test]
fn the_damaged_store_gives_the_letters_as_printed() {
    let (_, rows) =
        PAGE.split_once("| Changed | From | To | | Letter |\n|---|---|---|---|---|\n").unwrap();
    let damages: Vec<_> = rows.lines().take_while(|row| !row.is_empty()).map(damage).collect();
    let mut bytes = printed().to_bytes();
    for (at, from, to, _) in &damages {
        let changed = &mut bytes[*at..][..from.len()];
        assert_eq!(changed, from);
        changed.copy_from_slice(to);
    }
    let refused = |bytes: &[u8]| Store::open_owned(Memory::from_bytes(bytes).unwrap()).err();
    for (at, from, _, rule) in &damages {
        assert_eq!(refused(&bytes), Some(Error::Refused(Refused::NotSound(*rule))));
        bytes[*at..][..from.len()].copy_from_slice(from);
    }
    assert_eq!(refused(&bytes), None);
    let mut rules: Vec<Rule> = damages.iter().map(|(.., rule)| *rule).collect();
    rules.dedup();
    assert_eq!(rules, Rule::ALL);
}

/// Where the pieces of a store file of the form before begin, and with 32 places. Its rows had no summary.
#[test]
fn a_store_file_of_form_2_is_as_printed() {
    let row = size_of::<Row>() - 32;
    let each = [0, 1024, 1024 + row, 1024 + row + 8, 1024 + row + 8, 1024 + row + 8];
    let fixed = [0, 0, 0, 0, 80, 80 + 1024];
    for (name, (each, fixed)) in ["area", "cards", "lists", "head", "memory", "form"]
        .into_iter()
        .zip(each.into_iter().zip(fixed))
    {
        let starts = match (each, fixed) {
            (0, 0) => "0".into(),
            (_, 0) => format!("{} P", written(each)),
            _ => format!("{} P + {}", written(each), written(fixed)),
        };
        let line = format!("\n| {name} | {starts} | {} |", written(32 * each + fixed));
        assert!(PAGE.contains(&line), "{line}");
    }
    assert_eq!(Memory::form_2_byte_count(32), 32 * (1024 + row + 8) + 80 + 1024 + 8);
    assert!(PAGE.contains(&format!("| {} |\n\nA file", written(Memory::form_2_byte_count(32)))));
}
