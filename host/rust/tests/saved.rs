//! The book saved as bytes and opened again: the example of docs/FORMATS.md, every number by its name, and stores that go on.

mod common;

use common::{printed, Random};
use zilgwern::*;

const PAGE: &str = include_str!("../../../docs/FORMATS.md");
const HEADER: &str = include_str!("../../zilgwern.h");

/// The store that the page prints, and the entry that was put since.
fn printed_store() -> Store<'static> {
    let mut store = Store::open_owned(printed()).unwrap();
    store.put(5, b"A").unwrap();
    store
}

/// The bytes of a line of the example; `00 ..` stands for as many zeros as the words behind it say.
fn bytes_of(line: &str) -> Vec<u8> {
    let byte = |pair: &str| u8::from_str_radix(pair, 16).ok().filter(|_| pair.len() == 2);
    match line.trim_start().strip_prefix("00 ..") {
        Some(words) => {
            let count = words.strip_suffix(" zeros").and_then(|words| words.rsplit(' ').next());
            vec![0; count.and_then(|count| count.parse().ok()).expect(line)]
        }
        None => line[..60.min(line.len())].split_whitespace().map_while(byte).collect(),
    }
}

#[test]
fn a_saved_book_is_as_printed() {
    let (_, example) = PAGE.split_once("The saved book of the store above,").expect("the example");
    let lines = example.lines().skip(2).take_while(|line| line.starts_with("    "));
    let printed: Vec<u8> = lines.flat_map(bytes_of).collect();
    assert_eq!(printed.len(), 209);
    let mut store = printed_store();
    assert_eq!(store.save().unwrap(), printed);
    // And it is read as what it was written from.
    let again = Store::open_saved_owned(store.area().to_vec(), &printed).unwrap();
    assert_eq!(again.memory(), store.memory());
}

/// The least and the greatest length, as the page and the header have them.
#[test]
fn lengths_are_as_printed() {
    let least = Store::owned(16, 1).unwrap().save().unwrap().len();
    assert_eq!((least, most_saved_bytes(4096)), (106, 680_986));
    let (fixed, each) = (most_saved_bytes(0), most_saved_bytes(1) - most_saved_bytes(0));
    assert_eq!((fixed, each), (1050, 166));
    let limit =
        "| saved book | 106 bytes or more, at most 680,986; of P places at most 166 P + 1,050 |";
    assert!(PAGE.contains(limit));
    let defined =
        HEADER.lines().find_map(|line| line.strip_prefix("#define ZILGWERN_SAVED_LINK_BYTES "));
    // Two bytes for the place in a list, and four of a card beside its links.
    assert_eq!(defined.map(|bytes| 6 + 8 * bytes.parse::<usize>().unwrap()), Some(each));
}

/// A store after so many requests, with links and frozen places, marks and entries in memory.
fn some_store(random: &mut Random, places: usize, steps: u64) -> Store<'static> {
    let mut store = Store::owned(places, 1 + random.below(8)).unwrap();
    for step in 0..steps {
        let key = random.below(300) << random.below(40);
        let done = match random.below(8) {
            0 => store.delete(key),
            1 if step > 20 => store.tidy().map(|_| ()),
            _ => store.put(key, &vec![step as u8; random.below(52) as usize]),
        };
        if done == Err(Error::Request(Refusal::MemoryFull)) && store.flush().is_err() {
            break;
        }
    }
    store
}

#[test]
fn what_is_saved_is_opened_as_it_was_and_saved_as_the_same_bytes() {
    let mut random = Random(7);
    let mut reached = [0; 4];
    for round in 0..36 {
        let places = 16 + random.below(100) as usize;
        let mut store = some_store(&mut random, places, 50 * round);
        let (before, view, book) = (store.memory(), store.view(), store.save().unwrap());
        assert_eq!(store.memory(), before, "saving changes nothing");
        let counts =
            [view.frozen.len(), view.memory.len(), view.levels[1].len(), view.levels[2].len()];
        counts.iter().zip(&mut reached).for_each(|(count, sum)| *sum += count);
        // Whatever the lent book and the free places hold.
        let mut memory = before.clone();
        memory.cards.fill([0xA5; 38]);
        memory.lists.fill(0xA5);
        (memory.head, memory.memory) = ([0xA5; 10], [0xA5; 1024]);
        let mut working = memory.cards.clone();
        let mut again = Store::open_saved(memory.lend(), &book, &mut working).unwrap();
        assert_eq!(again.save().unwrap(), book);
        assert_eq!(memory, before);
        assert_eq!(working, before.cards);
    }
    assert!(reached.iter().all(|count| *count > 50), "{reached:?}");
}

#[test]
fn refusals_of_saving_and_opening_are_named() {
    let mut store = printed_store();
    let book = store.save().unwrap();
    let mut buffer = vec![0xA5; 300];
    assert_eq!(store.save_into(&mut buffer[..208]), Err(Refused::ShortAnswer));
    assert!(buffer.iter().all(|byte| *byte == 0xA5));
    assert_eq!(store.save_into(&mut buffer), Ok(209));
    assert!(buffer[..209] == book && buffer[209..].iter().all(|byte| *byte == 0xA5));

    let area = store.area().to_vec();
    let refused = |area: &[u8], book: &[u8]| {
        let error = Store::open_saved_owned(area.to_vec(), book).err().expect("it is refused");
        assert!(error.to_string().starts_with(&format!("{}: ", error.number())));
        error
    };
    assert_eq!(refused(&area[1..], &book), Error::Refused(Refused::Sizes));
    assert_eq!(refused(&[], &book), Error::Refused(Refused::Sizes));
    assert_eq!(refused(&area, &book[1..]), Error::Refused(Refused::NotABook));
    assert_eq!(refused(&area[1024..], &book), Error::Refused(Refused::FewerPlaces));
    assert_eq!([Refused::NotABook, Refused::FewerPlaces].map(Refused::number), [21, 22]);
    let mut damaged = area.clone();
    damaged[2] = 0;
    assert_eq!(refused(&damaged, &book), Error::Refused(Refused::NotSound(Rule::C)));
    let mut memory = store.memory();
    let before = memory.clone();
    // As many working rows as cards.
    let few = Store::open_saved(memory.lend(), &book, &mut [[0; 38]; 31]).err();
    assert_eq!(few, Some(Error::Refused(Refused::Sizes)));
    assert_eq!(memory, before);
    memory.head[0] = 9;
    let before = memory.clone();
    let refused = Store::open_saved(memory.lend(), &book[..100], &mut [[0; 38]; 32]).err();
    assert_eq!(refused, Some(Error::Refused(Refused::NotABook)));
    assert_eq!(memory, before, "a refusal changes nothing");
}

/// A store that grows whenever it runs short of places answers as one map does from its beginning.
#[test]
fn a_store_that_grows_answers_as_before() {
    let mut random = Random(9);
    let mut store = Store::owned(16, 2).unwrap();
    let mut map = std::collections::BTreeMap::new();
    let mut grown = 0;
    for step in 0..1200u64 {
        let (key, value) = (random.below(1000), vec![step as u8; 3]);
        if store.put(key, &value) == Err(Error::Request(Refusal::MemoryFull)) {
            if store.flush() == Err(Error::Request(Refusal::NoPlace)) {
                let places = store.view().places;
                store = store.grown(places + 16).unwrap();
                grown += 1;
                assert_eq!(store.flush(), Ok(true));
            }
            while matches!(store.tidy(), Ok(Some(_))) {}
            store.put(key, &value).unwrap();
        }
        map.insert(key, value);
    }
    let found: Result<Vec<_>, _> = store.range(Key::LEAST, Key::GREATEST).collect();
    let wanted: Vec<_> = map.into_iter().map(|(key, value)| (Key(key), value)).collect();
    assert_eq!(found.unwrap(), wanted);
    assert!(grown > 3, "{grown}");
    let fewer = store.grown(16).err();
    assert_eq!(fewer, Some(Error::Refused(Refused::FewerPlaces)));
    assert_eq!(store.grown(4097).err(), Some(Error::Refused(Refused::Sizes)));
}
