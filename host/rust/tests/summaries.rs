//! Summary bits (document 02, note 6): those on the cards of stores that were run, what look-ups open by them, and that wrong ones are
//! refused.

mod common;

use common::{linked, Random};
use std::collections::BTreeSet;
use zilgwern::*;

/// The numbers of a key's bits as the order has them, in numbers that do not wrap.
fn bits(key: Key) -> [u64; 3] {
    let byte = |i: u64| key.0 >> (8 * i) & 255;
    let xor = (0..8).map(byte).fold(0, |xor, byte| xor ^ byte);
    [xor, (0..8).map(byte).sum::<u64>() % 256, (0..8).map(|i| byte(i) * (i + 1)).sum::<u64>() % 256]
}

/// The words of a row that hold the summary, as the numbers of the bits that are set.
fn set_in(row: &Row) -> BTreeSet<u64> {
    (0..256).filter(|bit| row[34 + (*bit / 64) as usize] >> (bit % 64) & 1 == 1).collect()
}

/// Every card's bits are those of its table's keys, and a free card has none. Gives how many bits are set in all.
fn bits_are_right(memory: &Memory, view: &View) -> usize {
    let mut wanted = vec![BTreeSet::new(); view.places];
    for table in view.levels.iter().flatten().chain(&view.frozen) {
        wanted[table.place] = table.entries.iter().flat_map(|entry| bits(entry.key)).collect();
        assert_eq!(table.summary.bits_set(), wanted[table.place].len());
    }
    for (place, (row, wanted)) in memory.cards.iter().zip(&wanted).enumerate() {
        assert_eq!(&set_in(row), wanted, "place {place}");
    }
    wanted.iter().map(BTreeSet::len).sum()
}

/// Puts and deletes, a flush, and some steps.
fn go_on(store: &mut Store, random: &mut Random, keys: u64) {
    for _ in 0..1 + random.below(15) {
        // Keys with several bytes, so that their bits differ.
        let key = Key::of(random.below(keys) % 40, random.below(keys) * 250).unwrap();
        match random.below(5) {
            0 => store.delete(key).unwrap(),
            1 => store.put(key, b"").unwrap(),
            _ => store.put(key, b"v").unwrap(),
        }
    }
    assert_eq!(store.flush(), Ok(true));
    let most = if store.view().free() < 60 { usize::MAX } else { random.below(8) as usize };
    let mut tidy = || store.tidy().expect("there is room for a merge");
    std::iter::from_fn(&mut tidy).take(most).for_each(|_| {});
}

#[test]
fn cards_have_the_bits_of_their_tables_whatever_was_run() {
    let mut random = Random(21);
    let mut memory = Memory::zeroed(200);
    // What the memory held does not matter: a new store has no bits.
    memory.cards.fill([u64::MAX; 38]);
    let mut store = Store::make(memory.lend(), 3).unwrap();
    let (mut set, mut frozen, mut freed) = (0, 0, 0);
    let mut used = BTreeSet::new();
    for _ in 0..300 {
        go_on(&mut store, &mut random, 60);
        let (view, memory) = (store.view(), store.memory());
        set += bits_are_right(&memory, &view);
        frozen += view.frozen.len();
        let taken = |place: &usize| memory.cards[*place][0] > 0;
        used.extend((0..200).filter(taken));
        freed += used.iter().filter(|place| !taken(place)).count();
    }
    assert!(set > 10_000 && frozen > 100 && freed > 100, "{set} {frozen} {freed}");
}

/// What was met by the probes of the next test.
#[derive(Default, Debug)]
struct Met {
    by_memory: u32,
    by_link: u32,
    by_mark: u32,
    empty: u32,
    on_level: [u32; 4],
    not_there: u32,
    in_vain: u32,
    passed: u32,
    outside_own_keys: u32,
}

impl Met {
    /// Holds a probe to the look-up and to the tables that the view has for it.
    fn hold(&mut self, probe: &Probe, found: &Reply, view: &View, key: Key) {
        assert_eq!(probe.value.clone().map_or(Reply::NoValue, Reply::Value), *found, "{key:?}");
        let asked = view.asked(key);
        let opened: Vec<_> = asked.iter().filter(|it| it.opened).collect();
        let set: usize = opened.iter().map(|it| it.table.summary.bits_set()).sum();
        assert_eq!(
            (usize::from(probe.tables), probe.bits as usize),
            (opened.len(), set),
            "{key:?}"
        );
        assert!(opened.len() <= view.levels[0].len() + 3 * (view.threshold as usize + 1));
        self.empty += u32::from(probe.value.as_ref().is_some_and(Vec::is_empty));
        self.passed += (asked.len() - opened.len()) as u32;
        self.in_vain += opened.iter().filter(|it| !it.decides).count() as u32;
        match asked.last().filter(|it| it.decides) {
            Some(it) => {
                self.by_link += u32::from(it.linked_from.is_some());
                self.by_mark += u32::from(probe.value.is_none());
                self.on_level[it.level] += 1;
            }
            None if view.memory.iter().any(|entry| entry.key == key) => self.by_memory += 1,
            None => self.not_there += 1,
        }
        let beyond = |table: &Table| {
            key < table.entries[0].key || table.entries[table.entries.len() - 1].key < key
        };
        let outside = |it: &&&Asked| it.level > 0 && it.linked_from.is_none() && beyond(it.table);
        self.outside_own_keys += opened.iter().filter(outside).count() as u32;
    }
}

#[test]
fn probes_give_what_look_ups_give_and_count_what_the_view_shows() {
    let mut random = Random(22);
    let mut store = Store::owned(320, 3).unwrap();
    let mut met = Met::default();
    for round in 0..320 {
        go_on(&mut store, &mut random, 60);
        store.put(Key::of(1, 500).unwrap(), b"in memory").unwrap();
        if round % 16 > 0 {
            continue;
        }
        let (view, before) = (store.view(), store.memory());
        let between = (0..40).map(|line| Key::of(line, 1 + random.below(15_000)).unwrap());
        let some = (0..40).flat_map(|line| (0..60).map(move |at| Key::of(line, at * 250).unwrap()));
        let keys: Vec<Key> = some.chain(between).collect();
        let mut list = List::new();
        keys.iter().for_each(|key| assert!(list.probe(*key).unwrap().look_up(*key).is_ok()));
        let replies = store.run(&list).unwrap();
        for (key, replies) in keys.iter().zip(replies.chunks(2)) {
            let [Reply::Probe(probe), found] = replies else { panic!("{replies:?}") };
            met.hold(probe, found, &view, *key);
        }
        assert!(store.memory() == before, "a probe changes nothing");
    }
    println!("{met:?}");
    let Met { by_memory, by_link, by_mark, empty, on_level, not_there, .. } = met;
    let Met { in_vain, passed, outside_own_keys, .. } = met;
    let decided = [by_memory, by_link, by_mark, empty, not_there];
    let reached = decided.iter().chain(&on_level).chain([&in_vain, &passed, &outside_own_keys]);
    assert!(reached.into_iter().all(|count| *count > 10), "{met:?}");
}

fn refused(memory: &Memory) -> Option<Rule> {
    match Store::open_owned(memory.clone()).err() {
        None => None,
        Some(Error::Refused(Refused::NotSound(rule))) => Some(rule),
        Some(other) => panic!("{other}"),
    }
}

/// Each of the 256 bits turned over, on a live, a frozen and a free card.
#[test]
fn every_wrong_bit_breaks_rule_c_or_on_a_free_card_rule_g() {
    let sound = linked();
    for (place, state, rule) in [(0, 1, Rule::C), (1, 2, Rule::C), (3, 1, Rule::C), (9, 0, Rule::G)]
    {
        assert_eq!(sound.cards[place][0], state);
        for bit in 0..256 {
            let mut memory = sound.clone();
            memory.cards[place][34 + bit / 64] ^= 1 << (bit % 64);
            assert_eq!(refused(&memory), Some(rule), "place {place}, bit {bit}");
        }
    }
    assert_eq!(refused(&sound), None);
}

/// A store with wrong bits is not saved.
#[test]
fn wrong_bits_are_not_saved_and_are_not_in_a_saved_book() {
    let mut memory = linked();
    let book = Store::open(memory.lend()).unwrap().save().unwrap();
    let mut store = Store::open_owned(memory.clone()).unwrap();
    // The store borrows nothing, so its memory is lent once more, damaged.
    memory.cards[0][35] = 1;
    let mut raw = vec![0; most_saved_bytes(16)];
    let mut saved = [u64::MAX; 2];
    let Memory { area, cards, lists, head, memory: table } = &mut memory;
    let pieces = zilgwern_sys::Pieces {
        area: &mut area[..],
        cards: &mut cards[..],
        lists: &mut lists[..],
        head,
        memory: table,
    };
    // SAFETY: the pieces are those of one `Memory`; the buffer and what is given back are others.
    let number = unsafe { pieces.save(&mut raw[..], &mut saved) };
    assert_eq!((number, saved), (5, [u64::from(b'C'), 0]));
    // Opened over the same area, the book gets the right ones.
    let again = Store::open_saved_owned(memory.area, &book).unwrap();
    assert_eq!(again.memory(), store.memory());
    assert_eq!(store.save().unwrap(), book);
}

/// The bytes of form 2, in which a row had no summary.
fn form_2(memory: &Memory) -> Vec<u8> {
    let mut bytes = memory.area.clone();
    bytes
        .extend(memory.cards.iter().flat_map(|row| &row[..34]).flat_map(|word| word.to_le_bytes()));
    bytes.extend(memory.lists.iter().flat_map(|item| item.to_le_bytes()));
    bytes.extend(memory.head.iter().flat_map(|word| word.to_le_bytes()));
    bytes.extend(memory.memory);
    bytes.extend(2u64.to_le_bytes());
    bytes
}

#[test]
fn bytes_of_form_2_get_the_bits_that_they_lack() {
    let mut random = Random(23);
    let mut store = Store::owned(100, 3).unwrap();
    let mut frozen = 0;
    for _ in 0..60 {
        go_on(&mut store, &mut random, 40);
        let memory = store.memory();
        frozen += store.view().frozen.len();
        let bytes = form_2(&memory);
        assert_eq!(bytes.len(), Memory::form_2_byte_count(100));
        assert!(Memory::from_form_2(&bytes) == Ok(memory.clone()));
        assert_eq!(Memory::from_bytes(&bytes), Err(Refused::Sizes));
        assert_eq!(Memory::from_form_2(&memory.to_bytes()), Err(Refused::Sizes));
    }
    assert!(frozen > 50, "{frozen}");
    // Whatever the bytes are, they are taken or refused; a place without a table is C.
    let mut bytes = form_2(&linked());
    bytes[2] = 33;
    assert_eq!(refused(&Memory::from_form_2(&bytes).unwrap()), Some(Rule::C));
    let mut some = vec![0; Memory::form_2_byte_count(40) - 8];
    some.fill_with(|| random.below(256) as u8);
    some.extend(2u64.to_le_bytes());
    assert!(Memory::from_form_2(&some).is_ok());
}
