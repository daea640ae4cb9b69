//! Requests, replies and memory as bytes and back, and the view of a store beside its report.

mod common;

use common::Random;
use zilgwern::*;

fn some_request(random: &mut Random) -> Request {
    let key = Key(random.below(1 << 31) << random.below(33));
    match random.below(8) {
        0 => Request::Put(
            key,
            vec![random.below(256) as u8; random.below(VALUE_BYTES as u64 + 1) as usize],
        ),
        1 => Request::Delete(key),
        2 => Request::LookUp(key),
        3 => Request::Scan(key, Key::GREATEST),
        4 => Request::Flush,
        5 => Request::Tidy,
        6 => Request::Probe(key),
        _ => Request::Report,
    }
}

#[test]
fn lists_are_read_back_as_they_were_built() {
    let mut random = Random(2);
    for length in 0..200 {
        let requests: Vec<Request> = (0..length).map(|_| some_request(&mut random)).collect();
        let mut list = List::new();
        requests.iter().for_each(|request| assert!(list.add(request).is_ok()));
        let read = Request::read_list(list.as_bytes()).unwrap();
        assert_eq!(read, requests.into_iter().map(Ok).collect::<Vec<_>>());
        assert_eq!(list.len(), length);
    }
}

#[test]
fn a_list_that_is_refused_a_request_stays_as_it_was() {
    let mut list = List::new();
    list.flush().unwrap();
    let before = list.clone();
    assert_eq!(list.put(1, &[0; VALUE_BYTES + 1]).err(), Some(ListError::ValueTooLong));
    // So long that its length would not fit two bytes.
    assert_eq!(list.put(1, &[0; 70_000]).err(), Some(ListError::ValueTooLong));
    assert_eq!(list, before);
    while list.report().is_ok() {}
    assert_eq!(list.as_bytes().len(), LIST_BYTES);
    let full = list.clone();
    assert_eq!(list.tidy().err(), Some(ListError::Full));
    assert_eq!(list, full);
}

/// What the store makes of a list, and of its bytes with one changed: the two agree on what is refused.
#[test]
fn lists_are_judged_as_the_store_judges_them() {
    let mut random = Random(3);
    let (mut broken, mut refused) = (0, 0);
    for _ in 0..3000 {
        let mut list = List::new();
        (0..6).for_each(|_| assert!(list.add(&some_request(&mut random)).is_ok()));
        let mut bytes = list.as_bytes().to_vec();
        let at = random.below(bytes.len() as u64) as usize;
        bytes[at] ^= 1 << random.below(8);
        let mut answers = vec![0; 10_000];
        let mut store = Store::owned(16, 4).unwrap();
        match (Request::read_list(&bytes), store.run_bytes(&bytes, &mut answers)) {
            (Err(refusal), ran) => {
                assert_eq!(ran, Err(refusal));
                broken += 1;
            }
            (Ok(requests), ran) => {
                let (served, written) = ran.unwrap();
                assert_eq!(served, requests.len());
                let mut rest = &answers[..written];
                for request in requests {
                    let (_, reply) = Reply::take(&mut rest).unwrap();
                    if let Err(refusal) = request {
                        assert_eq!(reply, Reply::Refused(refusal));
                        refused += 1;
                    }
                }
                assert!(rest.is_empty());
            }
        }
    }
    assert!(broken > 100 && refused > 100, "{broken} {refused}");
}

/// A scan's reply with values of these lengths under these keys, and no more.
fn page(values: &[(u8, usize)]) -> Vec<u8> {
    let entry = |(key, length): &(u8, usize)| {
        let head = [12 + *length as u8, 0, 1, 0, *key, 0, 0, 0, 0, 0, 0, 0];
        [&head[..], &vec![b'v'; *length]].concat()
    };
    let body: Vec<u8> = values.iter().flat_map(entry).collect();
    let length = (10 + body.len() as u16).to_le_bytes();
    [&length[..], &[4, 0, 0, 0, values.len() as u8, 0, 0, 0], &body].concat()
}

/// A probe's reply with a value of this length.
fn probe(found: u16, tables: u16, bits: u32, value: usize) -> Vec<u8> {
    let length = (14 + value as u16).to_le_bytes();
    let counts = [&found.to_le_bytes()[..], &tables.to_le_bytes(), &bits.to_le_bytes()].concat();
    [&length[..], &[8, 0, 0, 0], &counts, &vec![b'v'; value]].concat()
}

#[test]
fn bytes_that_are_no_answers_are_told_so() {
    let mut store = Store::owned(16, 4).unwrap();
    store.put(5, b"value").unwrap();
    let mut list = List::new();
    list.look_up(5).unwrap().scan(0, 9).unwrap().tidy().unwrap().report().unwrap().flush().unwrap();
    list.probe(5).unwrap().probe(6).unwrap();
    let mut answers = vec![0; 10_000];
    let (_, written) = store.run_bytes(list.as_bytes(), &mut answers).unwrap();
    let mut random = Random(4);
    let mut wrong = 0;
    for _ in 0..20_000 {
        let mut bytes = answers[..random.below(written as u64 + 1) as usize].to_vec();
        for _ in 0..random.below(3) {
            let at = random.below(bytes.len() as u64 + 1) as usize;
            bytes.get_mut(at).into_iter().for_each(|byte| *byte ^= 1 << random.below(8));
        }
        let mut rest = &bytes[..];
        // Whatever it is, it is taken or refused, and what is refused stays.
        while let Some((_, _)) = Reply::take(&mut rest) {}
        wrong += u32::from(!rest.is_empty());
    }
    assert!(wrong > 1000);
    let wrong: [&[u8]; 26] = [
        &[],
        &[6],
        &[6, 0, 1, 0, 0],
        &[5, 0, 1, 0, 0],
        &[0; 6],
        &[6, 0, 1, 0, 9, 0],
        &[7, 0, 1, 0, 0, 0, 0],
        // Scans: one entry too few, and a `more` that is neither 0 nor 1. A tidy: step 4.
        &[10, 0, 4, 0, 0, 0, 1, 0, 0, 0],
        &[10, 0, 4, 0, 0, 0, 0, 0, 2, 0],
        &[10, 0, 6, 0, 0, 0, 4, 0, 0, 0],
        // A page that is not full and says that there is more; keys that do not rise; a value that is too long.
        &[10, 0, 4, 0, 0, 0, 0, 0, 1, 0],
        &page(&[(7, 0), (7, 0)]),
        &page(&[(7, VALUE_BYTES + 1)]),
        &page(&std::array::from_fn::<_, 17, _>(|key| (key as u8, 0))),
        // Steps on levels where there are none.
        &[10, 0, 6, 0, 0, 0, 1, 0, 3, 0],
        &[10, 0, 6, 0, 0, 0, 3, 0, 0, 0],
        // Refusals of another kind: a scan by 18, a put by 16.
        &[6, 0, 4, 0, 18, 0],
        &[6, 0, 1, 0, 16, 0],
        // Probes: too short; found 2; a value that is not found; one that is too long; bits of no table, and none or too many of one.
        &[13, 0, 8, 0, 0, 0, 0, 0, 0, 0, 0, 0, 0],
        &probe(2, 1, 1, 0),
        &probe(0, 1, 1, 1),
        &probe(1, 1, 1, VALUE_BYTES + 1),
        &probe(0, 0, 1, 0),
        &probe(0, 1, 0, 0),
        &probe(0, 1, 49, 0),
        // It never says that there is no value by 64.
        &[6, 0, 8, 0, 64, 0],
    ];
    for bytes in wrong {
        let mut rest = bytes;
        assert_eq!((Reply::take(&mut rest), rest), (None, bytes));
    }
    for good in [page(&[]), page(&[(7, 0), (8, VALUE_BYTES)]), vec![6, 0, 99, 0, 16, 0]] {
        assert!(Reply::take(&mut &good[..]).is_some(), "{good:?}");
    }
    for (found, tables, bits, length) in
        [(0, 0, 0, 0), (1, 0, 0, 0), (0, 2, 96, 0), (1, 1, 1, VALUE_BYTES), (1, 4096, 196_608, 3)]
    {
        let value = (found == 1).then(|| vec![b'v'; length]);
        let good = Reply::Probe(Probe { value, tables, bits });
        let mut rest = &probe(found, tables, bits, length)[..];
        assert_eq!((Reply::take(&mut rest), rest), (Some((8, good)), &[][..]));
    }
}

#[test]
fn memory_goes_into_bytes_and_comes_back() {
    let mut random = Random(5);
    for places in [0, 1, 15, 16, 40] {
        let mut memory = Memory::zeroed(places);
        memory.area.fill_with(|| random.below(256) as u8);
        memory.cards.iter_mut().flatten().for_each(|word| *word = random.below(1 << 31) << 30);
        memory.lists.fill_with(|| random.below(1 << 16) as u16);
        memory.head.fill_with(|| random.below(1 << 31) << 33);
        memory.memory.fill_with(|| random.below(256) as u8);
        let bytes = memory.to_bytes();
        assert_eq!(Memory::from_bytes(&bytes), Ok(memory));
        assert_eq!(Memory::from_bytes(&bytes[1..]), Err(Refused::Sizes));
        assert_eq!(Memory::from_bytes(&[&bytes[..], &[0]].concat()), Err(Refused::Sizes));
        let (pieces, form) = bytes.split_at(bytes.len() - 8);
        assert_eq!(form, [4, 0, 0, 0, 0, 0, 0, 0]);
        for other in [[2, 0, 0, 0, 0, 0, 0, 0], [4, 0, 0, 0, 0, 0, 0, 1]] {
            let bytes = [pieces, &other].concat();
            assert_eq!(Memory::from_bytes(&bytes), Err(Refused::Sizes));
            assert!(!Memory::is_form_1(&bytes));
        }
    }
    assert_eq!(Memory::from_bytes(&[]), Err(Refused::Sizes));
}

/// Rows had 26 words before links had numbers, and nothing stood behind the memory table, which ended with zeros.
#[test]
fn bytes_of_the_first_form_are_never_taken() {
    let mut same_lengths = [0; 2];
    for places in PLACES {
        let mut bytes = vec![0; places * (1024 + 26 * 8 + 8) + 80 + 1024];
        // A new store: the threshold, and an empty memory table.
        let head = bytes.len() - 1024 - 80;
        bytes[head] = 4;
        bytes[head + 80..head + 84].copy_from_slice(&[8, 0, 32, 0]);
        assert_eq!(Memory::from_bytes(&bytes), Err(Refused::Sizes), "{places}");
        assert_eq!(Memory::from_form_2(&bytes), Err(Refused::Sizes), "{places}");
        assert!(Memory::is_form_1(&bytes), "{places}");
        let lengths = [Memory::form_2_byte_count, Memory::byte_count];
        for (same, length) in same_lengths.iter_mut().zip(lengths) {
            *same += PLACES.filter(|other| length(*other) == bytes.len()).count();
        }
    }
    // Every 163rd length, from 61 places on, is one of forms 1 and 2; every 167th, from 153 on, one of forms 1 and 4.
    assert_eq!(same_lengths, [25, 24]);
    let wrong = [0, 1103, 1104, 15 * 1240 + 1104, 4097 * 1240 + 1104, 16 * 1240 + 1105];
    assert!(wrong.iter().all(|length| !Memory::is_form_1(&vec![0; *length])));
}

/// The value under a key by the order's reading rule, worked out from a view.
fn read_in(view: &View, key: Key) -> Option<Vec<u8>> {
    let frozen = |place| view.frozen.iter().find(|table| table.place == place).unwrap();
    let mut sources: Vec<&[Entry]> = vec![&view.memory];
    sources.extend(view.levels[0].iter().rev().map(|table| &table.entries[..]));
    for table in view.levels[1..].iter().flatten() {
        let links = table.links.iter().rev().filter(|link| link.holds(key));
        sources.extend(links.map(|link| &frozen(link.place).entries[..]));
        sources.push(&table.entries);
    }
    let deciding = sources.into_iter().flatten().find(|entry| entry.key == key);
    deciding.and_then(|entry| entry.value.clone())
}

#[test]
fn the_view_shows_what_the_store_reports_and_reads() {
    let mut random = Random(6);
    let mut memory = Memory::zeroed(96);
    let mut store = Store::make(memory.lend(), 2).unwrap();
    let mut links = 0;
    for round in 0..1500 {
        let key = random.below(300);
        let done = match random.below(5) {
            0 => store.delete(key),
            _ => store.put(key, format!("{round}").as_bytes()),
        };
        if done.is_err() {
            store.flush().unwrap();
            // Some steps, so that links are left; all of them where places run short.
            let most = if store.view().free() < 40 { usize::MAX } else { random.below(6) as usize };
            let mut tidy = || store.tidy().expect("there is room for a merge");
            std::iter::from_fn(&mut tidy).take(most).for_each(|_| {});
        }
        if round % 50 > 0 {
            continue;
        }
        let (view, report) = (store.view(), store.report().unwrap());
        let live: [u16; 4] = std::array::from_fn(|level| view.levels[level].len() as u16);
        let hanging: usize = view.levels.iter().flatten().map(|table| table.links.len()).sum();
        let frozen = view.frozen.len() as u16;
        let (free, memory) = (view.free() as u16, view.memory.len() as u16);
        let shown = Report { free, live, frozen, links: hanging as u16, memory };
        assert_eq!(shown, report);
        let linked: usize = view.frozen.iter().map(|it| view.linked_from(it.place).len()).sum();
        assert_eq!(linked, hanging);
        (0..300).for_each(|key| assert_eq!(read_in(&view, Key(key)), store.look_up(key).unwrap()));
        links += hanging;
    }
    assert!(links > 50);
    assert_eq!(store.memory().to_bytes(), memory.to_bytes());
}
