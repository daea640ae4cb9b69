//! Summary bits and kind 8 (note 6): the bits of keys by hand, cases by name and which slips show in them, look-ups with and
//! without the bits, and wrong bits met by check, run and save.

use crate::build::{hex, new_lent, serve};
use crate::common::announce;
use crate::damage::planted_lent;
use reference::generate::probed;
use reference::generate::probes::Probes;
use reference::generate::random::Random;
use reference::generate::requests::{delete, flush, probe, put, twin};
use reference::generate::sketch::{Case, Sketch};
use reference::generate::summed;
use reference::implementation::{Implementation, Reference};
use reference::lent::*;
use reference::letters::said;
use reference::reached::Reached;
use reference::slip::Slip;
use reference::store::{Place, Store};
use reference::summary::{bits_of, bits_set, summary_of, NO_BITS};
use reference::table::{Entry, Key};
use reference::trial::Eyes;

const SUBJECT: Reference = Reference { slip: None };

/// Makes a test of each case of a module, and a list of all by name.
macro_rules! tests_of {
    ($list:ident, $module:ident, $cases:ty, $($name:ident)*) => {
        $(
            #[test]
            fn $name() {
                for (number, case) in $module::$name().iter().enumerate() {
                    assert_eq!(case.hold(&SUBJECT, Eyes::WholeBook), Ok(()), "case {number}");
                }
            }
        )*

        const $list: &[Named<$cases>] = &[$((stringify!($name), $module::$name)),*];
    };
}

macro_rules! probed_tests {
    ($($name:ident)*) => { tests_of!(PROBED, probed, Probes, $($name)*); };
}

macro_rules! summed_tests {
    ($($name:ident)*) => { tests_of!(SUMMED, summed, Case, $($name)*); };
}

reference::every_probed_case!(probed_tests);
reference::every_summed_case!(summed_tests);

/// Slips in which tables are asked and what kind 8 says of it.
const IN_PROBES: [Slip; 13] = [
    Slip::OldestLevel0TableReadFirst,
    Slip::OldestLinkReadFirst,
    Slip::Level0AskedByKeys,
    Slip::AskedByOwnKeys,
    Slip::LinksAskedBeyondRange,
    Slip::MemoryCounted,
    Slip::ClosedTablesCounted,
    Slip::DecidingTableNotCounted,
    Slip::BitsOfLastTableAlone,
    Slip::ThreeBitsForEachKey,
    Slip::FoundByMark,
    Slip::EmptyValueNotFound,
    Slip::ProbeSays64,
];

/// Slips in which bits a card has after a step.
const IN_STEPS: [Slip; 5] = [
    Slip::WeightsFromZero,
    Slip::MarksWithoutBits,
    Slip::BitsLeftOnFreedCard,
    Slip::FrozenCardLosesBits,
    Slip::MovedCardLosesBits,
];

/// Cases by the name of the function that gives them.
type Named<C> = (&'static str, fn() -> Vec<C>);

/// Fails unless each slip shows in a case by name, and each case fails with some slip.
fn shows<C>(slips: &[Slip], list: &[Named<C>], holds: impl Fn(&C, &Reference) -> bool) {
    let fails = |slip: Slip, cases: &[C]| {
        let subject = Reference { slip: Some(slip) };
        cases.iter().any(|case| !holds(case, &subject))
    };
    for slip in slips {
        let names = list.iter().filter(|(_, cases)| fails(*slip, &cases())).count();
        announce(&format!("{slip:?} shows in {names} of {} cases", list.len()));
        assert!(names > 0, "{slip:?} shows in none");
    }
    for (name, cases) in list {
        let cases = cases();
        assert!(slips.iter().any(|slip| fails(*slip, &cases)), "{name} holds with every slip");
    }
}

#[test]
fn every_slip_in_probes_shows_in_a_case_by_name_and_every_case_shows_one() {
    shows(&IN_PROBES, PROBED, |case, subject| case.hold(subject, Eyes::Comparison).is_ok());
}

#[test]
fn every_slip_in_bits_shows_at_a_step_by_name_and_every_step_shows_one() {
    shows(&IN_STEPS, SUMMED, |case, subject| case.hold(subject, Eyes::Comparison).is_ok());
}

#[test]
fn bits_of_keys_by_hand() {
    let cases: [(Key, [u8; 3]); 9] = [
        (0, [0, 0, 0]),
        (5, [5, 5, 5]),
        (255, [255, 255, 255]),
        (0x0100, [1, 1, 2]),
        (0x0102, [3, 3, 4]),
        (0x01_02_03, [0, 6, 10]),
        (1 << 63, [128, 128, 0]),
        // 1 to 8, their squares added up.
        (0x0807_0605_0403_0201, [8, 36, 204]),
        // 8 times 255 and 36 times 255.
        (Key::MAX, [0, 248, 220]),
    ];
    for (key, bits) in cases {
        assert_eq!(bits_of(key, None), bits, "{key:x}");
    }
}

#[test]
fn bit_n_is_bit_n_mod_8_of_byte_n_div_8() {
    let mut expected = NO_BITS;
    expected[0] = 0b0010_0001;
    expected[27] = 0b0001_0000;
    expected[31] = 0b0000_0001;
    // Bits 0 and 5, then 220 and 248 of the greatest key.
    assert_eq!(summary_of([5, Key::MAX]), expected);
    assert_eq!(bits_set(&expected), 4);
    let mut row = ROW_FREE;
    put_summary(&mut row, &expected);
    assert_eq!(row[34..], [0b10_0001, 0, 0, 1 << (220 - 192) | 1 << (248 - 192)]);
    assert_eq!(summary_of_row(&row), expected);
}

#[test]
fn a_twin_has_the_same_bits() {
    let mut random = Random::new(61);
    for _ in 0..10_000 {
        let key = random.word() >> random.below(64);
        assert_ne!(twin(key), key);
        assert_eq!(bits_of(twin(key), None), bits_of(key, None), "{key:x}");
    }
}

/// Keys to ask a store for: all that it has anywhere, those next to them, twins, and any.
fn keys_to_ask(store: &Store, random: &mut Random) -> Vec<Key> {
    let used = |place: &usize| store.places[*place] != Place::Free;
    let places: Vec<usize> = (0..store.places.len()).filter(used).collect();
    let held =
        places.iter().flat_map(|place| store.table(*place).keys()).chain(store.memory.keys());
    let near = held.flat_map(|key| [*key, twin(*key), key.wrapping_add(1), key.wrapping_sub(1)]);
    let mut keys: Vec<Key> = near.collect();
    keys.extend((0..20).map(|_| random.word()));
    keys
}

#[test]
fn every_look_up_is_as_without_the_bits() {
    let mut random = Random::new(62);
    let names =
        ["value", "mark", "nothing, some opened", "nothing, none opened", "more than three opened"];
    let mut reached = Reached::requiring(names.map(String::from));
    for number in 0..400 {
        let store = Store::decode(&planted_lent(&mut random, number)).expect("sound");
        let most = store.levels[0].len() + 3 * (store.threshold + 1);
        for key in keys_to_ask(&store, &mut random) {
            assert_eq!(store.look_up(key), store.look_up_plainly(key), "key {key}");
            let probed = store.probe(key);
            assert!(probed.opened <= most, "{} of at most {most}", probed.opened);
            reached.count(match (probed.entry, probed.opened) {
                (Some(Entry::Value(_)), _) => names[0],
                (Some(Entry::DeleteMark), _) => names[1],
                (None, 1..) => names[2],
                (None, 0) => names[3],
            });
            if probed.opened > 3 {
                reached.count(names[4]);
            }
        }
    }
    announce(&format!("look-ups with and without bits:\n{reached}"));
    assert!(reached.missing().is_empty(), "never reached: {:?}", reached.missing());
}

#[test]
fn replies_of_kind_8_in_hexadecimal() {
    let mut lent = new_lent(16, 4);
    let list = [put(5, b"A"), delete(6), probe(5), flush(), probe(5), probe(6), probe(7)];
    let answers = serve(&mut lent, &list).answers;
    let done = "06000100 0000 06000200 0000";
    let in_memory = "0F000800 0000 0100 0000 00000000 41";
    let in_table = "0F000800 0000 0100 0100 02000000 41";
    let by_mark = "0E000800 0000 0000 0100 02000000";
    let none = "0E000800 0000 0000 0000 00000000";
    let expected = [done, in_memory, "06000500 0000", in_table, by_mark, none].concat();
    assert_eq!(answers, hex(&expected));
}

/// A sound store with a live, a frozen and a free card.
fn sound() -> Lent {
    let store = Sketch::of(16, 4).live(0, 1, "10 20").frozen(1, "5 x258").memory("7");
    store.link(0, [1, 0, Key::MAX, 2]).lent()
}

#[test]
fn every_single_bit_of_every_card_is_judged() {
    let sound = sound();
    for (place, letter) in [(0, b'C'), (1, b'C'), (2, b'G'), (15, b'G')] {
        for bit in 0..256 {
            let mut lent = sound.clone();
            lent.cards[place][ROW_SUMMARY + bit / 64] ^= 1 << (bit % 64);
            assert_eq!(said(&SUBJECT, &lent), Ok((5, letter)), "card {place}, bit {bit}");
            let mut buffer = [0; 4096];
            let saved = SUBJECT.save(&lent, &mut buffer);
            assert_eq!((saved.number, saved.letter, saved.length), (5, letter, 0));
        }
    }
}

#[test]
fn opening_works_the_bits_out_afresh() {
    let sound = sound();
    let mut book = vec![0; 4096];
    let length = SUBJECT.save(&sound, &mut book).length;
    for places in [16, 17, 40] {
        let mut lent = Lent::zeroed(places);
        // The added places hold a table, and the lent rows have bits; neither counts.
        lent.area[..sound.area.len()].copy_from_slice(&sound.area);
        for added in 16..places {
            lent.area.copy_within(..1024, added * 1024);
        }
        lent.cards.fill([u64::MAX; ROW_WORDS]);
        let mut working = vec![[7; ROW_WORDS]; places];
        assert_eq!(SUBJECT.open(&mut lent, &book[..length], &mut working), (0, 0));
        assert_eq!(lent.cards[..16], sound.cards);
        assert!(lent.cards[16..].iter().all(|row| *row == ROW_FREE));
        assert_eq!(working, lent.cards);
    }
}

#[test]
fn a_card_whose_place_holds_no_table_is_opened_without_bits() {
    let sound = sound();
    let mut book = vec![0; 4096];
    let length = SUBJECT.save(&sound, &mut book).length;
    let mut lent = sound.clone();
    // Place 1 has another kind, place 0 is as it was.
    lent.area[1024 + 2] = 31;
    let before = lent.clone();
    let mut working = vec![[7; ROW_WORDS]; 16];
    assert_eq!(SUBJECT.open(&mut lent, &book[..length], &mut working), (5, b'C'));
    assert_eq!(lent, before);
    let mut rows = sound.cards.clone();
    rows[1][ROW_SUMMARY..].fill(0);
    assert_eq!(working, rows);
}
