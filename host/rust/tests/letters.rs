//! A store that breaks several rules is refused by the first of them in the order A to G, by a check and by a run.

mod common;

use common::linked;
use zilgwern::*;
use zilgwern_sys::Pieces as Raw;

fn raw(memory: &mut Memory) -> Raw {
    let Memory { area, cards, lists, head, memory } = memory;
    Raw { area: &mut area[..], cards: &mut cards[..], lists: &mut lists[..], head, memory }
}

/// The letter that comes with 5, or none with 0. A check, a run and the wrapper must agree; what is refused changes nothing.
fn letter(memory: &Memory) -> Option<char> {
    let mut lent = memory.clone();
    let mut checked = u64::MAX;
    // SAFETY: the pieces are those of one `Memory`, which is used for nothing else meanwhile.
    let number = unsafe { raw(&mut lent).check(&mut checked) };
    assert!(lent == *memory);
    // A put, so that a run that is not refused is seen.
    let list = List::new().put(5, b"put").unwrap().as_bytes().to_vec();
    let (mut answers, mut outcome) = (vec![0xA5; ANSWER_ROOM], [u64::MAX; 3]);
    // SAFETY: as above; list, answers and outcome are others.
    let ran = unsafe { raw(&mut lent).run(&list[..], &mut answers[..], &mut outcome) };
    assert_eq!(ran, number);
    assert_eq!(outcome[0], checked);
    let opened = Store::open(memory.clone().lend()).err();
    if number == 0 {
        assert_eq!((checked, opened, outcome), (0, None, [0, 1, 6]));
        assert!(lent != *memory);
        return None;
    }
    assert_eq!((number, outcome[1..].to_vec()), (5, vec![0, 0]));
    assert!(lent == *memory && answers.iter().all(|byte| *byte == 0xA5));
    let letter = char::from(u8::try_from(checked).unwrap());
    let told = opened.expect("the wrapper refuses it too");
    assert!(matches!(told, Error::Refused(Refused::NotSound(rule)) if rule.letter() == letter));
    let words = format!("5: store not sound, first broken rule {letter}: ");
    assert!(told.to_string().starts_with(&words), "{told}");
    Some(letter)
}

type Damage = fn(&mut Memory);

/// For each rule a damage that breaks it and none before it, whatever else is damaged.
const ALONE: [(char, Damage); 7] = [
    ('A', |lent| lent.head[0] = 9),
    // The card of a free place is neither free, live nor frozen.
    ('B', |lent| lent.cards[9][0] = 3),
    // A live table of another kind.
    ('C', |lent| lent.area[2 * 1024 + 2] = 0),
    ('D', |lent| lent.memory[1023] = 1),
    ('E', |lent| lent.cards[0][5] = 3),
    // A copy of a good table, frozen, to which no link leads.
    ('F', |lent| {
        lent.area.copy_within(1024..2048, 10 * 1024);
        lent.cards[10] = [0; 38];
        lent.cards[10][0] = 2;
        lent.cards[10][34] = 1 << 4 | 1 << 8;
    }),
    // The flag of a mark is neither 0 nor 1.
    ('G', |lent| lent.head[4] = 2),
];

/// Each set of the seven damages. Without its first one it is another of these sets, so mending and checking again, the next
/// letter comes, up to the sound store.
#[test]
fn of_any_rules_that_are_broken_the_first_is_told() {
    let sound = linked();
    let mut told = [0; 7];
    for set in 0..1 << ALONE.len() {
        let broken: Vec<_> = (0..7).filter(|at| set >> at & 1 == 1).collect();
        let mut lent = sound.clone();
        broken.iter().for_each(|at| ALONE[*at].1(&mut lent));
        let first = broken.first().map(|at| ALONE[*at].0);
        assert_eq!(letter(&lent), first, "{set:07b}");
        broken.first().into_iter().for_each(|at| told[*at] += 1);
    }
    assert_eq!(told, [64, 32, 16, 8, 4, 2, 1]);
}

/// Damage that breaks two or three rules, then each letter that comes and how it is mended, up to a sound store.
type Walk = (Damage, &'static [(char, Damage)]);

const WALKS: [Walk; 7] = [
    (
        // Zeros are no threshold and no memory table.
        |lent| *lent = Memory::zeroed(16),
        &[
            ('A', |lent| lent.head[0] = 4),
            ('D', |lent| lent.memory[..4].copy_from_slice(&[8, 0, 32, 0])),
        ],
    ),
    (
        // No threshold, and more links than any threshold allows here.
        |lent| (lent.head[0], lent.cards[0][1]) = (0, 5),
        &[('A', |lent| lent.head[0] = 4), ('E', |lent| lent.cards[0][1] = 1)],
    ),
    (
        // A live place in no list, with zeros for a table.
        |lent| lent.cards[9][0] = 1,
        &[
            ('B', |lent| (lent.lists[2], lent.head[6]) = (9, 3)),
            ('C', |lent| lent.area.copy_within(2048..3072, 9 * 1024)),
            // The table is good now, and its card has no bits.
            ('C', |lent| lent.cards[9][34..].copy_from_slice(&[1 << 6, 0, 0, 0])),
        ],
    ),
    (
        // A byte behind a frozen table, seventeen entries in memory, and a mark's flag above 1.
        |lent| (lent.area[2047], lent.memory[4], lent.head[2]) = (1, 17, u64::MAX),
        &[
            ('C', |lent| lent.area[2047] = 0),
            ('D', |lent| lent.memory[4] = 0),
            ('G', |lent| lent.head[2] = 0),
        ],
    ),
    (
        // The link names a live place, so the frozen one has none. Its words are left over when it is taken away.
        |lent| lent.cards[0][2] = 2,
        &[
            ('E', |lent| lent.cards[0][1] = 0),
            ('F', |lent| lent.cards[1][0] = 0),
            ('G', |lent| lent.cards[0][2..6].fill(0)),
            // The bits of the place that was freed by hand are left over too.
            ('G', |lent| lent.cards[1][34..].fill(0)),
        ],
    ),
    (
        // Wrong bits on a live card, keys in memory of no table, and a wrong number of a link.
        |lent| (lent.cards[2][37], lent.memory[4], lent.cards[0][5]) = (1 << 63, 1, 3),
        &[
            ('C', |lent| lent.cards[2][37] = 0),
            ('D', |lent| lent.memory[4] = 0),
            ('E', |lent| lent.cards[0][5] = 2),
        ],
    ),
    (
        // A state above 2, with bits, comes before wrong bits elsewhere; free, its bits are wrong for another reason.
        |lent| (lent.cards[9][0], lent.cards[9][34], lent.cards[1][36]) = (3, 1, 1),
        &[
            ('B', |lent| lent.cards[9][0] = 0),
            ('C', |lent| lent.cards[1][36] = 0),
            ('G', |lent| lent.cards[9][34] = 0),
        ],
    ),
];

#[test]
fn mended_rule_by_rule_the_next_letter_comes() {
    for (damage, mends) in WALKS {
        let mut lent = linked();
        damage(&mut lent);
        for (told, mend) in mends {
            assert_eq!(letter(&lent), Some(*told), "{mends:?}");
            mend(&mut lent);
        }
        assert_eq!(letter(&lent), None, "{mends:?}");
    }
    let letters = WALKS.map(|(_, mends)| mends.iter().map(|(told, _)| *told).collect::<String>());
    assert_eq!(letters, ["AD", "AE", "BCC", "CDG", "EFGG", "CDE", "BCG"]);
}

/// Who sorts stores by the first broken rule gets the order A to G.
#[test]
fn rules_are_ordered_as_their_letters_are() {
    let mut rules = Rule::ALL;
    rules.reverse();
    rules.sort();
    assert_eq!(rules.map(Rule::letter), ['A', 'B', 'C', 'D', 'E', 'F', 'G']);
}
