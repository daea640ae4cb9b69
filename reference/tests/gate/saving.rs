//! Saving and opening in the large (note 4): journeys over more and more places under one judge, round trips of planted stores, and
//! plans of savings and openings that are refused for one reason or several.

use crate::common::{announce, on_two_threads};
use crate::damage::planted_lent;
use reference::generate::book::longest_bytes;
use reference::generate::full::most_links;
use reference::generate::opening::{self, Opening};
use reference::generate::random::Random;
use reference::generate::saving::{self, Saving};
use reference::implementation::{Implementation, Reference};
use reference::journey::{self, journey};
use reference::reached::Reached;
use reference::trial::{Eyes, Trial};

const JOURNEYS: u64 = 64;

#[test]
fn journeys_over_more_places_are_judged_right() {
    let seeds: Vec<u64> = (0..JOURNEYS).collect();
    let subject = Reference::default();
    let results = on_two_threads(&seeds, |seed| journey(&subject, Eyes::WholeBook, *seed));
    let mut reached = Reached::requiring(journey::required());
    let mut served = 0;
    for result in results {
        let (part, requests) = result.unwrap_or_else(|words| panic!("{words}"));
        reached.add(&part);
        served += requests;
    }
    let openings = |(name, _): &(&str, u64)| name.starts_with("opened") || name.contains("20");
    let counts: Vec<_> = reached.iter().filter(openings).collect();
    announce(&format!("{served} requests in {JOURNEYS} journeys; {counts:?}"));
    assert!(reached.missing().is_empty(), "never reached: {:?}", reached.missing());
}

#[test]
fn planted_stores_come_back() {
    let mut random = Random::new(51);
    let subject = Reference::default();
    for number in 0..300 {
        let lent = planted_lent(&mut random, number);
        let places = lent.cards.len();
        let mut trial = Trial::of_sound_store(&subject, Eyes::WholeBook, lent);
        for places in [places, places + 1, 2 * places] {
            assert_eq!(trial.reopen(places, &mut random), Ok(()), "store {number}");
        }
    }
}

#[test]
fn the_longest_book_needs_more_than_two_bytes_of_length() {
    let mut random = Random::new(52);
    let subject = Reference::default();
    let lent = most_links(&mut random, 4096).encode();
    let mut buffer = vec![0; longest_bytes(4096)];
    let saved = subject.save(&lent, &mut buffer);
    // 1,365 groups of two live cards with eight links and one frozen card, and a free one; 2,730 places on level 3.
    let expected = 32 + 4 * 4096 + 20 * 16 * 1365 + 8 + 2 * 2730 + 2 + 16 * 63;
    assert_eq!((saved.number, saved.length), (0, expected));
    assert_eq!(buffer[..4], (expected as u32).to_le_bytes());
    assert!(expected > usize::from(u16::MAX));
    let mut trial = Trial::of_sound_store(&subject, Eyes::WholeBook, lent);
    assert_eq!(trial.reopen(4096, &mut random), Ok(()));
    assert_eq!(trial.reached.times("saved in more than 65,535 bytes"), 1);
}

#[test]
fn plans_of_savings_and_openings_hold() {
    let mut random = Random::new(53);
    let names = saving::required().into_iter().chain(opening::required());
    let mut reached = Reached::requiring(names);
    let subject = Reference::default();
    for number in 0..500 {
        let sound = planted_lent(&mut random, number);
        for _ in 0..24 {
            let saving = Saving::plan(&sound, &mut random);
            assert_eq!(saving.hold(&subject), Ok(()), "store {number}");
            let opening = Opening::plan(&sound, &mut random);
            assert_eq!(opening.hold(&subject), Ok(()), "store {number}");
            let names = saving.names.into_iter().chain(opening.names);
            names.for_each(|name| reached.count(name));
        }
    }
    announce(&format!("planned savings and openings:\n{reached}"));
    assert!(reached.missing().is_empty(), "never reached: {:?}", reached.missing());
}
