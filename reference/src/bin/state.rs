//! Prints a list of requests, its answers and the lent memory that it leaves, as lines of numbers,
//! for `tools/compare-definition`.

use reference::generate::descent::{self, descent};
use reference::generate::keys::Keys;
use reference::generate::profile::{Source, DELETING, PROFILES};
use reference::implementation::Ran;
use reference::judge::{Deed, Judge, Trigger};
use reference::lent::Lent;
use reference::run::{make, run, Outcome};
use std::process::ExitCode;

const HELP: &str = "\
Usage: state SEED COUNT [deletes]
       state descent

Serves requests on a new store of 16 places and prints a line each for: threshold, list, answers,
area, cards, lists, head and memory. Then follows what no answer says: how many merges were due by
weight alone (weighed), and of levels 1 and 2 each how many delete marks merges dropped, how many
they kept, and how many merges left nothing (marks). A line is a name and numbers. A card has 38 of
them: state, link count, four for each of eight links, and the four words of its summary.

The requests are COUNT random ones, the same for the same SEED; with `deletes` most are deletes of
few keys. The list `descent` is always the same: delete marks stay on level 1 and go on level 2.";

const PLACES: usize = 16;

const KEYS: [Keys; 3] = [Keys::Dense(60), Keys::Edges(60), Keys::Wide(60)];

/// So few that all of a table's keys may be deleted.
const FEW: Keys = Keys::Dense(3);

/// Threshold and list that the words of the command line ask for.
fn asked(words: &[&str]) -> Option<(u64, Vec<u8>)> {
    let (seed, count, deletes): (usize, usize, bool) = match *words {
        ["descent"] => return Some((descent::THRESHOLD, descent())),
        [seed, count] => (seed.parse().ok()?, count.parse().ok()?, false),
        [seed, count, "deletes"] => (seed.parse().ok()?, count.parse().ok()?, true),
        _ => return None,
    };
    let random = (PROFILES[seed % PROFILES.len()], KEYS[seed % KEYS.len()]);
    let (profile, keys) = if deletes { (DELETING, FEW) } else { random };
    Some((1 + seed as u64 % 4, Source::new(profile, keys, seed as u64).list(count)))
}

fn main() -> ExitCode {
    let arguments: Vec<String> = std::env::args().skip(1).collect();
    let words: Vec<&str> = arguments.iter().map(String::as_str).collect();
    let Some((threshold, list)) = asked(&words) else {
        eprintln!("{HELP}");
        return ExitCode::FAILURE;
    };
    let mut lent = Lent::zeroed(PLACES);
    make(&mut lent, threshold);
    let outcome = run(&mut lent, &list, 1 << 20);
    let deeds = deeds(threshold, &list, &outcome, &lent);
    line("threshold", [threshold]);
    line("list", list.iter().map(|byte| u64::from(*byte)));
    line("answers", outcome.answers.iter().map(|byte| u64::from(*byte)));
    line("area", lent.area.iter().map(|byte| u64::from(*byte)));
    line("cards", lent.cards.iter().flatten().copied());
    line("lists", lent.lists.iter().map(|item| u64::from(*item)));
    line("head", lent.head);
    line("memory", lent.memory.map(u64::from));
    line("weighed", [merged_by_weight(&deeds)]);
    line("marks", [1, 2].into_iter().flat_map(|level| marks_on(level, &deeds)));
    ExitCode::SUCCESS
}

/// What the requests of a run on a new store did, which the judge works out.
fn deeds(threshold: u64, list: &[u8], outcome: &Outcome, after: &Lent) -> Vec<Deed> {
    let mut judge = Judge::of_new_store(PLACES, threshold as usize);
    let ran = Ran {
        number: outcome.number,
        letter: 0,
        served: outcome.served,
        written: outcome.answers.len(),
    };
    let followed = judge.follow(list, &ran, &outcome.answers, after).expect("judged right");
    followed.iter().filter_map(|request| request.deed).collect()
}

/// How many merges were due by weight alone.
fn merged_by_weight(deeds: &[Deed]) -> u64 {
    let by_weight = |deed: &&Deed| matches!(deed, Deed::Merged { due: Some(Trigger::Weight), .. });
    deeds.iter().filter(by_weight).count() as u64
}

/// Delete marks that merges on a level dropped, those that they kept, and merges that left nothing.
fn marks_on(level: usize, deeds: &[Deed]) -> [u64; 3] {
    let mut counts = [0; 3];
    for deed in deeds {
        if let Deed::Merged { on, tables, marks, .. } = deed {
            let more = [marks.dropped, marks.kept, usize::from(*tables == 0)];
            let here = u64::from(*on == level);
            counts.iter_mut().zip(more).for_each(|(count, more)| *count += here * more as u64);
        }
    }
    counts
}

fn line(name: &str, numbers: impl IntoIterator<Item = u64>) {
    let words: Vec<String> = numbers.into_iter().map(|number| number.to_string()).collect();
    println!("{name} {}", words.join(" "));
}
