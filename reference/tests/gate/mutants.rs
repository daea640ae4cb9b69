//! Every planted slip is caught: by the judge alone where demand 3 can see it, and by comparison. Slips in the letter show on
//! damaged stores alone, and are also caught by the letter that the plan of the damages says; slips in refused savings and openings
//! show there alone, and are also caught by plans of these.

use crate::common::{announce, on_two_threads};
use reference::generate::keys::Keys;
use reference::generate::opening::Opening;
use reference::generate::plan::Plan;
use reference::generate::planted::{planted, planted_with_marks};
use reference::generate::profile::{Source, DELETING, PROFILES};
use reference::generate::random::Random;
use reference::generate::relieved;
use reference::generate::requests::report;
use reference::generate::saving::Saving;
use reference::implementation::{Implementation, Reference};
use reference::lent::Lent;
use reference::letters::{compare_with_plan, compare_with_reference};
use reference::limits::ANSWER_ROOM;
use reference::reopened::{compare_open, compare_save};
use reference::slip::Slip;
use reference::trial::{compare, Eyes, Trial, UNTOUCHED};

/// Slips that the judge need not see, and why; a comparison has to catch them.
const UNSEEN_BY_JUDGE: &[(Slip, &str)] = &[
    (Slip::ReportCountsFrozenNotLinks, "demand 3 does not measure reports"),
    (Slip::EmptyFlushWantsPlace, "demand 3 does not measure the result of a flush"),
    (Slip::LevelAfterStepReplied, "demand 3 does not measure the reply of a tidy"),
    (Slip::StopWithRoomLeft, "demand 3 takes the requests served as they are"),
    (Slip::FreedPlaceCleared, "demand 3 does not measure the bytes of free places"),
    (Slip::LongEntryUnsound, "demand 3 does not measure runs that are refused"),
    (Slip::MemoryJudgedBeforePlaces, "demand 3 does not measure runs that are refused"),
    (Slip::FrozenJudgedWithLinks, "demand 3 does not measure runs that are refused"),
    (Slip::LastBrokenGiven, "demand 3 does not measure runs that are refused"),
    (Slip::MoreBitsAreSound, "demand 3 does not measure runs that are refused"),
    (Slip::FreeBitsNotAsked, "demand 3 does not measure runs that are refused"),
    (Slip::WrongBitsJudgedLast, "demand 3 does not measure runs that are refused"),
    (Slip::OpenWritesBeforeCheck, "demand 3 does not measure openings that are refused"),
    (Slip::SavedListCountAnyPlaces, "demand 3 does not measure openings that are refused"),
    (Slip::SaveJudgesRoomFirst, "demand 3 does not measure savings that are refused"),
    (
        Slip::CursorAtTakenPlace,
        "the place just taken is not free, so the next one taken is the same",
    ),
    (
        Slip::MarkSetByMergeInPlaceOfChoice,
        "shows in a much later choice among several tables without links, if at all",
    ),
];

/// The same where the judge looks at all replies and the whole book.
const UNSEEN_BY_BOOK: &[(Slip, &str)] = &[
    (Slip::StopWithRoomLeft, "the judge takes the requests served as they are"),
    (Slip::FreedPlaceCleared, "the judge does not know the bytes of free places"),
    (Slip::LongEntryUnsound, "the judge follows no run that is refused"),
    (Slip::MemoryJudgedBeforePlaces, "the judge follows no run that is refused"),
    (Slip::FrozenJudgedWithLinks, "the judge follows no run that is refused"),
    (Slip::LastBrokenGiven, "the judge follows no run that is refused"),
    (Slip::MoreBitsAreSound, "the judge follows no run that is refused"),
    (Slip::FreeBitsNotAsked, "the judge follows no run that is refused"),
    (Slip::WrongBitsJudgedLast, "the judge follows no run that is refused"),
    (Slip::OpenWritesBeforeCheck, "the judge follows no opening that is refused"),
    (Slip::SavedListCountAnyPlaces, "the judge follows no opening that is refused"),
    (Slip::SaveJudgesRoomFirst, "the judge follows no saving that is refused"),
];

/// Slips in the letter, and in which bits are sound, which show on damaged stores alone.
const IN_THE_LETTER: [Slip; 6] = [
    Slip::MemoryJudgedBeforePlaces,
    Slip::FrozenJudgedWithLinks,
    Slip::LastBrokenGiven,
    Slip::MoreBitsAreSound,
    Slip::FreeBitsNotAsked,
    Slip::WrongBitsJudgedLast,
];

/// Slips in openings that are accepted, which histories with openings show, too.
const IN_OPENINGS: [Slip; 3] =
    [Slip::CursorToAddedPlaces, Slip::OpenLeavesBitsOut, Slip::OpenGivesFreeCardsBits];

/// Slips in what is refused of savings and openings.
const IN_SAVING: [Slip; 3] =
    [Slip::OpenWritesBeforeCheck, Slip::SavedListCountAnyPlaces, Slip::SaveJudgesRoomFirst];

/// Histories that a mutant may live through before it counts as not caught.
const HISTORIES: u64 = 1500;

/// The same for slips that these eyes need not see.
const HISTORIES_UNSEEN: u64 = 60;

/// How a mutant was caught: after how many requests, and in what words.
struct Catch {
    requests: u64,
    words: String,
}

/// Keys and number of places, in turn.
fn shape(number: u64) -> (Keys, usize) {
    let turn = number as usize;
    let keys = [Keys::Dense(300), Keys::Wide(500), Keys::Edges(150)][turn % 3];
    (keys, [16, 24, 40, 64, 96][turn / 3 % 5])
}

/// Begins a history: mostly short ones on planted stores, where a few tidies show most.
/// Gives the history, its requests and how many runs it has.
fn history(subject: &Reference, eyes: Eyes, number: u64) -> (Trial<'_>, Source, usize) {
    let mut random = Random::new(7_000_000 + number);
    let turn = number as usize;
    let (keys, places) = shape(number);
    if number % 50 == 28 {
        let trial = Trial::of_sound_store(subject, eyes, relieved::deep());
        return (trial, Source::new(PROFILES[4], keys, number), 24);
    }
    if number % 10 == 9 {
        let threshold = 1 + number / 10 % 8;
        let trial = Trial::of_new_store(subject, eyes, Lent::zeroed(places), threshold);
        let profile = PROFILES[turn / 10 % PROFILES.len()];
        return (trial.expect("no slip is in make"), Source::new(profile, keys, number), 300);
    }
    let (store, profile) = match number % 10 {
        7 => (planted_with_marks(&mut random, places, keys), DELETING),
        _ => (planted(&mut random, places, keys), PROFILES[[4, 4, 0, 1][turn % 4]]),
    };
    let lent = store.encode();
    (Trial::of_sound_store(subject, eyes, lent), Source::new(profile, keys, number), 24)
}

/// A store with planned damage.
fn damaged(number: u64) -> (Lent, Plan) {
    let mut random = Random::new(8_000_000 + number);
    let (keys, places) = shape(number);
    let mut lent = planted(&mut random, places, keys).encode();
    let plan = Plan::plant(&mut lent, &mut random);
    (lent, plan)
}

/// Compares a mutant's run on lent memory of any content.
fn compare_run(subject: &Reference, lent: Lent) -> Result<(), String> {
    let mut after = lent.clone();
    let mut answers = vec![UNTOUCHED; ANSWER_ROOM];
    let ran = subject.run(&mut after, &report(), &mut answers);
    compare(lent, &report(), &ran, &answers, &after)
}

/// A saving and an opening that may well be refused.
fn saving_and_opening(number: u64) -> (Saving, Opening) {
    let mut random = Random::new(9_000_000 + number);
    let (keys, places) = shape(number);
    let sound = planted(&mut random, places, keys).encode();
    (Saving::plan(&sound, &mut random), Opening::plan(&sound, &mut random))
}

/// Compares a mutant's saving and opening.
fn compare_saving(subject: &Reference, number: u64) -> Result<(), String> {
    let (saving, mut opening) = saving_and_opening(number);
    compare_save(subject, &saving.lent, saving.room)?;
    compare_open(subject, &mut opening.lent, &opening.saved, &opening.working).map(|_| ())
}

/// Places after an opening in the midst of a history: every fifth history has some.
fn places_after(number: u64, run: usize, places: usize) -> Option<usize> {
    let opens = number % 5 == 3 && run % 8 == 5 && places < 200;
    opens.then(|| [places + 1, 2 * places, places][run / 8 % 3])
}

/// Runs a mutant through histories until these eyes find something; the comparison is also shown a damaged store with each.
fn catch(slip: Slip, eyes: Eyes) -> Option<Catch> {
    let subject = Reference { slip: Some(slip) };
    let need_not_see = match eyes {
        Eyes::Judge => unseen(slip, UNSEEN_BY_JUDGE),
        Eyes::WholeBook => unseen(slip, UNSEEN_BY_BOOK),
        _ => false,
    };
    let mut requests = 0;
    for number in 0..if need_not_see { HISTORIES_UNSEEN } else { HISTORIES } {
        let (mut trial, mut source, runs) = history(&subject, eyes, number);
        for run in 0..runs {
            // Two requests now and then, so that a stop has something to stop before.
            let (count, room) = if run % 16 == 0 { (2, 1030) } else { (1, 1024) };
            let mut ran = trial.run(&source.list(count), room).map(|_| ());
            if let Some(places) = places_after(number, run, trial.lent.cards.len()) {
                let mut random = Random::new(number);
                ran = ran.and_then(|()| trial.reopen(places, &mut random));
            }
            if let Err(finding) = ran {
                return Some(Catch { requests: requests + trial.served, words: finding.words });
            }
        }
        requests += trial.served;
        if eyes == Eyes::Comparison {
            let refused = compare_run(&subject, damaged(number).0);
            if let Err(words) = refused.and_then(|()| compare_saving(&subject, number)) {
                return Some(Catch { requests, words });
            }
        }
    }
    None
}

fn unseen(slip: Slip, known: &[(Slip, &str)]) -> bool {
    known.iter().any(|(unseen, _)| *unseen == slip)
}

/// The eyes that each mutant is shown to.
const ALL_EYES: [Eyes; 3] = [Eyes::Judge, Eyes::WholeBook, Eyes::Comparison];

/// A line of the table: the slip, after how many requests each pair of eyes saw it, and what.
fn line(slip: Slip, catches: &[Option<Catch>; 3]) -> String {
    let after = |catch: &Option<Catch>| {
        let requests = catch.as_ref().map_or("-".into(), |catch| catch.requests.to_string());
        format!("{requests:>12}")
    };
    let words = catches.iter().flatten().next().map_or("", |catch| &catch.words);
    let words: String = words.chars().take(60).collect();
    format!("{:<30}{}  {words}", format!("{slip:?}"), catches.each_ref().map(after).concat())
}

#[test]
fn every_mutant_is_caught() {
    let caught = on_two_threads(Slip::ALL, |slip| ALL_EYES.map(|eyes| catch(*slip, eyes)));
    announce("caught after so many requests by      judge  whole book  comparison");
    for (slip, catches) in Slip::ALL.iter().zip(&caught) {
        announce(&line(*slip, catches));
    }
    for (slip, [judge, whole_book, comparison]) in Slip::ALL.iter().zip(&caught) {
        assert!(comparison.is_some(), "{slip:?} is not caught by comparison");
        let by_judge = judge.is_some() || unseen(*slip, UNSEEN_BY_JUDGE);
        assert!(by_judge, "{slip:?} is not caught by the judge");
        let by_book = whole_book.is_some() || unseen(*slip, UNSEEN_BY_BOOK);
        assert!(by_book, "{slip:?} is not caught by the whole book");
    }
}

/// The first of so many damaged stores on which something is found.
fn first_found(found: impl Fn(Lent, Plan) -> Result<(), String>) -> Option<u64> {
    let fails = |number: &u64| {
        let (lent, plan) = damaged(*number);
        found(lent, plan).is_err()
    };
    (0..HISTORIES).find(fails)
}

#[test]
fn slips_in_the_letter_are_caught_by_run_check_and_plan() {
    announce("first damaged store that shows it in       run       check        plan");
    for slip in IN_THE_LETTER {
        let subject = Reference { slip: Some(slip) };
        let stores = [
            first_found(|lent, _| compare_run(&subject, lent)),
            first_found(|lent, _| compare_with_reference(&subject, &lent)),
            first_found(|lent, plan| compare_with_plan(&subject, &lent, &plan)),
        ];
        let words = stores.map(|store| format!("{:>12}", store.map_or(-1, |it| it as i64)));
        announce(&format!("{:<30}{}", format!("{slip:?}"), words.concat()));
        assert!(stores.iter().all(Option::is_some), "{slip:?} is not caught");
    }
}

#[test]
fn slips_in_savings_and_openings_are_caught_by_comparison_and_plan() {
    announce("first saving or opening that shows it in   comparison        plan");
    for slip in IN_SAVING.into_iter().chain(IN_OPENINGS) {
        let subject = Reference { slip: Some(slip) };
        let by_plan = |number: &u64| {
            let (saving, opening) = saving_and_opening(*number);
            saving.hold(&subject).and(opening.hold(&subject)).is_err()
        };
        let found = [
            (0..HISTORIES).find(|number| compare_saving(&subject, *number).is_err()),
            (0..HISTORIES).find(by_plan),
        ];
        let words = found.map(|number| format!("{:>12}", number.map_or(-1, |it| it as i64)));
        announce(&format!("{:<40}{}", format!("{slip:?}"), words.concat()));
        assert!(found.iter().all(Option::is_some), "{slip:?} is not caught");
    }
}

/// All source files of the store's code, as one text.
fn sources() -> String {
    let directory = std::path::Path::new(env!("CARGO_MANIFEST_DIR")).join("src");
    let files = std::fs::read_dir(directory).expect("the sources are there");
    let paths = files.map(|file| file.expect("a file can be named").path());
    let rust = paths.filter(|path| path.extension().is_some_and(|end| end == "rs"));
    rust.map(|path| std::fs::read_to_string(path).expect("a source can be read")).collect()
}

#[test]
fn every_slip_is_consulted_in_one_place() {
    let sources = sources();
    for slip in Slip::ALL {
        let name = format!("Slip::{slip:?}");
        let ends = |rest: &&str| !rest.starts_with(|next: char| next.is_alphanumeric());
        assert_eq!(sources.split(&name).skip(1).filter(ends).count(), 1, "{name}");
    }
}
