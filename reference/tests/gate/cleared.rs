//! What a survey of deletes leaves behind, by the rule of note 5 and by the one before it: places in
//! use, delete marks and entries once tidying has come to rest. Prints a table for docs/CHANGES.md.

use crate::build::new_lent;
use crate::common::announce;
use reference::generate::random::Random;
use reference::generate::requests::{delete, flush, put, scan, tidy};
use reference::implementation::{Implementation, Reference};
use reference::lent::Lent;
use reference::slip::Slip;
use reference::store::Store;
use reference::table::{Entry, Key};

/// A survey: so many joints on four lines are put, then some are deleted.
#[derive(Clone, Copy, Debug)]
struct Survey {
    places: usize,
    keys: u64,
    /// Of ten keys so many are deleted.
    deleted: u64,
    /// Whether keys come line after line, or in no order.
    in_order: bool,
}

/// Keys of the large survey. There the rules differ in few merges, and tidying goes other ways after
/// them, so that a place more may be in use now and then.
const LARGE: u64 = 1280;

/// What is in use at rest.
#[derive(Clone, Copy, PartialEq, Eq, Debug)]
struct InUse {
    /// Live and frozen ones.
    places: usize,
    /// Delete marks in live tables and in slices.
    marks: usize,
    /// All entries there.
    entries: usize,
    /// Live tables on each level.
    levels: [usize; 4],
}

impl Survey {
    fn keys(&self, seed: u64) -> Vec<Key> {
        let joint = |joint: u64| ((joint * 4 / self.keys) << 40) + joint * 2500;
        let mut keys: Vec<Key> = (0..self.keys).map(joint).collect();
        if !self.in_order {
            Random::new(seed).shuffle(&mut keys);
        }
        keys
    }

    /// Puts and deletes, and after every sixteen a flush and tidies until there is nothing to do.
    fn run(&self, slip: Option<Slip>) -> Lent {
        let mut lent = new_lent(self.places, 4);
        let puts: Vec<Vec<u8>> = self.keys(1).iter().map(|key| put(*key, b"crack 12")).collect();
        let gone = self.keys(2).into_iter().filter(|key| key / 2500 % 10 < self.deleted);
        let deletes: Vec<Vec<u8>> = gone.map(delete).collect();
        for table in puts.chunks(16).chain(deletes.chunks(16)) {
            serve(&mut lent, slip, &[table.concat(), flush()].concat());
            while serve(&mut lent, slip, &tidy().repeat(8)) == 0 {}
        }
        lent
    }
}

/// Runs a list; gives the result of its last reply, which is 0 or 65: no survey here wants for places.
fn serve(lent: &mut Lent, slip: Option<Slip>, list: &[u8]) -> u8 {
    let mut answers = vec![0; 4096];
    let ran = Reference { slip }.run(lent, list, &mut answers);
    assert_eq!(ran.number, 0);
    let (mut at, mut result) = (0, 0);
    while at < ran.written {
        result = answers[at + 4];
        assert!([0, 65].contains(&result), "result {result}");
        at += usize::from(answers[at]);
    }
    result
}

fn in_use(lent: &Lent) -> InUse {
    let store = Store::decode(lent).expect("sound");
    let mut entries: Vec<&Entry> = Vec::new();
    for place in store.levels.iter().flatten() {
        let (table, links) = store.live(*place);
        entries.extend(table.values());
        for link in links {
            let slice = store.frozen(link.place).range(link.low..=link.high);
            entries.extend(slice.map(|(_, entry)| entry));
        }
    }
    let marks = entries.iter().filter(|entry| ***entry == Entry::DeleteMark).count();
    let levels = [0, 1, 2, 3].map(|level| store.levels[level].len());
    InUse { places: lent.cards.len() - store.free(), marks, entries: entries.len(), levels }
}

/// Small surveys, and one so large that much of it stands on level 3.
fn surveys() -> Vec<Survey> {
    let mut surveys = Vec::new();
    for (places, keys) in [(64, 100), (64, 320), (256, 480), (256, LARGE)] {
        for deleted in [5, 9, 10] {
            let survey = |in_order| Survey { places, keys, deleted, in_order };
            surveys.extend([true, false].map(survey));
        }
    }
    surveys
}

#[test]
fn a_small_survey_of_deletes_needs_no_more_places_than_before_the_note() {
    announce("at rest after deletes        places in use  delete marks      entries  live tables");
    announce("   P   keys deleted  order      old    new    old    new    old    new  old; new");
    let mut fewer = 0;
    for survey in surveys() {
        let [old, new] = [Some(Slip::MarksGoOnLevel3Alone), None].map(|slip| survey.run(slip));
        assert_eq!(read_all(&old), read_all(&new), "{survey:?}");
        let (old, new) = (in_use(&old), in_use(&new));
        let Survey { places, keys, deleted, in_order } = survey;
        announce(&format!(
            "{places:>4} {keys:>6} {deleted:>5}/10  {:<5} {:>7} {:>6} {:>6} {:>6} {:>6} {:>6}  {:?}; {:?}",
            if in_order { "lines" } else { "none" },
            old.places,
            new.places,
            old.marks,
            new.marks,
            old.entries,
            new.entries,
            old.levels,
            new.levels,
        ));
        assert!(new.places <= old.places || keys == LARGE, "{survey:?}");
        assert!(new.marks <= old.marks, "{survey:?}");
        fewer += usize::from(new.places < old.places);
    }
    assert!(fewer > 10, "in {fewer} surveys alone the note makes a difference");
}

/// The replies of scans over all keys of the four lines, sixteen joints at a time.
fn read_all(lent: &Lent) -> Vec<u8> {
    let lows = (0..4u64).flat_map(|line| (0..100).map(move |part| (line << 40) + part * 40_000));
    let scans: Vec<Vec<u8>> = lows.map(|low| scan(low, low + 39_999)).collect();
    let mut answers = vec![0; 1 << 19];
    let ran = Reference::default().run(&mut lent.clone(), &scans.concat(), &mut answers);
    assert_eq!(ran.served, scans.len());
    answers.truncate(ran.written);
    answers
}
