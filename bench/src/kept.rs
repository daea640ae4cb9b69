//! What it costs to keep a store between jobs, on stores that are full of tables and links: saving its book and opening it again, beside
//! other ways to keep the same entries. Every way checks what it reads, and what comes back is compared.

use crate::clock::timed;
use crate::engine::Engine;
use crate::engines::Sqlite;
use crate::rounds::median;
use crate::workload::{Key, Put, Value};
use reference::generate::full::full;
use reference::generate::random::Random;
use reference::implementation::{Implementation, Reference};
use reference::lent::Lent;
use reference::limits::VALUE_BYTES;
use reference::store::Place;
use reference::table::Entry;
use std::collections::BTreeMap;
use zilgwern::{most_saved_bytes, Memory, Store, PLACE_BYTES};

/// Medians in microseconds.
pub struct KeptTimes {
    pub places: usize,
    pub ways: Vec<WayTimes>,
}

/// The first way is the one that the others are compared with.
pub struct WayTimes {
    pub title: &'static str,
    pub bytes: usize,
    pub save: f64,
    pub open: f64,
}

/// A way to keep a store: it gives bytes and takes them back.
trait Way {
    fn title(&self) -> &'static str;

    fn save(&mut self) -> Vec<u8>;

    fn open(&mut self, bytes: &[u8]);

    /// Whether what was opened last is what was saved.
    fn is_same(&mut self) -> bool;
}

/// All ways in turn on one store, so many times; SQLite where it is wanted and there.
pub fn kept_times(seed: u64, places: usize, rounds: usize, sqlite: bool) -> KeptTimes {
    let store = full(&mut Random::new(seed), places);
    let tables = store.places.iter().filter_map(|place| match place {
        Place::Free => None,
        Place::Live { table, .. } | Place::Frozen { table } => Some(table),
    });
    let puts: BTreeMap<Key, Value> =
        tables.flatten().map(|(key, entry)| (*key, padded(entry))).collect();
    let lent = store.encode();
    let mut ways: Vec<Box<dyn Way>> = vec![
        Box::new(Proved::new(&lent, false)),
        Box::new(Proved::new(&lent, true)),
        Box::new(Second::new(&lent)),
        Box::new(Pieces::new(&lent)),
    ];
    let database = Sqlite::open().filter(|_| sqlite);
    ways.extend(database.map(|saved| Box::new(Rows::new(saved, puts)) as Box<dyn Way>));
    KeptTimes { places, ways: times(&mut ways, rounds) }
}

/// The value of an entry, as long as values may be, so that all stores keep as many bytes.
fn padded(entry: &Entry) -> Value {
    let mut value = [0; VALUE_BYTES];
    if let Entry::Value(bytes) = entry {
        value[..bytes.len()].copy_from_slice(bytes);
    }
    Value::of(&value)
}

/// What the rounds of a way gave.
#[derive(Clone, Default)]
struct Taken {
    saves: Vec<f64>,
    opens: Vec<f64>,
    bytes: Vec<u8>,
}

fn times(ways: &mut [Box<dyn Way>], rounds: usize) -> Vec<WayTimes> {
    let mut all = vec![Taken::default(); ways.len()];
    for _ in 0..rounds {
        for (way, taken) in ways.iter_mut().zip(&mut all) {
            taken.saves.push(timed(|| taken.bytes = way.save()));
            taken.opens.push(timed(|| way.open(&taken.bytes)));
        }
    }
    assert!(all[0].bytes == all[2].bytes, "the second implementation saves another book");
    let middle = |times: &[f64]| median(times).expect("at least one round");
    let mut told = Vec::new();
    for (way, taken) in ways.iter_mut().zip(&all) {
        let title = way.title();
        assert!(way.is_same(), "{title}: another store was opened than was saved");
        let (save, open) = (middle(&taken.saves), middle(&taken.opens));
        told.push(WayTimes { title, bytes: taken.bytes.len(), save, open });
    }
    told
}

fn memory_of(lent: &Lent) -> Memory {
    let Lent { area, cards, lists, head, memory } = lent.clone();
    Memory { area, cards, lists, head, memory }
}

/// The proved store: the book alone, or with the area behind it, as a file has both.
struct Proved {
    saved: Store<'static>,
    with_area: bool,
    opened: Memory,
    working: Vec<zilgwern::Row>,
}

impl Proved {
    fn new(lent: &Lent, with_area: bool) -> Proved {
        let mut opened = Memory::zeroed(lent.cards.len());
        if !with_area {
            opened.area.copy_from_slice(&lent.area);
        }
        let working = opened.cards.clone();
        let saved = Store::open_owned(memory_of(lent)).expect("a sound store");
        Proved { saved, with_area, opened, working }
    }
}

impl Way for Proved {
    fn title(&self) -> &'static str {
        match self.with_area {
            false => "proved store: saved book",
            true => "proved store: saved book and area",
        }
    }

    fn save(&mut self) -> Vec<u8> {
        let mut bytes = if self.with_area { self.saved.area().to_vec() } else { Vec::new() };
        let start = bytes.len();
        bytes.resize(start + most_saved_bytes(self.working.len()), 0);
        let length = self.saved.save_into(&mut bytes[start..]).expect("a sound store");
        bytes.truncate(start + length);
        bytes
    }

    fn open(&mut self, bytes: &[u8]) {
        let start = if self.with_area { PLACE_BYTES * self.working.len() } else { 0 };
        self.opened.area[..start].copy_from_slice(&bytes[..start]);
        let opened = Store::open_saved(self.opened.lend(), &bytes[start..], &mut self.working);
        assert!(opened.is_ok(), "{:?}", opened.err());
    }

    fn is_same(&mut self) -> bool {
        self.opened == self.saved.memory()
    }
}

/// The second implementation's book.
struct Second {
    saved: Lent,
    opened: Lent,
    working: Vec<reference::lent::Row>,
}

impl Second {
    fn new(lent: &Lent) -> Second {
        let mut opened = Lent::zeroed(lent.cards.len());
        opened.area.copy_from_slice(&lent.area);
        let working = opened.cards.clone();
        Second { saved: lent.clone(), opened, working }
    }
}

impl Way for Second {
    fn title(&self) -> &'static str {
        "second implementation: saved book"
    }

    fn save(&mut self) -> Vec<u8> {
        let mut bytes = vec![0; most_saved_bytes(self.working.len())];
        let saved = Reference::default().save(&self.saved, &mut bytes);
        assert_eq!((saved.number, saved.letter), (0, 0));
        bytes.truncate(saved.length);
        bytes
    }

    fn open(&mut self, bytes: &[u8]) {
        let opened = Reference::default().open(&mut self.opened, bytes, &mut self.working);
        assert_eq!(opened, (0, 0));
    }

    fn is_same(&mut self) -> bool {
        self.opened == self.saved
    }
}

/// The five pieces as they lie in memory, checked by the proved store before they are written and when they are read.
struct Pieces {
    saved: Store<'static>,
    opened: Option<Store<'static>>,
}

impl Pieces {
    fn new(lent: &Lent) -> Pieces {
        let saved = Store::open_owned(memory_of(lent)).expect("a sound store");
        Pieces { saved, opened: None }
    }
}

impl Way for Pieces {
    fn title(&self) -> &'static str {
        "proved store: the five pieces copied and checked"
    }

    fn save(&mut self) -> Vec<u8> {
        self.saved.check().expect("a sound store");
        self.saved.memory().to_bytes()
    }

    fn open(&mut self, bytes: &[u8]) {
        let memory = Memory::from_bytes(bytes).expect("bytes of this form");
        self.opened = Some(Store::open_owned(memory).expect("a sound store"));
    }

    fn is_same(&mut self) -> bool {
        self.opened.as_ref().is_some_and(|opened| opened.memory() == self.saved.memory())
    }
}

/// The entries in a table of SQLite.
struct Rows {
    saved: Sqlite,
    puts: Vec<Put>,
    opened: Option<Sqlite>,
}

impl Rows {
    fn new(mut saved: Sqlite, puts: BTreeMap<Key, Value>) -> Rows {
        let puts: Vec<Put> = puts.into_iter().collect();
        saved.put(&puts);
        Rows { saved, puts, opened: None }
    }
}

impl Way for Rows {
    fn title(&self) -> &'static str {
        "SQLite: serialized, deserialized and checked"
    }

    fn save(&mut self) -> Vec<u8> {
        self.saved.saved()
    }

    fn open(&mut self, bytes: &[u8]) {
        self.opened = Sqlite::open_saved(bytes);
    }

    fn is_same(&mut self) -> bool {
        let Some(opened) = &mut self.opened else { return false };
        let keys: Vec<Key> = self.puts.iter().map(|put| put.0).collect();
        let mut puts = self.puts.iter();
        let mut same = true;
        opened.look_up(&keys, &mut |value| same &= value == puts.next().map(|put| &put.1[..]));
        same && puts.next().is_none()
    }
}
