//! The survey stores as engines: request lists over lent memory, and the recorder's policy: put until the memory table holds 16
//! keys, flush, and tidy as often as the last list needed it, or never.

use crate::engine::{Engine, SeeEntry, SeeValue, MOST_TIDIES, PUTS};
use crate::places::Steps;
use crate::setup::Setup;
use crate::workload::{Key, Put};
use reference::lent::{Lent, HEAD_LENGTHS, ROW_STATE, STATE_FREE};
use reference::limits::{ANSWER_ROOM, LEVELS, LIST_BYTES, REPLY_BYTES, TABLE_ENTRIES, VALUE_BYTES};

/// Bytes of the replies of puts, flushes and tidies at most, and of a report.
const WRITE_REPLY: usize = 10;
const REPORT_REPLY: usize = 22;

/// Requests of a list of puts at most, with its flushes and tidies.
const MOST_WRITES: usize = PUTS + PUTS / TABLE_ENTRIES * (1 + MOST_TIDIES);

/// Runs a list on lent memory, answers at the front of the buffer: requests served and bytes written. A refused run ends the
/// bench.
pub trait Runner {
    fn name(&self) -> &'static str;

    fn make(&self, places: usize, threshold: u64) -> Lent;

    fn run(&self, lent: &mut Lent, list: &[u8], answers: &mut [u8]) -> (usize, usize);
}

/// A store with its list and answer buffers, which are used again. All survey stores share this code as it is compiled, so that they
/// differ in their runners alone.
pub struct Listed {
    runner: Box<dyn Runner>,
    lent: Lent,
    list: Vec<u8>,
    asked: usize,
    answers: Vec<u8>,
    /// Keys of the memory table: the recorder knows what it put since the last flush.
    unflushed: Vec<Key>,
    /// Tidies behind each flush; none where the recorder never tidies.
    tidies: Option<usize>,
}

/// What the replies of a list of puts, flushes and tidies say.
#[derive(Default)]
struct Done {
    flushes: usize,
    steps: usize,
    idle: usize,
}

/// Live tables on each level.
pub type Live = [usize; LEVELS];

/// Appends a request: length, kind, body.
#[inline]
fn push(list: &mut Vec<u8>, kind: u16, key: Option<Key>, value: &[u8]) {
    let length = 4 + 8 * key.iter().len() + value.len();
    list.extend_from_slice(&(length as u16).to_le_bytes());
    list.extend_from_slice(&kind.to_le_bytes());
    if let Some(key) = key {
        list.extend_from_slice(&key.to_le_bytes());
    }
    list.extend_from_slice(value);
}

/// An empty vector with room for so many bytes. They are written once, so that the system gives the memory now and not while the clock
/// runs.
fn room(bytes: usize) -> Vec<u8> {
    let mut room = vec![1; bytes];
    room.clear();
    room
}

fn pair(bytes: &[u8], at: usize) -> usize {
    usize::from(u16::from_le_bytes([bytes[at], bytes[at + 1]]))
}

fn word(bytes: &[u8], at: usize) -> u64 {
    u64::from_le_bytes(bytes[at..at + 8].try_into().expect("eight bytes"))
}

impl Listed {
    pub fn new(runner: impl Runner + 'static, places: usize) -> Listed {
        Listed::set_up(runner, Setup::of(places))
    }

    pub fn with_threshold(runner: impl Runner + 'static, places: usize, threshold: u64) -> Listed {
        Listed::set_up(runner, Setup { threshold, ..Setup::of(places) })
    }

    pub fn set_up(runner: impl Runner + 'static, setup: Setup) -> Listed {
        let lent = runner.make(setup.places, setup.threshold);
        Listed {
            runner: Box::new(runner),
            lent,
            list: room(LIST_BYTES),
            asked: 0,
            answers: vec![1; ANSWER_ROOM + MOST_WRITES * WRITE_REPLY],
            unflushed: Vec::new(),
            tidies: setup.tidies,
        }
    }

    pub fn lent(&self) -> &Lent {
        &self.lent
    }

    pub fn live(&self) -> Live {
        std::array::from_fn(|level| self.lent.head[HEAD_LENGTHS + level] as usize)
    }

    fn ask(&mut self, kind: u16, key: Option<Key>, value: &[u8]) {
        push(&mut self.list, kind, key, value);
        self.asked += 1;
    }

    /// Runs the list as it stands and empties it; the bytes of its replies, each at most so long.
    fn run(&mut self, longest: usize) -> &[u8] {
        assert!(self.list.len() <= LIST_BYTES, "a list of {} bytes", self.list.len());
        let room = ANSWER_ROOM + self.asked * longest;
        if self.answers.len() < room {
            self.answers.resize(room, 0);
        }
        let (served, written) = self.runner.run(&mut self.lent, &self.list, &mut self.answers);
        assert_eq!(served, self.asked, "{}: requests served", self.name());
        self.list.clear();
        self.asked = 0;
        &self.answers[..written]
    }

    /// Puts and flushes must be done, and tidies too or find nothing to do: no other result may come.
    fn run_writes(&mut self) -> Done {
        let name = self.name();
        let mut done = Done::default();
        let mut replies = self.run(WRITE_REPLY);
        while !replies.is_empty() {
            let (whole, rest) = replies.split_at(pair(replies, 0));
            match (pair(whole, 2), pair(whole, 4)) {
                (1, 0) => {}
                (5, 0) => done.flushes += 1,
                (6, 0) => done.steps += 1,
                (6, 65) => done.idle += 1,
                (kind, result) => panic!("{name}: a request of kind {kind} gives {result}"),
            }
            replies = rest;
        }
        done
    }

    /// So many tidies in one list, each with a report behind it: of those that did something the level, and what is live after it.
    pub fn told_tidies(&mut self, count: usize) -> Vec<(usize, Live)> {
        for _ in 0..count {
            self.ask(6, None, &[]);
            self.ask(7, None, &[]);
        }
        let name = self.name();
        let mut replies = self.run(WRITE_REPLY + REPORT_REPLY);
        let mut told = Vec::new();
        while !replies.is_empty() {
            let (tidy, rest) = replies.split_at(pair(replies, 0));
            let (report, rest) = rest.split_at(pair(rest, 0));
            let live = |level: usize| pair(report, 8 + 2 * level);
            match pair(tidy, 4) {
                0 => told.push((pair(tidy, 8), std::array::from_fn(live))),
                65 => {}
                result => panic!("{name}: a tidy gives {result}"),
            }
            replies = rest;
        }
        told
    }

    /// A put, after a flush with its tidies if the memory table is full of other keys.
    pub fn ask_put(&mut self, key: Key, value: &[u8]) {
        let known = self.unflushed.contains(&key);
        if !known && self.unflushed.len() == TABLE_ENTRIES {
            self.ask_flush();
        }
        if !known {
            self.unflushed.push(key);
        }
        self.ask(1, Some(key), value);
    }

    /// A list of tidies; false where one of them found nothing to do.
    fn tidy_many(&mut self) -> bool {
        (0..64).for_each(|_| self.ask(6, None, &[]));
        self.run_writes().idle == 0
    }

    fn ask_flush(&mut self) {
        self.ask(5, None, &[]);
        for _ in 0..self.tidies.unwrap_or(0) {
            self.ask(6, None, &[]);
        }
        self.unflushed.clear();
    }
}

impl Engine for Listed {
    fn name(&self) -> &'static str {
        self.runner.name()
    }

    fn put(&mut self, batch: &[Put]) {
        for (key, value) in batch {
            self.ask_put(*key, value);
        }
        let done = self.run_writes();
        if done.flushes > 0 && self.tidies.is_some() {
            // As many as the last list needed on average, and one more.
            self.tidies = Some((done.steps.div_ceil(done.flushes) + 1).min(MOST_TIDIES));
        }
    }

    /// Tidies until there is nothing to do; a recorder that never tidies flushes its last table instead.
    fn settle(&mut self) {
        match self.tidies {
            Some(_) => while self.tidy_many() {},
            None => self.flush(),
        }
    }

    fn look_up(&mut self, keys: &[Key], see: &mut SeeValue) {
        let name = self.name();
        keys.iter().for_each(|key| self.ask(3, Some(*key), &[]));
        let mut replies = self.run(6 + VALUE_BYTES);
        while !replies.is_empty() {
            let (whole, rest) = replies.split_at(pair(replies, 0));
            match pair(whole, 4) {
                0 => see(Some(&whole[6..])),
                64 => see(None),
                result => panic!("{name}: a look-up gives {result}"),
            }
            replies = rest;
        }
    }

    fn scan(&mut self, from: &[Key], see: &mut SeeEntry) {
        let name = self.name();
        for low in from {
            self.ask(4, Some(*low), &Key::MAX.to_le_bytes());
        }
        let mut replies = self.run(REPLY_BYTES);
        let mut number = 0;
        while !replies.is_empty() {
            let (whole, rest) = replies.split_at(pair(replies, 0));
            assert_eq!(pair(whole, 4), 0, "{name}: result of a scan");
            let mut entries = &whole[10..];
            while !entries.is_empty() {
                let (entry, others) = entries.split_at(pair(entries, 0));
                see(number, word(entry, 4), &entry[12..]);
                entries = others;
            }
            number += 1;
            replies = rest;
        }
    }

    fn nothing(&mut self) -> bool {
        self.run(0);
        true
    }
}

impl Steps for Listed {
    fn only_put(&mut self, batch: &[Put]) {
        batch.iter().for_each(|(key, value)| self.ask(1, Some(*key), value));
        self.run_writes();
    }

    fn flush(&mut self) {
        self.ask(5, None, &[]);
        self.run_writes();
    }

    fn tidy(&mut self) -> bool {
        self.ask(6, None, &[]);
        self.run_writes().steps > 0
    }

    fn area(&mut self) -> &mut [u8] {
        &mut self.lent.area
    }

    fn is_free(&self, place: usize) -> bool {
        self.lent.cards[place][ROW_STATE] == STATE_FREE
    }
}
