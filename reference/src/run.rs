//! Making a store, running a list of requests on it, and serving one request.

use crate::lent::Lent;
use crate::limits::{ANSWER_ROOM, ENTRY_HEAD, SCAN_VALUES, TABLE_ENTRIES, THRESHOLDS};
use crate::request::{read, split, Command, Reply, Request};
use crate::rules::{Broken, Rule};
use crate::slip::{Slip, OLD_VALUE_BYTES};
use crate::store::{new_store, Place, Store};
use crate::table::{push_entry, Entry, Key};
use crate::tidy::Step;

/// What a run gives back.
#[derive(Clone, PartialEq, Eq, Debug)]
pub struct Outcome {
    pub number: u16,
    /// All broken rules where the number is 5.
    pub broken: Broken,
    pub served: usize,
    pub answers: Vec<u8>,
}

impl Outcome {
    fn refused(number: u16, broken: Broken) -> Outcome {
        Outcome { number, broken, served: 0, answers: Vec::new() }
    }
}

/// Makes a new store in lent memory of any content: 0, 1 or 2.
pub fn make(lent: &mut Lent, threshold: u64) -> u16 {
    if lent.places().is_none() {
        return 1;
    }
    if !THRESHOLDS.contains(&threshold) {
        return 2;
    }
    let area = std::mem::take(&mut lent.area);
    *lent = new_store(area, threshold as usize).encode();
    0
}

/// Runs a list with this much room for answers.
pub fn run(lent: &mut Lent, list: &[u8], room: usize) -> Outcome {
    run_with_slip(lent, list, room, None)
}

/// The same with a planted mistake.
pub fn run_with_slip(lent: &mut Lent, list: &[u8], room: usize, slip: Option<Slip>) -> Outcome {
    if lent.places().is_none() {
        return Outcome::refused(1, Broken::new());
    }
    if room < ANSWER_ROOM {
        return Outcome::refused(3, Broken::new());
    }
    let Some(requests) = split(list) else {
        return Outcome::refused(4, Broken::new());
    };
    let mut store = match Store::decode_with_slip(lent, slip) {
        Ok(store) => store,
        Err(verdict) => return Outcome::refused(verdict.number, verdict.broken),
    };
    if store.slips(Slip::LongEntryUnsound) && !store.broken_by_old_limit().is_empty() {
        return Outcome::refused(5, store.broken_by_old_limit());
    }
    let (served, answers) = store.serve_all(&requests, room);
    *lent = store.encode();
    Outcome { number: 0, broken: Broken::new(), served, answers }
}

impl Store {
    /// Serves requests in order until the room left is too small.
    pub fn serve_all(&mut self, requests: &[Request], room: usize) -> (usize, Vec<u8>) {
        let wanted = ANSWER_ROOM + usize::from(self.slips(Slip::StopWithRoomLeft));
        let mut answers = Vec::new();
        for (served, request) in requests.iter().enumerate() {
            if room - answers.len() < wanted {
                return (served, answers);
            }
            self.serve(request).write(request.kind, &mut answers);
        }
        (requests.len(), answers)
    }

    /// Rules C and D with the old limit of a value.
    fn broken_by_old_limit(&self) -> Broken {
        let is_long = |entry: &Entry| entry.value().is_some_and(|it| it.len() > OLD_VALUE_BYTES);
        let in_place = |place: &Place| match place {
            Place::Free => false,
            Place::Live { table, .. } | Place::Frozen { table } => table.values().any(is_long),
        };
        let c = self.places.iter().any(in_place).then_some(Rule::C);
        let d = self.memory.values().any(is_long).then_some(Rule::D);
        c.into_iter().chain(d).collect()
    }

    /// Serves one request.
    pub fn serve(&mut self, request: &Request) -> Reply {
        let command = match read(request) {
            Ok(command) => command,
            Err(number) => return Reply::bare(number),
        };
        match command {
            Command::Put { key, value } => Reply::bare(self.put(key, value)),
            Command::Delete { key } => Reply::bare(self.delete(key)),
            Command::LookUp { key } => match self.look_up(key) {
                Some(value) => Reply::done(value.to_vec()),
                None => Reply::bare(64),
            },
            Command::Scan { low, high } if low > high => Reply::bare(19),
            Command::Scan { low, high } => self.scan_reply(low, high),
            Command::Flush => Reply::bare(self.flush()),
            Command::Tidy => self.tidy(),
            Command::Probe { key } => self.probe_reply(key),
            Command::Report => {
                Reply::done(self.report().iter().flat_map(|count| count.to_le_bytes()).collect())
            }
        }
    }

    fn put(&mut self, key: Key, value: &[u8]) -> u16 {
        if self.slips(Slip::LongPutRefused) && value.len() > OLD_VALUE_BYTES {
            return 17;
        }
        let known = match self.slips(Slip::NewKeyJudgedByMap) {
            true => self.look_up(key).is_some(),
            false => self.memory.contains_key(&key),
        };
        self.write_memory(key, Entry::Value(value.to_vec()), known)
    }

    fn delete(&mut self, key: Key) -> u16 {
        if self.slips(Slip::DeleteOfAbsentKeySkipped) && !self.memory.contains_key(&key) {
            return 0;
        }
        self.write_memory(key, Entry::DeleteMark, self.memory.contains_key(&key))
    }

    /// Replaces or inserts a memory entry; 18 for a new key when the memory is full.
    fn write_memory(&mut self, key: Key, entry: Entry, known: bool) -> u16 {
        if !known && self.memory.len() >= TABLE_ENTRIES {
            return 18;
        }
        self.memory.insert(key, entry);
        0
    }

    fn scan_reply(&self, low: Key, high: Key) -> Reply {
        let mut scanned = self.scan(low, high);
        if self.slips(Slip::ScanEndsAtOldLength) {
            let bytes = |values: &[(Key, Vec<u8>)]| -> usize {
                values.iter().map(|(_, value)| ENTRY_HEAD + value.len()).sum()
            };
            while bytes(&scanned.values) > SCAN_VALUES * (ENTRY_HEAD + OLD_VALUE_BYTES) {
                scanned.values.pop();
            }
        }
        let mut body = (scanned.values.len() as u16).to_le_bytes().to_vec();
        body.extend(u16::from(scanned.more).to_le_bytes());
        for (key, value) in &scanned.values {
            push_entry(&mut body, *key, Some(value));
        }
        Reply::done(body)
    }

    /// Names the step, does it, and replies what it was and on which level.
    fn tidy(&mut self) -> Reply {
        let step = self.name_step();
        self.do_step(&step);
        let (number, level) = match step {
            Step::Idle => return Reply::bare(65),
            Step::Refused { .. } => return Reply::bare(20),
            Step::Moved { level, .. } => (1u16, level),
            Step::Linked { level, .. } => (2, level),
            Step::Merged { level, .. } => (3, level),
        };
        let after = number < 3 && self.slips(Slip::LevelAfterStepReplied);
        let level = level as u16 + u16::from(after);
        Reply::done([number.to_le_bytes(), level.to_le_bytes()].concat())
    }
}
