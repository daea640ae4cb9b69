//! Keys and values: random sewer lines and millimetres, each key put once and half of them overwritten; and skewed puts. Values are
//! as long as they may be, or of any length.

use reference::generate::random::Random;
use reference::limits::VALUE_BYTES;
use std::collections::{BTreeMap, BTreeSet};
use std::ops::Deref;

pub type Key = u64;
pub type Put = (Key, Value);

/// The bytes of a value, in place: puts stand side by side in memory whatever their lengths, so no store waits for them.
#[derive(Clone, Copy, PartialEq, Eq, PartialOrd, Ord, Debug)]
pub struct Value {
    length: u8,
    /// Zero behind the length.
    bytes: [u8; VALUE_BYTES],
}

impl Value {
    pub fn of(bytes: &[u8]) -> Value {
        let mut value = Value { length: bytes.len() as u8, bytes: [0; VALUE_BYTES] };
        value.bytes[..bytes.len()].copy_from_slice(bytes);
        value
    }
}

impl Deref for Value {
    type Target = [u8];

    #[inline]
    fn deref(&self) -> &[u8] {
        &self.bytes[..usize::from(self.length)]
    }
}

/// How long values are: as long as they may be, or each of any length. With one length for all it is easy to say where the entries
/// of a table stand.
#[derive(Clone, Copy, PartialEq, Eq, Debug)]
pub enum Lengths {
    Longest,
    Mixed,
}

/// Lines of a town's sewers, and the length of the longest one in millimetres.
const LINES: usize = 10_000;
const MILLIMETRES: usize = 500_000;

pub struct Workload {
    /// In the order in which they are put.
    pub puts: Vec<Put>,
    /// Look-ups that find a value, look-ups that find none, and where scans begin.
    pub hits: Vec<Key>,
    pub misses: Vec<Key>,
    pub scans: Vec<Key>,
}

fn any_key(random: &mut Random) -> Key {
    (random.below(LINES) as Key) << 40 | random.below(MILLIMETRES) as Key
}

/// So many different keys, in random order.
fn distinct(random: &mut Random, count: usize) -> Vec<Key> {
    let mut keys = BTreeSet::new();
    while keys.len() < count {
        keys.insert(any_key(random));
    }
    let mut keys: Vec<Key> = keys.into_iter().collect();
    random.shuffle(&mut keys);
    keys
}

/// Random bytes: if they are as many as may be, no other put has the same.
fn any_value(random: &mut Random, lengths: Lengths) -> Value {
    let length = match lengths {
        Lengths::Longest => VALUE_BYTES,
        Lengths::Mixed => random.below(VALUE_BYTES + 1),
    };
    let mut bytes = [0; VALUE_BYTES];
    for part in bytes[..length].chunks_mut(8) {
        part.copy_from_slice(&random.word().to_le_bytes()[..part.len()]);
    }
    Value::of(&bytes[..length])
}

impl Workload {
    /// So many keys, half of them put a second time; then as many look-ups of each sort, and scans. Values are the longest.
    pub fn uniform(seed: u64, keys: usize, look_ups: usize, scans: usize) -> Workload {
        Workload::of_lengths(Lengths::Longest, seed, keys, look_ups, scans)
    }

    /// The same with values of such lengths.
    pub fn of_lengths(
        lengths: Lengths,
        seed: u64,
        keys: usize,
        look_ups: usize,
        scans: usize,
    ) -> Workload {
        let random = &mut Random::new(seed);
        let known = distinct(random, keys);
        let mut again = known.clone();
        random.shuffle(&mut again);
        again.truncate(keys / 2);
        let order = [known.clone(), again].concat();
        let puts = order.into_iter().map(|key| (key, any_value(random, lengths))).collect();
        Workload::of(random, puts, &known, look_ups, scans)
    }

    /// As many puts, drawn from so many keys by Zipf's law with constant 1: the second most frequent key comes half as often
    /// as the first, the third a third as often. Which keys are frequent is random.
    pub fn skewed(seed: u64, keys: usize, look_ups: usize, scans: usize) -> Workload {
        let random = &mut Random::new(seed);
        let known = distinct(random, keys);
        let mut sum = 0.0;
        let sums: Vec<f64> = (1..=keys).map(|rank| (sum += 1.0 / rank as f64, sum).1).collect();
        let mut draw = || {
            let at = random.word() as f64 / u64::MAX as f64 * sum;
            let rank = sums.partition_point(|below| *below < at).min(keys - 1);
            (known[rank], any_value(random, Lengths::Longest))
        };
        let puts: Vec<Put> = (0..keys + keys / 2).map(|_| draw()).collect();
        let met: Vec<Key> = puts.iter().map(|(key, _)| *key).collect();
        Workload::of(random, puts, &met, look_ups, scans)
    }

    fn of(
        random: &mut Random,
        puts: Vec<Put>,
        known: &[Key],
        look_ups: usize,
        scans: usize,
    ) -> Workload {
        let there: BTreeSet<Key> = known.iter().copied().collect();
        let hits = (0..look_ups).map(|_| *random.pick(known)).collect();
        let absent = |random: &mut Random| loop {
            let key = any_key(random);
            if !there.contains(&key) {
                return key;
            }
        };
        let misses = (0..look_ups).map(|_| absent(random)).collect();
        let scans = (0..scans).map(|_| any_key(random)).collect();
        Workload { puts, hits, misses, scans }
    }

    /// What every store must hold after the puts.
    pub fn expected(&self) -> BTreeMap<Key, Value> {
        self.puts.iter().copied().collect()
    }
}
