//! Comparing answers: all of a store's answers with what was put, and short sums of the answers while the clock runs.

use crate::engine::{Engine, LOOK_UPS, SCANNED, SCANS};
use crate::workload::{Key, Value, Workload};
use std::collections::BTreeMap;

/// A sum over answers that depends on their order, cheap enough to be taken while the clock runs; it looks at both ends of a value.
#[derive(Clone, Copy, Default, PartialEq, Eq, Debug)]
pub struct Sum(u64);

fn word(bytes: &[u8], at: usize) -> u64 {
    u64::from_le_bytes(bytes[at..at + 8].try_into().expect("eight bytes"))
}

/// An odd number whose bits have no pattern, to spread what is multiplied with it.
const SPREAD: u64 = 0x9E37_79B9_7F4A_7C15;

/// What stands for no value.
const NO_VALUE: u64 = 1;

/// What stands for a value: its length with its first and its last eight bytes, which may be the same ones; or all of its bytes behind
/// a number for the length, and then it is not what stands for no value.
#[inline]
fn ends(value: &[u8]) -> u64 {
    match value.len() {
        length @ 8.. => {
            let first = (word(value, 0) ^ length as u64).wrapping_mul(SPREAD);
            // Turned, else the highest bits of eight bytes would meet themselves and be gone.
            first.rotate_left(32) ^ word(value, length - 8)
        }
        length => value.iter().fold(2 + length as u64, |sum, byte| sum << 8 | u64::from(*byte)),
    }
}

impl Sum {
    #[inline]
    fn take(&mut self, part: u64) {
        self.0 = (self.0 ^ part).wrapping_mul(SPREAD);
    }

    #[inline]
    pub fn value(&mut self, value: Option<&[u8]>) {
        self.take(value.map_or(NO_VALUE, ends));
    }

    #[inline]
    pub fn entry(&mut self, number: usize, key: Key, value: &[u8]) {
        self.take(key ^ (number as u64) << 48);
        self.value(Some(value));
    }
}

/// The sums of all look-ups and scans of a workload, from the puts alone.
pub struct Expected {
    pub values: BTreeMap<Key, Value>,
    pub hits: Sum,
    pub misses: Sum,
    pub scans: Sum,
}

impl Expected {
    pub fn of(workload: &Workload) -> Expected {
        let values = workload.expected();
        let mut sums = [Sum::default(); 3];
        for key in &workload.hits {
            sums[0].value(values.get(key).map(|value| &value[..]));
        }
        for _ in &workload.misses {
            sums[1].value(None);
        }
        for batch in workload.scans.chunks(SCANS) {
            for (number, low) in batch.iter().enumerate() {
                for (key, value) in values.range(low..).take(SCANNED) {
                    sums[2].entry(number, *key, value);
                }
            }
        }
        let [hits, misses, scans] = sums;
        Expected { values, hits, misses, scans }
    }

    /// Compares whole answers: every key that was put, keys that were not, and every scan of the workload.
    pub fn compare(&self, workload: &Workload, engine: &mut dyn Engine) -> Result<(), String> {
        let name = engine.name();
        let known: Vec<Key> = self.values.keys().copied().collect();
        for keys in [&known, &workload.misses] {
            for batch in keys.chunks(LOOK_UPS) {
                self.compare_values(name, batch, engine)?;
            }
        }
        // From 0 on, in steps of sixteen, and from beyond the last key: all of the store, and its end.
        let last = known.last().map_or(0, |last| last.saturating_add(1));
        let steps = [0].into_iter().chain(known.iter().skip(5).step_by(SCANNED).copied());
        let lows: Vec<Key> = steps.chain([last, Key::MAX]).chain(workload.scans.clone()).collect();
        for batch in lows.chunks(SCANS) {
            self.compare_scans(name, batch, engine)?;
        }
        Ok(())
    }

    fn compare_values(
        &self,
        name: &str,
        keys: &[Key],
        engine: &mut dyn Engine,
    ) -> Result<(), String> {
        let mut found: Vec<Option<Vec<u8>>> = Vec::with_capacity(keys.len());
        engine.look_up(keys, &mut |value| found.push(value.map(<[u8]>::to_vec)));
        if found.len() != keys.len() {
            return Err(format!("{name} answers {} look-ups of {}", found.len(), keys.len()));
        }
        for (key, found) in keys.iter().zip(&found) {
            let wanted = self.values.get(key).map(|value| &value[..]);
            if found.as_deref() != wanted {
                return Err(format!(
                    "{name} has {found:?} under key {key}, and {wanted:?} was put"
                ));
            }
        }
        Ok(())
    }

    fn compare_scans(
        &self,
        name: &str,
        lows: &[Key],
        engine: &mut dyn Engine,
    ) -> Result<(), String> {
        let mut found: Vec<Vec<(Key, Vec<u8>)>> = vec![Vec::new(); lows.len()];
        engine.scan(lows, &mut |number, key, value| found[number].push((key, value.to_vec())));
        for (low, found) in lows.iter().zip(&found) {
            let wanted = self.values.range(low..).take(SCANNED);
            let same = |(one, other): (&(Key, Vec<u8>), (&Key, &Value))| {
                one.0 == *other.0 && one.1[..] == other.1[..]
            };
            if found.len() != wanted.clone().count() || !found.iter().zip(wanted).all(same) {
                return Err(format!("{name} scans other entries from key {low} on than were put"));
            }
        }
        Ok(())
    }
}
