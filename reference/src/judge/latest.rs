//! The latest-write map of demand 3: fed with requests and results, and asked for whole replies.

use super::Served;
use std::collections::BTreeMap;

/// Values under keys, by the puts and deletes that were done.
#[derive(Clone, Default, Debug)]
pub struct LatestWrites {
    values: BTreeMap<u64, Vec<u8>>,
}

impl LatestWrites {
    /// Takes in one served request; for look-ups and scans the reply is compared whole, for kind 8 all but the tables opened and
    /// their bits, which the working knows.
    /// Says whether an earlier value was overwritten or taken away.
    pub fn judge(&mut self, served: &Served) -> Result<bool, String> {
        let done = served.result() == Some(0);
        match served.kind {
            1 if done => Ok(self.set(key(served.body, 0)?, &served.body[8..])),
            2 if done => Ok(self.take(key(served.body, 0)?)),
            3 if served.body.len() == 8 => self.compare_look_up(served).map(|()| false),
            4 if served.body.len() == 16 => self.compare_scan(served).map(|()| false),
            8 if served.body.len() == 8 => self.compare_probe(served).map(|()| false),
            _ => Ok(false),
        }
    }

    /// Sets a value; true if there was one.
    pub fn set(&mut self, key: u64, value: &[u8]) -> bool {
        self.values.insert(key, value.to_vec()).is_some()
    }

    /// Takes a key away; true if it had a value.
    pub fn take(&mut self, key: u64) -> bool {
        self.values.remove(&key).is_some()
    }

    fn compare_look_up(&self, served: &Served) -> Result<(), String> {
        let key = key(served.body, 0)?;
        let (result, value): (u16, &[u8]) = match self.values.get(&key) {
            Some(value) => (0, value),
            None => (64, &[]),
        };
        compare(served, &reply(3, result, value), &format!("look-up of {key}"))
    }

    /// Whether a value is found, and which; the bytes between are taken as they are.
    fn compare_probe(&self, served: &Served) -> Result<(), String> {
        let key = key(served.body, 0)?;
        let value = self.values.get(&key);
        let between = served.reply.get(8..14).ok_or("a reply of kind 8 that is too short")?;
        let found = u16::from(value.is_some()).to_le_bytes();
        let value = value.map_or(&[][..], |value| value);
        let body = [&found[..], between, value].concat();
        compare(served, &reply(8, 0, &body), &format!("probe of {key}"))
    }

    /// A scan with low above high is refused and not measured by the map.
    fn compare_scan(&self, served: &Served) -> Result<(), String> {
        let (low, high) = (key(served.body, 0)?, key(served.body, 8)?);
        if low > high {
            return Ok(());
        }
        let mut in_range = self.values.range(low..=high);
        let mut entries = Vec::new();
        let mut count = 0u16;
        for (key, value) in in_range.by_ref().take(16) {
            count += 1;
            entries.extend((12 + value.len() as u16).to_le_bytes());
            entries.extend([1, 0]);
            entries.extend(key.to_le_bytes());
            entries.extend(value);
        }
        let more = u16::from(in_range.next().is_some());
        let body = [&count.to_le_bytes()[..], &more.to_le_bytes(), &entries].concat();
        compare(served, &reply(4, 0, &body), &format!("scan from {low} to {high}"))
    }
}

fn key(body: &[u8], at: usize) -> Result<u64, String> {
    let bytes = body.get(at..at + 8).and_then(|bytes| bytes.try_into().ok());
    bytes.map(u64::from_le_bytes).ok_or("done, although the body is too short for a key".into())
}

/// A whole reply as bytes.
pub(super) fn reply(kind: u16, result: u16, body: &[u8]) -> Vec<u8> {
    let length = 6 + body.len() as u16;
    [&length.to_le_bytes()[..], &kind.to_le_bytes(), &result.to_le_bytes(), body].concat()
}

fn compare(served: &Served, expected: &[u8], what: &str) -> Result<(), String> {
    if served.reply == expected {
        return Ok(());
    }
    Err(format!("{what}: replied {:02X?}, the map says {expected:02X?}", served.reply))
}
