//! Rust's BTreeMap, the values inside of its nodes: what memory alone costs, with nothing that can be kept.

use crate::engine::{Engine, SeeEntry, SeeValue, SCANNED};
use crate::workload::{Key, Put, Value};
use std::collections::BTreeMap;

#[derive(Default)]
pub struct Tree(BTreeMap<Key, Value>);

impl Engine for Tree {
    fn name(&self) -> &'static str {
        "BTreeMap"
    }

    fn put(&mut self, batch: &[Put]) {
        for (key, value) in batch {
            self.0.insert(*key, *value);
        }
    }

    fn look_up(&mut self, keys: &[Key], see: &mut SeeValue) {
        for key in keys {
            see(self.0.get(key).map(|value| &value[..]));
        }
    }

    fn scan(&mut self, from: &[Key], see: &mut SeeEntry) {
        for (number, low) in from.iter().enumerate() {
            for (key, value) in self.0.range(low..).take(SCANNED) {
                see(number, *key, value);
            }
        }
    }
}
