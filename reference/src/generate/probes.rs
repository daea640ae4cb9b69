//! A sketched store with probes of it and what they must say, by hand: the cases of `probed` are made of these.

use super::requests::{look_up, probe};
use super::sketch::Sketch;
use crate::implementation::{Implementation, Ran};
use crate::lent::Lent;
use crate::limits::ANSWER_ROOM;
use crate::table::Key;
use crate::trial::{Eyes, Trial, UNTOUCHED};

/// A store, and what probes of it say: key, value if found, tables opened, and the bits of these.
pub struct Probes {
    store: Lent,
    said: Vec<(Key, Option<String>, u16, u32)>,
}

impl Probes {
    pub fn of(store: Sketch) -> Probes {
        Probes { store: store.lent(), said: Vec::new() }
    }

    pub fn says(mut self, key: Key, value: Option<String>, opened: u16, bits: u32) -> Probes {
        self.said.push((key, value, opened, bits));
        self
    }

    /// The key's digits are found.
    pub fn finds(self, key: Key, opened: u16, bits: u32) -> Probes {
        self.says(key, Some(key.to_string()), opened, bits)
    }

    pub fn finds_empty(self, key: Key, opened: u16, bits: u32) -> Probes {
        self.says(key, Some(String::new()), opened, bits)
    }

    pub fn lacks(self, key: Key, opened: u16, bits: u32) -> Probes {
        self.says(key, None, opened, bits)
    }

    /// Requests and answers: each key probed and looked up.
    fn bytes(&self) -> (Vec<u8>, Vec<u8>) {
        let (mut list, mut answers) = (Vec::new(), Vec::new());
        for (key, value, opened, bits) in &self.said {
            list.extend([probe(*key), look_up(*key)].concat());
            let text = value.as_deref().unwrap_or_default().as_bytes();
            answers.extend([14 + text.len() as u8, 0, 8, 0, 0, 0, u8::from(value.is_some()), 0]);
            answers.extend(opened.to_le_bytes());
            answers.extend(bits.to_le_bytes());
            answers.extend(text);
            let result = if value.is_some() { 0 } else { 64 };
            answers.extend([6 + text.len() as u8, 0, 3, 0, result, 0]);
            answers.extend(text);
        }
        (list, answers)
    }

    /// Fails unless the implementation says so and leaves the store, and unless these eyes find nothing else.
    pub fn hold(&self, subject: &dyn Implementation, eyes: Eyes) -> Result<(), String> {
        if subject.check(&self.store) != (0, 0) {
            return Err(format!("sketched wrongly: {:?}", subject.check(&self.store)));
        }
        let (list, expected) = self.bytes();
        let mut answers = vec![UNTOUCHED; ANSWER_ROOM + expected.len()];
        let mut lent = self.store.clone();
        let ran = subject.run(&mut lent, &list, &mut answers);
        let right =
            Ran { number: 0, letter: 0, served: 2 * self.said.len(), written: expected.len() };
        let (written, beyond) = answers.split_at(expected.len());
        if ran != right || written != expected || beyond.iter().any(|byte| *byte != UNTOUCHED) {
            return Err(format!("gives {ran:?} and {written:?}, expected {expected:?}"));
        }
        if let Some(words) = lent.difference(&self.store) {
            return Err(format!("a probe changed the store: {words}"));
        }
        let mut trial = Trial::of_sound_store(subject, eyes, self.store.clone());
        let ran = trial.run(&list, answers.len());
        ran.map(|_| ()).map_err(|finding| format!("{finding:?}"))
    }
}
