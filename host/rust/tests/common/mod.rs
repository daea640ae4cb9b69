//! A small seeded generator of numbers, two stores with a link, and numbers as pages print them.
#![allow(dead_code)]

use zilgwern::{Memory, Step, Stepped, Store};

pub struct Random(pub u64);

impl Random {
    pub fn below(&mut self, bound: u64) -> u64 {
        self.0 =
            self.0.wrapping_mul(6_364_136_223_846_793_005).wrapping_add(1_442_695_040_888_963_407);
        (self.0 >> 33) % bound
    }
}

/// A store of 16 places: place 0 on level 1 has three entries and a link to place 1, which is frozen and has two; places 2 and 3
/// are on level 0, and no tidy is due.
pub fn linked() -> Memory {
    let mut memory = Memory::zeroed(16);
    let mut store = Store::make(memory.lend(), 4).unwrap();
    for keys in [&[1u64, 3, 9][..], &[4, 8], &[6], &[7]] {
        keys.iter().for_each(|key| store.put(*key, b"v").unwrap());
        assert_eq!(store.flush(), Ok(true));
    }
    assert_eq!(store.tidy(), Ok(Some(Stepped { step: Step::Moved, level: 0 })));
    assert_eq!(store.tidy(), Ok(Some(Stepped { step: Step::Linked, level: 0 })));
    assert_eq!(store.tidy(), Ok(None));
    memory
}

/// The store with a link that docs/FORMATS.md prints.
pub fn printed() -> Memory {
    let mut memory = Memory::zeroed(32);
    let mut store = Store::make(memory.lend(), 4).unwrap();
    for keys in [&[1u64, 2, 3][..], &[4, 5], &[6], &[7]] {
        for key in keys {
            match key {
                5 => store.delete(*key).unwrap(),
                _ => store.put(*key, b"v").unwrap(),
            }
        }
        assert_eq!(store.flush(), Ok(true));
    }
    for step in [Step::Moved, Step::Linked] {
        assert_eq!(store.tidy(), Ok(Some(Stepped { step, level: 0 })));
    }
    memory
}

/// A number with commas between thousands.
pub fn written(number: usize) -> String {
    match number {
        0..1000 => number.to_string(),
        _ => format!("{},{:03}", written(number / 1000), number % 1000),
    }
}
