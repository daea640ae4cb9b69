//! Request lists that are refused with number 4, of each kind of brokenness.

use super::random::Random;
use super::requests;
use crate::limits::LIST_BYTES;

/// A way to break a list, with its name.
pub type Breakage = (&'static str, fn(&mut Random) -> Vec<u8>);

pub const BREAKAGES: [Breakage; 8] = [
    ("over 65,536 bytes", |_| {
        let mut list = requests::flush().repeat(LIST_BYTES / 4);
        list.extend(requests::tidy());
        list
    }),
    ("one byte over 65,536", |_| {
        let mut list = requests::flush().repeat(LIST_BYTES / 4 - 1);
        list.extend(requests::request(5, &[0]));
        list
    }),
    ("a length of 3", |_| vec![3, 0, 5, 0]),
    ("a length of 0 after good requests", |random| {
        let mut list = requests::put(random.word(), &[1]);
        list.extend([0, 0, 5, 0]);
        list
    }),
    ("one byte left", |_| [requests::flush(), vec![4]].concat()),
    ("two bytes left", |_| [requests::flush(), vec![4, 0]].concat()),
    ("three bytes left", |_| [requests::flush(), vec![4, 0, 5]].concat()),
    ("a length beyond the end", |random| {
        let mut list = requests::look_up(random.word());
        list.extend(requests::put(random.word(), &[9; 9]));
        list.pop();
        list
    }),
];
