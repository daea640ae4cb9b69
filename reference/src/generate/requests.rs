//! Single requests as bytes.

use super::random::Random;
use crate::limits::VALUE_BYTES;
use crate::table::Key;

/// A request of any kind with any body that its length can say.
pub fn request(kind: u16, body: &[u8]) -> Vec<u8> {
    let length = 4 + body.len() as u16;
    [&length.to_le_bytes()[..], &kind.to_le_bytes(), body].concat()
}

pub fn put(key: Key, value: &[u8]) -> Vec<u8> {
    request(1, &[&key.to_le_bytes()[..], value].concat())
}

pub fn delete(key: Key) -> Vec<u8> {
    request(2, &key.to_le_bytes())
}

pub fn look_up(key: Key) -> Vec<u8> {
    request(3, &key.to_le_bytes())
}

pub fn scan(low: Key, high: Key) -> Vec<u8> {
    request(4, &[low.to_le_bytes(), high.to_le_bytes()].concat())
}

pub fn flush() -> Vec<u8> {
    request(5, &[])
}

pub fn tidy() -> Vec<u8> {
    request(6, &[])
}

pub fn report() -> Vec<u8> {
    request(7, &[])
}

pub fn probe(key: Key) -> Vec<u8> {
    request(8, &key.to_le_bytes())
}

/// Another key with the same three summary bits. Turning a byte's highest bit changes it by 128 modulo 256; done to bytes 0 and 2,
/// it leaves the exclusive or as it is, and changes the sum by 2 times 128, and that of bytes times i + 1 by (1 + 3) times 128.
pub fn twin(key: Key) -> Key {
    key ^ 0x80_00_80
}

/// How long the values of a store or a source of requests are.
#[derive(Clone, Copy, PartialEq, Eq, Debug)]
pub enum Lengths {
    Any,
    /// All as long as they may be, so that tables and replies come to their greatest lengths, too.
    Longest,
}

impl Lengths {
    /// Now and then the longest.
    pub fn drawn(random: &mut Random) -> Lengths {
        if random.once_in(6) {
            Lengths::Longest
        } else {
            Lengths::Any
        }
    }

    pub fn value(self, random: &mut Random) -> Vec<u8> {
        match self {
            Lengths::Any => any_value(random),
            Lengths::Longest => random.bytes(VALUE_BYTES),
        }
    }
}

/// A value of any length; the shortest and the longest come often.
pub fn any_value(random: &mut Random) -> Vec<u8> {
    let length = match random.below(8) {
        0 => 0,
        1 => VALUE_BYTES,
        _ => random.below(VALUE_BYTES + 1),
    };
    random.bytes(length)
}

/// A request that is refused with 16, 17 or 19.
pub fn refused(random: &mut Random) -> Vec<u8> {
    let key = random.word();
    match random.below(4) {
        0 => {
            let kind = *random.pick(&[0, 9, 10, 99, 256, 264, u16::MAX]);
            let length = random.below(30);
            request(kind, &random.bytes(length))
        }
        1 => scan(key | 1, random.word() % (key | 1)),
        _ => {
            let lengths: [(u16, &[usize]); 7] = [
                (1, &[0, 7, 8 + VALUE_BYTES + 1, 200]),
                (2, &[0, 7, 9, 16]),
                (3, &[0, 7, 9, 16]),
                (4, &[0, 8, 15, 17, 24]),
                (5, &[1, 2, 8]),
                (6, &[1, 2, 8]),
                (7, &[1, 2, 16]),
            ];
            // Kinds 3 and 8 have bodies of one length.
            let as_probe = random.clone().once_in(2);
            let (kind, lengths) = *random.pick(&lengths);
            let kind = if kind == 3 && as_probe { 8 } else { kind };
            let length = *random.pick(lengths);
            request(kind, &random.bytes(length))
        }
    }
}
