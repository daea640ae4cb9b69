//! Requests as types, and reading them back out of a list's bytes.

use crate::bytes::{pair, take_whole, word};
use crate::reply::PROBE_COUNTS;
use crate::{Key, Refusal, Refused, LIST_BYTES, REPLY_BYTES, VALUE_BYTES};

/// The longest body of a put: a key and the longest value.
pub(crate) const PUT_BODY: usize = 8 + VALUE_BYTES;

/// The kinds that exist.
pub(crate) const KINDS: std::ops::RangeInclusive<u16> = 1..=8;

/// A request that is well formed but for the length of a put's value, which [`List`](crate::List) looks at.
#[derive(Clone, PartialEq, Eq, Debug)]
pub enum Request {
    /// The value, of at most [`VALUE_BYTES`], goes under the key.
    Put(Key, Vec<u8>),
    /// What is under the key goes.
    Delete(Key),
    /// The value under the key is asked for.
    LookUp(Key),
    /// The first values from low to high, both included.
    Scan(Key, Key),
    /// The memory table is written to a place.
    Flush,
    /// One step of compaction is done.
    Tidy,
    /// Counts are asked for.
    Report,
    /// The value under the key is asked for, and what a look-up opens for it.
    Probe(Key),
}

impl Request {
    /// The order's number for this kind.
    pub fn kind(&self) -> u16 {
        match self {
            Request::Put(..) => 1,
            Request::Delete(_) => 2,
            Request::LookUp(_) => 3,
            Request::Scan(..) => 4,
            Request::Flush => 5,
            Request::Tidy => 6,
            Request::Report => 7,
            Request::Probe(_) => 8,
        }
    }

    pub(crate) fn body(&self) -> Vec<u8> {
        match self {
            Request::Put(key, value) => [&key.0.to_le_bytes()[..], value].concat(),
            Request::Delete(key) | Request::LookUp(key) | Request::Probe(key) => {
                key.0.to_le_bytes().to_vec()
            }
            Request::Scan(low, high) => [low.0.to_le_bytes(), high.0.to_le_bytes()].concat(),
            Request::Flush | Request::Tidy | Request::Report => Vec::new(),
        }
    }

    /// The most bytes that the reply can have.
    pub(crate) fn most_reply_bytes(&self) -> usize {
        6 + match self {
            Request::Put(..) | Request::Delete(_) | Request::Flush => 0,
            Request::LookUp(_) => VALUE_BYTES,
            Request::Scan(..) => REPLY_BYTES - 6,
            Request::Tidy => 4,
            Request::Report => 16,
            Request::Probe(_) => PROBE_COUNTS + VALUE_BYTES,
        }
    }

    /// A request from its kind and body, or the number with which the store refuses such a one.
    fn of(kind: u16, body: &[u8]) -> Result<Request, Refusal> {
        let key = || Key(word(body, 0));
        Ok(match (kind, body.len()) {
            (1, 8..=PUT_BODY) => Request::Put(key(), body[8..].to_vec()),
            (2, 8) => Request::Delete(key()),
            (3, 8) => Request::LookUp(key()),
            (4, 16) => Request::Scan(key(), Key(word(body, 8))),
            (5, 0) => Request::Flush,
            (6, 0) => Request::Tidy,
            (7, 0) => Request::Report,
            (8, 8) => Request::Probe(key()),
            (kind, _) if KINDS.contains(&kind) => return Err(Refusal::WrongBody),
            _ => return Err(Refusal::UnknownKind),
        })
    }

    /// Reads a list: each request, or why the store will refuse it. A list that can't be split is refused whole.
    ///
    /// ```
    /// use zilgwern::{Key, Refusal, Refused, Request};
    ///
    /// let list = [4, 0, 5, 0, 4, 0, 99, 0, 5, 0, 5, 0, 1];
    /// let expected = [Ok(Request::Flush), Err(Refusal::UnknownKind), Err(Refusal::WrongBody)];
    /// assert_eq!(Request::read_list(&list).unwrap(), expected);
    /// assert_eq!(Request::read_list(&[3, 0, 5, 0]), Err(Refused::BrokenList));
    /// ```
    pub fn read_list(list: &[u8]) -> Result<Vec<Result<Request, Refusal>>, Refused> {
        if list.len() > LIST_BYTES {
            return Err(Refused::BrokenList);
        }
        let mut rest = list;
        let mut requests = Vec::new();
        while !rest.is_empty() {
            let whole = take_whole(&mut rest, 4).ok_or(Refused::BrokenList)?;
            requests.push(Request::of(pair(whole, 2), &whole[4..]));
        }
        Ok(requests)
    }
}
