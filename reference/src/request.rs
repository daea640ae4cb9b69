//! Requests and replies as bytes: splitting a list, reading a request, writing a reply.

use crate::limits::{LIST_BYTES, VALUE_BYTES};
use crate::table::{u16_at, u64_at, Key};

/// A request as it stands in the list.
#[derive(Clone, Copy, PartialEq, Eq, Debug)]
pub struct Request<'a> {
    pub kind: u16,
    pub body: &'a [u8],
}

/// A request that neither 16 nor 17 refuses.
#[derive(Clone, Copy, PartialEq, Eq, Debug)]
pub enum Command<'a> {
    Put { key: Key, value: &'a [u8] },
    Delete { key: Key },
    LookUp { key: Key },
    Scan { low: Key, high: Key },
    Flush,
    Tidy,
    Report,
    Probe { key: Key },
}

/// A reply before it is written: result and body.
#[derive(Clone, PartialEq, Eq, Debug)]
pub struct Reply {
    pub result: u16,
    pub body: Vec<u8>,
}

impl Reply {
    /// A reply without a body: done, 64, 65 or a refusal.
    pub fn bare(result: u16) -> Reply {
        Reply { result, body: Vec::new() }
    }

    pub fn done(body: Vec<u8>) -> Reply {
        Reply { result: 0, body }
    }

    /// Appends the reply to a request of this kind.
    pub fn write(&self, kind: u16, out: &mut Vec<u8>) {
        out.extend(((6 + self.body.len()) as u16).to_le_bytes());
        out.extend(kind.to_le_bytes());
        out.extend(self.result.to_le_bytes());
        out.extend(&self.body);
    }
}

/// Splits a whole list, or none where it is refused with number 4.
pub fn split(list: &[u8]) -> Option<Vec<Request<'_>>> {
    if list.len() > LIST_BYTES {
        return None;
    }
    let mut requests = Vec::new();
    let mut rest = list;
    while !rest.is_empty() {
        let length = usize::from(u16_at(rest, 0)?);
        let kind = u16_at(rest, 2)?;
        let body = rest.get(4..length)?;
        requests.push(Request { kind, body });
        rest = &rest[length..];
    }
    Some(requests)
}

/// Reads a request: 16 for an unknown kind, then 17 for a body of the wrong length.
pub fn read<'a>(request: &Request<'a>) -> Result<Command<'a>, u16> {
    let body = request.body;
    let lengths = match request.kind {
        1 => 8..=8 + VALUE_BYTES,
        2 | 3 | 8 => 8..=8,
        4 => 16..=16,
        5..=7 => 0..=0,
        _ => return Err(16),
    };
    if !lengths.contains(&body.len()) {
        return Err(17);
    }
    // Bodies with keys are long enough by now, so the zero is never taken for a key.
    let key = u64_at(body, 0).unwrap_or(0);
    Ok(match request.kind {
        1 => Command::Put { key, value: &body[8..] },
        2 => Command::Delete { key },
        3 => Command::LookUp { key },
        4 => Command::Scan { low: key, high: u64_at(body, 8).unwrap_or(0) },
        5 => Command::Flush,
        6 => Command::Tidy,
        7 => Command::Report,
        _ => Command::Probe { key },
    })
}
