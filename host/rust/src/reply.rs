//! Replies as types.

use crate::bytes::{double, pair, take_whole, word};
use crate::{Key, Refusal, SCAN_VALUES, TABLE_ENTRIES, VALUE_BYTES};

/// Bytes of a probe's reply before the value: found, tables, bits.
pub(crate) const PROBE_COUNTS: usize = 2 + 2 + 4;

/// A reply to one request.
#[derive(Clone, PartialEq, Eq, Debug)]
pub enum Reply {
    /// A put, delete or flush is done.
    Done,
    /// The value of a look-up.
    Value(Vec<u8>),
    /// A look-up found no value.
    NoValue,
    /// The values of a scan.
    Page(Page),
    /// A flush of an empty memory table, or a tidy with no step due.
    NothingToDo,
    /// What a tidy did.
    Stepped(Stepped),
    /// The counts of a report.
    Report(Report),
    /// What a probe found, and what was opened for it.
    Probe(Probe),
    /// The request was refused, and the store is as it was.
    Refused(Refusal),
}

/// The first 16 or fewer values of a range, keys rising.
#[derive(Clone, PartialEq, Eq, Default, Debug)]
pub struct Page {
    /// Each with its key.
    pub values: Vec<(Key, Vec<u8>)>,
    /// Whether there are further ones.
    pub more: bool,
}

/// A step of compaction.
#[derive(Clone, Copy, PartialEq, Eq, Debug)]
pub enum Step {
    /// The chosen table joined the next level, which was empty.
    Moved,
    /// The chosen table was frozen, and tables of the next level have links to it.
    Linked,
    /// A table was merged with what its links hold.
    Merged,
}

/// What a tidy did, and on which level the table stood before.
#[derive(Clone, Copy, PartialEq, Eq, Debug)]
pub struct Stepped {
    /// What was done.
    pub step: Step,
    /// Where the chosen or merged table stood.
    pub level: u16,
}

/// Counts of a store.
#[derive(Clone, Copy, PartialEq, Eq, Default, Debug)]
pub struct Report {
    /// Free places.
    pub free: u16,
    /// Live tables on levels 0 to 3.
    pub live: [u16; 4],
    /// Frozen places.
    pub frozen: u16,
    /// Links on all tables.
    pub links: u16,
    /// Entries of the memory table.
    pub memory: u16,
}

/// What a look-up gives, and what it opens on the way.
#[derive(Clone, PartialEq, Eq, Default, Debug)]
pub struct Probe {
    /// The value under the key, if there is one.
    pub value: Option<Vec<u8>>,
    /// The tables opened, up to the one that decides; none where memory does. [`View::asked`](crate::View::asked) says which.
    pub tables: u16,
    /// The bits set in their summaries, added up.
    pub bits: u32,
}

impl Reply {
    /// Takes the first reply from answer bytes, with the kind of its request; none where these are no answers of the store.
    ///
    /// ```
    /// use zilgwern::Reply;
    ///
    /// let mut answers = &[6, 0, 1, 0, 0, 0, 7, 0, 3, 0, 0, 0, 0x41][..];
    /// assert_eq!(Reply::take(&mut answers), Some((1, Reply::Done)));
    /// assert_eq!(Reply::take(&mut answers), Some((3, Reply::Value(b"A".to_vec()))));
    /// assert_eq!(Reply::take(&mut answers), None);
    /// ```
    pub fn take(answers: &mut &[u8]) -> Option<(u16, Reply)> {
        let mut rest = *answers;
        let whole = take_whole(&mut rest, 6)?;
        let kind = pair(whole, 2);
        let reply = Reply::of(kind, pair(whole, 4), &whole[6..])?;
        *answers = rest;
        Some((kind, reply))
    }

    fn of(kind: u16, result: u16, body: &[u8]) -> Option<Reply> {
        match (result, kind, body.len()) {
            (0, 3, 0..=VALUE_BYTES) => Some(Reply::Value(body.to_vec())),
            (0, 4, 4..) => Page::of(body).map(Reply::Page),
            (0, 6, 4) => Stepped::of(body).map(Reply::Stepped),
            (0, 7, 16) => Some(Reply::Report(Report::of(body))),
            (0, 8, PROBE_COUNTS..) => Probe::of(body).map(Reply::Probe),
            (0, 1 | 2 | 5, 0) => Some(Reply::Done),
            (64, 3, 0) => Some(Reply::NoValue),
            (65, 5 | 6, 0) => Some(Reply::NothingToDo),
            (_, _, 0) => Refusal::of(result).filter(|it| it.is_of(kind)).map(Reply::Refused),
            _ => None,
        }
    }
}

impl Page {
    fn of(body: &[u8]) -> Option<Page> {
        let (count, more) = (pair(body, 0), pair(body, 2));
        let mut rest = &body[4..];
        let mut values = Vec::new();
        while !rest.is_empty() {
            let entry = take_whole(&mut rest, 12).filter(|entry| pair(entry, 2) == 1)?;
            values.push((Key(word(entry, 4)), entry[12..].to_vec()));
        }
        let short = values.iter().all(|(_, value)| value.len() <= VALUE_BYTES);
        let rising = values.is_sorted_by(|(one, _), (next, _)| one < next);
        // Where there are more, the page is full.
        let full = if more == 0 { 0..=SCAN_VALUES } else { SCAN_VALUES..=SCAN_VALUES };
        let whole = values.len() == usize::from(count) && full.contains(&values.len());
        (more < 2 && whole && short && rising).then_some(Page { values, more: more == 1 })
    }
}

impl Stepped {
    fn of(body: &[u8]) -> Option<Stepped> {
        // Tables go down from levels 0 to 2, and are merged where links hang.
        let level = pair(body, 2);
        let step = match (pair(body, 0), level) {
            (1, 0..=2) => Step::Moved,
            (2, 0..=2) => Step::Linked,
            (3, 1..=3) => Step::Merged,
            _ => return None,
        };
        Some(Stepped { step, level })
    }
}

impl Probe {
    fn of(body: &[u8]) -> Option<Probe> {
        let (tables, bits) = (pair(body, 2), double(body, 4));
        let value = match (pair(body, 0), body.len() - PROBE_COUNTS) {
            (0, 0) => None,
            (1, 0..=VALUE_BYTES) => Some(body[PROBE_COUNTS..].to_vec()),
            _ => return None,
        };
        // Every table has a key, and a key has one to three bits.
        let most = 3 * TABLE_ENTRIES as u32 * u32::from(tables);
        (u32::from(tables)..=most).contains(&bits).then_some(Probe { value, tables, bits })
    }
}

impl Report {
    /// From eight counts.
    fn of(body: &[u8]) -> Report {
        let count = |number: usize| pair(body, 2 * number);
        Report {
            free: count(0),
            live: [count(1), count(2), count(3), count(4)],
            frozen: count(5),
            links: count(6),
            memory: count(7),
        }
    }
}
