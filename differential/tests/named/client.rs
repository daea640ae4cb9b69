//! A small client of the proved store for tests by name: requests to bytes, replies from bytes, and stores put together by
//! hand. Nothing here comes from the second implementation but the container of the lent memory; the tests take its limits.

use crate::tables::summarize;
use differential::{check, make, run, Outcome};
use reference::lent::{Lent, LINK_WORDS, ROW_COUNT, ROW_LINKS};

pub use crate::tables::{digits, marks, table, table_of, Entry};

pub const GREATEST: u64 = u64::MAX;

/// The byte that fills answer buffers, so that untouched bytes show.
const UNTOUCHED: u8 = 0xEE;

/// A request of any kind.
#[derive(Clone, Debug)]
pub enum Ask {
    Put(u64, &'static str),
    /// A put of so many letters v.
    PutLetters(u64, usize),
    Delete(u64),
    LookUp(u64),
    Probe(u64),
    Scan(u64, u64),
    Flush,
    Tidy,
    Report,
    /// A kind, and a body of so many bytes 7.
    Odd(u16, usize),
}

/// A reply, decoded.
#[derive(Clone, PartialEq, Eq, Debug)]
pub enum Reply {
    /// Result 0 without a body.
    Done,
    Value(String),
    Values {
        values: Vec<(u64, String)>,
        more: u16,
    },
    /// Step and level of a tidy.
    Step(u16, u16),
    Counts([u16; 8]),
    /// The value if found, tables opened and their bits.
    Probed(Option<String>, u16, u32),
    /// A result that is not 0.
    Not(u16),
}

impl Ask {
    fn kind(&self) -> u16 {
        match self {
            Ask::Put(..) | Ask::PutLetters(..) => 1,
            Ask::Delete(_) => 2,
            Ask::LookUp(_) => 3,
            Ask::Scan(..) => 4,
            Ask::Flush => 5,
            Ask::Tidy => 6,
            Ask::Report => 7,
            Ask::Probe(_) => 8,
            Ask::Odd(kind, _) => *kind,
        }
    }

    pub fn bytes(&self) -> Vec<u8> {
        let body = match self {
            Ask::Put(key, value) => [&key.to_le_bytes()[..], value.as_bytes()].concat(),
            Ask::PutLetters(key, length) => {
                [&key.to_le_bytes()[..], letters(*length).as_bytes()].concat()
            }
            Ask::Delete(key) | Ask::LookUp(key) | Ask::Probe(key) => key.to_le_bytes().to_vec(),
            Ask::Scan(low, high) => [low.to_le_bytes(), high.to_le_bytes()].concat(),
            Ask::Flush | Ask::Tidy | Ask::Report => Vec::new(),
            Ask::Odd(_, length) => vec![7; *length],
        };
        let length = 4 + body.len() as u16;
        [&length.to_le_bytes()[..], &self.kind().to_le_bytes(), &body].concat()
    }
}

/// A value of so many bytes.
pub fn letters(length: usize) -> String {
    "v".repeat(length)
}

/// The bytes of a list.
pub fn list(asks: &[Ask]) -> Vec<u8> {
    asks.iter().flat_map(Ask::bytes).collect()
}

fn pair(bytes: &[u8], at: usize) -> u16 {
    u16::from_le_bytes([bytes[at], bytes[at + 1]])
}

fn text(bytes: &[u8]) -> String {
    String::from_utf8(bytes.to_vec()).expect("these tests put text")
}

/// Takes a reply to a request of this kind from the front of the answers.
fn reply(kind: u16, answers: &mut &[u8]) -> Reply {
    let (whole, rest) = answers.split_at(usize::from(pair(answers, 0)));
    *answers = rest;
    assert_eq!(pair(whole, 2), kind, "a reply bears the kind of its request");
    let (result, body) = (pair(whole, 4), &whole[6..]);
    match (result, kind) {
        (0, 3) => Reply::Value(text(body)),
        (0, 4) => values(body),
        (0, 6) => {
            assert_eq!(body.len(), 4);
            Reply::Step(pair(body, 0), pair(body, 2))
        }
        (0, 7) => {
            assert_eq!(body.len(), 16);
            Reply::Counts(std::array::from_fn(|count| pair(body, 2 * count)))
        }
        (0, 8) => probed(body),
        _ => {
            assert_eq!(body.len(), 0, "no body with result {result} of kind {kind}");
            if result == 0 {
                Reply::Done
            } else {
                Reply::Not(result)
            }
        }
    }
}

fn probed(body: &[u8]) -> Reply {
    let (found, value) = (pair(body, 0), text(&body[8..]));
    assert!(found == 1 || (found == 0 && value.is_empty()), "found is {found}, with {value:?}");
    let bits = u32::from_le_bytes(body[4..8].try_into().expect("four bytes"));
    Reply::Probed((found == 1).then_some(value), pair(body, 2), bits)
}

fn values(body: &[u8]) -> Reply {
    let mut rest = &body[4..];
    let mut values = Vec::new();
    while !rest.is_empty() {
        let (entry, others) = rest.split_at(usize::from(pair(rest, 0)));
        assert_eq!(pair(entry, 2), 1, "a scan gives values");
        let key = u64::from_le_bytes(entry[4..12].try_into().expect("eight bytes"));
        values.push((key, text(&entry[12..])));
        rest = others;
    }
    assert_eq!(usize::from(pair(body, 0)), values.len());
    Reply::Values { values, more: pair(body, 2) }
}

/// A store under test.
#[derive(Clone)]
pub struct Client {
    pub lent: Lent,
}

impl Client {
    pub fn new(places: usize, threshold: u64) -> Client {
        let mut lent = Lent::zeroed(places);
        assert_eq!(make(&mut lent, threshold), 0);
        Client { lent }
    }

    /// A store with tables of these keys on these levels, in places from 0 up; a value is the key in decimal digits.
    pub fn with_tables(places: usize, threshold: u64, tables: &[(usize, &[u64])]) -> Client {
        let mut client = Client::new(places, threshold);
        let lent = &mut client.lent;
        for (place, (level, keys)) in tables.iter().enumerate() {
            lent.area[place * 1024..(place + 1) * 1024].copy_from_slice(&table(keys));
            lent.cards[place][0] = 1;
            summarize(&mut lent.cards[place], keys.iter().copied());
            lent.lists[level * places + lent.head[6 + level] as usize] = place as u16;
            lent.head[6 + level] += 1;
        }
        lent.head[1] = tables.len() as u64;
        assert_eq!(check(lent), (0, 0), "put together wrongly");
        client
    }

    /// Adds a frozen table in a free place, with links on live places: place, low, high. Each link's number is that of the
    /// entries in its range.
    pub fn freeze(
        mut self,
        place: usize,
        entries: &[Entry],
        links: &[(usize, u64, u64)],
    ) -> Client {
        let lent = &mut self.lent;
        lent.area[place * 1024..(place + 1) * 1024].copy_from_slice(&table_of(entries));
        lent.cards[place][0] = 2;
        summarize(&mut lent.cards[place], entries.iter().map(|(key, _)| *key));
        for (on, low, high) in links {
            let number = entries.iter().filter(|(key, _)| low <= key && key <= high).count();
            let card = &mut lent.cards[*on];
            let word = ROW_LINKS + LINK_WORDS * card[ROW_COUNT] as usize;
            let link = [place as u64, *low, *high, number as u64];
            card[word..word + LINK_WORDS].copy_from_slice(&link);
            card[ROW_COUNT] += 1;
        }
        assert_eq!(check(lent), (0, 0), "put together wrongly");
        self
    }

    /// One run with so much room for answers; gives what came back and the answer bytes.
    /// Bytes beyond those written must be untouched.
    pub fn run(&mut self, list: &[u8], room: usize) -> (Outcome, Vec<u8>) {
        let mut answers = vec![UNTOUCHED; room];
        let outcome = run(&mut self.lent, list, &mut answers);
        let beyond = answers.split_off(outcome.written as usize);
        assert!(beyond.iter().all(|byte| *byte == UNTOUCHED), "written beyond the answers");
        (outcome, answers)
    }

    /// One run that is accepted and serves all.
    pub fn ask(&mut self, asks: &[Ask]) -> Vec<Reply> {
        let (outcome, answers) = self.run(&list(asks), 1024 * (1 + asks.len()));
        assert_eq!((outcome.number, outcome.letter), (0, 0));
        assert_eq!(outcome.served as usize, asks.len());
        let mut rest = &answers[..];
        let replies = asks.iter().map(|ask| reply(ask.kind(), &mut rest)).collect();
        assert!(rest.is_empty(), "bytes beyond the last reply");
        replies
    }

    /// The same for one request.
    pub fn ask_one(&mut self, ask: Ask) -> Reply {
        self.ask(&[ask]).remove(0)
    }

    /// A request that must change nothing.
    pub fn ask_in_vain(&mut self, ask: Ask) -> Reply {
        let before = self.lent.clone();
        let reply = self.ask_one(ask);
        assert_eq!(
            self.lent.difference(&before),
            None,
            "a request without effect changed the store"
        );
        reply
    }

    /// Puts these keys, each with the same value, and flushes them as one table.
    pub fn flush_table(&mut self, keys: impl IntoIterator<Item = u64>, value: &'static str) {
        let mut asks: Vec<Ask> = keys.into_iter().map(|key| Ask::Put(key, value)).collect();
        asks.push(Ask::Flush);
        assert!(self.ask(&asks).iter().all(|reply| *reply == Reply::Done));
    }

    /// Check and run refuse the store by this letter, that of the first broken rule, and change nothing.
    pub fn breaks(mut self, letter: u8) {
        let before = self.lent.clone();
        assert_eq!(check(&self.lent), (5, u64::from(letter)));
        let (outcome, _) = self.run(&list(&[Ask::LookUp(5)]), 1024);
        assert_eq!((outcome.number, outcome.letter), (5, u64::from(letter)));
        assert_eq!((outcome.served, outcome.written), (0, 0));
        assert_eq!(self.lent.difference(&before), None);
    }

    /// The links on a card, oldest first: place, low, high and number.
    pub fn links(&self, place: usize) -> Vec<[u64; LINK_WORDS]> {
        let words = self.lent.links(place);
        words.map(|link| link.try_into().expect("the words of a link")).collect()
    }

    /// Places of a level's list.
    pub fn level(&self, level: usize) -> &[u16] {
        let places = self.lent.cards.len();
        &self.lent.lists[level * places..][..self.lent.head[6 + level] as usize]
    }
}

/// A scan's reply with these keys, all with one value.
pub fn found(keys: impl IntoIterator<Item = u64>, value: &str, more: u16) -> Reply {
    let values = keys.into_iter().map(|key| (key, value.to_string())).collect();
    Reply::Values { values, more }
}
