//! Small stores sketched by hand, place by place, and what one tidy or flush must make of them to the byte:
//! for tests whose expectations are written out. Nothing here asks the rules or the decoded store.

use super::requests::{flush, look_up, scan, tidy};
use crate::implementation::{Implementation, Ran};
use crate::lent::*;
use crate::summary::summary_of;
use crate::table::{table_bytes, Entries, Entry, Key};
use crate::trial::{Eyes, Trial, UNTOUCHED};

/// Lent memory in the making.
#[derive(Clone)]
pub struct Sketch {
    lent: Lent,
}

/// Entries from words: `7` is a value under 7, which is the digits; `x7` is a delete mark under 7, `e7` an empty value.
fn entries(words: &str) -> Entries {
    let entry = |word: &str| {
        let digits = word.trim_start_matches(['x', 'e']);
        let key: Key = digits.parse().expect("a key in digits");
        let entry = match word.as_bytes()[0] {
            b'x' => Entry::DeleteMark,
            b'e' => Entry::Value(Vec::new()),
            _ => Entry::Value(digits.as_bytes().to_vec()),
        };
        (key, entry)
    };
    words.split_whitespace().map(entry).collect()
}

impl Sketch {
    /// A store without tables; all bytes of the area are zero.
    pub fn of(places: usize, threshold: u64) -> Sketch {
        let mut lent = Lent::zeroed(places);
        lent.head[HEAD_THRESHOLD] = threshold;
        lent.memory = table_bytes(&Entries::new());
        Sketch { lent }
    }

    pub fn memory(mut self, words: &str) -> Sketch {
        self.lent.memory = table_bytes(&entries(words));
        self
    }

    /// The mark of level 1 or 2.
    pub fn mark(mut self, level: usize, key: Key) -> Sketch {
        let flag = HEAD_MARKS + 2 * (level - 1);
        self.lent.head[flag..flag + 2].copy_from_slice(&[1, key]);
        self
    }

    /// The lent memory as sketched.
    pub fn lent(self) -> Lent {
        self.lent
    }

    pub fn cursor(mut self, cursor: u64) -> Sketch {
        self.lent.head[HEAD_CURSOR] = cursor;
        self
    }

    /// A table's bytes in a place that is free and stays so: what a former table left there.
    pub fn former(mut self, place: usize, words: &str) -> Sketch {
        let bytes = table_bytes(&entries(words));
        self.lent.area[place * bytes.len()..][..bytes.len()].copy_from_slice(&bytes);
        self
    }

    /// A live table at the end of its level's list.
    pub fn live(self, place: usize, level: usize, words: &str) -> Sketch {
        let mut next = self.former(place, words);
        let places = next.lent.cards.len();
        let length = &mut next.lent.head[HEAD_LENGTHS + level];
        next.lent.lists[level * places + *length as usize] = place as u16;
        *length += 1;
        next.card(place, STATE_LIVE, words)
    }

    pub fn frozen(self, place: usize, words: &str) -> Sketch {
        self.former(place, words).card(place, STATE_FROZEN, words)
    }

    /// State and bits of a card.
    fn card(mut self, place: usize, state: u64, words: &str) -> Sketch {
        let card = &mut self.lent.cards[place];
        card[ROW_STATE] = state;
        put_summary(card, &summary_of(entries(words).into_keys()));
        self
    }

    /// A link on the card of a live place: frozen place, low, high and number.
    pub fn link(mut self, on: usize, link: [u64; LINK_WORDS]) -> Sketch {
        let card = &mut self.lent.cards[on];
        let word = ROW_LINKS + LINK_WORDS * card[ROW_COUNT] as usize;
        card[word..word + LINK_WORDS].copy_from_slice(&link);
        card[ROW_COUNT] += 1;
        self
    }
}

/// One tidy or flush: the store before it, its reply and the store after it, all by hand; and look-ups that
/// are answered alike before and after.
pub struct Case {
    before: Lent,
    request: Vec<u8>,
    reply: Vec<u8>,
    after: Lent,
    /// Requests with their replies.
    reads: Vec<(Vec<u8>, Vec<u8>)>,
}

impl Case {
    fn of(request: Vec<u8>, reply: &[u8], before: Sketch, after: Sketch) -> Case {
        let (before, reply, after) = (before.lent, reply.to_vec(), after.lent);
        Case { before, request, reply, after, reads: Vec::new() }
    }

    /// A tidy that moves, links or merges (1, 2 or 3) a table of this level.
    pub fn tidied(step: u8, level: usize, before: Sketch, after: Sketch) -> Case {
        Case::of(tidy(), &[10, 0, 6, 0, 0, 0, step, 0, level as u8, 0], before, after)
    }

    /// A tidy that merges a table of this level.
    pub fn merged(level: usize, before: Sketch, after: Sketch) -> Case {
        Case::tidied(3, level, before, after)
    }

    /// A tidy that is refused with 20 and changes nothing.
    pub fn refused(store: Sketch) -> Case {
        Case::of(tidy(), &[6, 0, 6, 0, 20, 0], store.clone(), store)
    }

    /// A tidy that has nothing to do.
    pub fn idle(store: Sketch) -> Case {
        Case::of(tidy(), &[6, 0, 6, 0, 65, 0], store.clone(), store)
    }

    /// A flush that is done.
    pub fn flushed(before: Sketch, after: Sketch) -> Case {
        Case::of(flush(), &[6, 0, 5, 0, 0, 0], before, after)
    }

    /// Keys that no look-up finds a value under.
    pub fn without(mut self, keys: &[Key]) -> Case {
        let lacks = |key: &Key| (look_up(*key), vec![6, 0, 3, 0, 64, 0]);
        self.reads.extend(keys.iter().map(lacks));
        self
    }

    /// Keys that a look-up finds their digits under.
    pub fn with(mut self, keys: &[Key]) -> Case {
        let finds = |key: &Key| {
            let digits = key.to_string();
            let head = [6 + digits.len() as u8, 0, 3, 0, 0, 0];
            (look_up(*key), [&head[..], digits.as_bytes()].concat())
        };
        self.reads.extend(keys.iter().map(finds));
        self
    }

    /// Fails unless the implementation finds both stores sound and comes from one to the other with
    /// these replies, and unless these eyes find nothing else.
    pub fn hold(&self, subject: &dyn Implementation, eyes: Eyes) -> Result<(), String> {
        for lent in [&self.before, &self.after] {
            if subject.check(lent) != (0, 0) {
                return Err(format!("sketched wrongly: {:?}", subject.check(lent)));
            }
        }
        let (asked, answered): (Vec<_>, Vec<_>) = self.reads.iter().cloned().unzip();
        let list = [asked.concat(), self.request.clone(), asked.concat()].concat();
        let expected = [answered.concat(), self.reply.clone(), answered.concat()].concat();
        let mut answers = vec![UNTOUCHED; 1024 + expected.len()];
        let mut lent = self.before.clone();
        let ran = subject.run(&mut lent, &list, &mut answers);
        let served = 2 * asked.len() + 1;
        let (answers, beyond) = answers.split_at(expected.len());
        if ran != (Ran { number: 0, letter: 0, served, written: expected.len() }) {
            return Err(format!("gives {ran:?}, of {served} requests"));
        }
        if answers != expected || beyond.iter().any(|byte| *byte != UNTOUCHED) {
            return Err(format!("answers {answers:?}, expected {expected:?}"));
        }
        if let Some(words) = lent.difference(&self.after) {
            return Err(format!("not the store that was told: {words}"));
        }
        let mut trial = Trial::of_sound_store(subject, eyes, self.before.clone());
        let all = scan(Key::MIN, Key::MAX);
        let ran = trial.run(&[&all[..], &list, &all].concat(), 1 << 14);
        ran.map(|_| ()).map_err(|finding| format!("{finding:?}"))
    }
}
