//! What demand 3 leaves to others: the replies that the map does not settle, the whole book and the
//! live tables, as the working has them. A second opinion on the second implementation.

use super::compaction::Deed;
use super::latest::reply;
use super::probe::has_bits;
use super::working::{bytes_of, Rows, Working};
use super::Served;
use crate::lent::Lent;

impl Working {
    /// Compares a reply with what the rules give, done look-ups, scans and probes apart.
    pub fn compare_reply(&self, served: &Served, deed: Option<Deed>) -> Result<(), String> {
        let Some((result, body)) = self.expected(served, deed) else {
            return Ok(());
        };
        let expected = reply(served.kind, result, &body);
        if served.reply == expected {
            return Ok(());
        }
        Err(format!("{deed:?}: replied {:02X?}, expected {expected:02X?}", served.reply))
    }

    /// Result and body, where the latest-write map does not settle them.
    fn expected(&self, served: &Served, deed: Option<Deed>) -> Option<(u16, Vec<u8>)> {
        let bare = |result| Some((result, Vec::new()));
        let step = |number: u8, level: usize| Some((0, vec![number, 0, level as u8, 0]));
        match (served.kind, deed) {
            (0 | 9.., _) => bare(16),
            (kind, _) if !Working::well_formed(kind, served.body) => bare(17),
            (4, _) if upside_down(served.body) => bare(19),
            (3 | 4 | 8, _) => None,
            (7, _) => Some((0, self.report())),
            (_, None | Some(Deed::Idle)) => bare(65),
            (_, Some(Deed::Written | Deed::Flushed)) => bare(0),
            (_, Some(Deed::WriteRefused)) => bare(18),
            (_, Some(Deed::FlushRefused | Deed::MergeRefused { .. })) => bare(20),
            (_, Some(Deed::Moved { from })) => step(1, from),
            (_, Some(Deed::Linked { from, .. })) => step(2, from),
            (_, Some(Deed::Merged { on, .. })) => step(3, on),
        }
    }

    fn report(&self) -> Vec<u8> {
        let mut counts = vec![self.free()];
        counts.extend(self.levels.iter().map(Vec::len));
        counts.extend([self.kept.len(), self.slices.len(), self.memory.len()]);
        counts.iter().flat_map(|count| (*count as u16).to_le_bytes()).collect()
    }

    /// Compares head, lists, memory table, states, summaries and the bytes of live tables.
    pub fn compare_book(&self, after: &Lent) -> Result<(), String> {
        let places = self.tables.len();
        let mut head = [0; 10];
        head[..2].copy_from_slice(&[self.threshold as u64, self.cursor as u64]);
        for (level, mark) in &self.marks {
            head[2 * level..2 * level + 2].copy_from_slice(&[1, *mark]);
        }
        let mut lists = vec![0; 4 * places];
        for (level, list) in self.levels.iter().enumerate() {
            head[6 + level] = list.len() as u64;
            for (item, place) in lists[level * places..].iter_mut().zip(list) {
                *item = *place as u16;
            }
        }
        if after.head != head {
            return Err(format!("head {:?}, expected {head:?}", after.head));
        }
        if after.lists != lists {
            return Err("level lists are not the expected ones".into());
        }
        if after.memory[..] != bytes_of(&self.memory) {
            return Err("the memory table is not the expected one".into());
        }
        self.compare_places(after)
    }

    fn compare_places(&self, after: &Lent) -> Result<(), String> {
        for (place, table) in self.tables.iter().enumerate() {
            let fits = match table {
                None => after.cards[place][0] == 0 && has_bits(&after.cards[place], &Rows::new()),
                Some(rows) => {
                    after.cards[place][0] != 0
                        && after.place(place) == bytes_of(rows)
                        && has_bits(&after.cards[place], rows)
                }
            };
            if !fits {
                return Err(format!("place {place} does not hold what is expected"));
            }
        }
        Ok(())
    }
}

/// Whether a scan's low key is above its high key.
fn upside_down(body: &[u8]) -> bool {
    let (low, high) = body.split_at(8);
    // Little-endian numbers compare from their last byte down.
    low.iter().rev().gt(high.iter().rev())
}
