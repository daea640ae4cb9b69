//! Request kind 8 (note 6): the tables opened and their bits, by the working's own walk over its tables, slices and rows; and what
//! probes met, for counting what a test run reached. The bits are worked out here a second time, each as a place in a row of 256.

use super::met;
use super::working::{Row, Rows, Slice, Working};
use super::Served;
use crate::lent::{Row as Card, ROW_SUMMARY};

/// Which of the 256 bits are set.
type Bits = [bool; 256];

/// The three bits of a key, two or three of which may be one.
fn three(key: u64) -> [usize; 3] {
    let byte = |at: usize| (key >> (8 * at)) as usize % 256;
    let sum: usize = (0..8).map(byte).sum();
    let weighed: usize = (0..8).map(|at| byte(at) * (at + 1)).sum();
    [(0..8).fold(0, |xor, at| xor ^ byte(at)), sum % 256, weighed % 256]
}

fn bits_of(rows: &Rows) -> Bits {
    let mut bits = [false; 256];
    for bit in rows.iter().flat_map(|row| three(row.0)) {
        bits[bit] = true;
    }
    bits
}

/// Whether a card's last four words are the bits of these rows: 64 of them in each, from its lowest bit up.
pub(super) fn has_bits(card: &Card, rows: &Rows) -> bool {
    let bits = bits_of(rows);
    (0..256).all(|bit| (card[ROW_SUMMARY + bit / 64] >> (bit % 64) & 1 == 1) == bits[bit])
}

/// A table that the read order has for a key.
struct Asked<'a> {
    level: usize,
    /// Whether it is a frozen one, asked through a link.
    linked: bool,
    rows: &'a Rows,
}

impl Asked<'_> {
    fn entry(&self, key: u64) -> Option<&Row> {
        self.rows.iter().find(|row| row.0 == key)
    }

    /// Whether the key is below or above all keys of the table.
    fn is_beyond(&self, key: u64) -> bool {
        self.rows.iter().all(|row| key < row.0) || self.rows.iter().all(|row| row.0 < key)
    }

    /// What is special about opening it.
    fn met(&self, key: u64) -> Vec<&'static str> {
        let (level_0, live) = (self.level == 0, !self.linked);
        let in_vain = self.entry(key).is_none();
        let marked = self.entry(key).is_some_and(|row| row.1.is_none());
        let empty = self.entry(key).is_some_and(|row| row.1.as_ref().is_some_and(Vec::is_empty));
        let decides_on = |level, linked| !in_vain && (self.level, self.linked) == (level, linked);
        let seen = [
            (decides_on(0, false), met::PROBED_ON_0),
            (decides_on(1, false), met::PROBED_ON_1),
            (decides_on(2, false), met::PROBED_ON_2),
            (decides_on(3, false), met::PROBED_ON_3),
            (decides_on(1, true), met::PROBED_LINK_1),
            (decides_on(2, true), met::PROBED_LINK_2),
            (decides_on(3, true), met::PROBED_LINK_3),
            (marked && live, met::PROBED_MARK),
            (marked && self.linked, met::PROBED_LINKED_MARK),
            (empty, met::PROBED_EMPTY),
            (in_vain && level_0, met::VAIN_ON_0),
            (in_vain && live && !level_0, met::VAIN_LOWER),
            (in_vain && self.linked, met::VAIN_FROZEN),
            (level_0 && self.is_beyond(key), met::BEYOND_ON_0),
            (!level_0 && live && self.is_beyond(key), met::BEYOND_LOWER),
        ];
        seen.iter().filter(|(is_so, _)| *is_so).map(|(_, name)| *name).collect()
    }
}

impl Working {
    /// The tables of the read order for a key, and of the slices that are left out by their ranges the frozen tables.
    fn asked(&self, key: u64) -> (Vec<Asked<'_>>, Vec<&Rows>) {
        let on_0 = self.levels[0].iter().rev();
        let mut asked: Vec<Asked> =
            on_0.map(|place| Asked { level: 0, linked: false, rows: self.rows(*place) }).collect();
        let mut left_out = Vec::new();
        let hanging = self.hanging();
        for level in 1..4 {
            for place in &self.levels[level] {
                let slices: &[&Slice] = hanging.get(place).map_or(&[][..], |slices| slices);
                let (low, high) = self.hull(*place, slices);
                if key < low || high < key {
                    continue;
                }
                for slice in slices.iter().rev() {
                    let rows = self.rows(slice.frozen);
                    match slice.low <= key && key <= slice.high {
                        true => asked.push(Asked { level, linked: true, rows }),
                        false => left_out.push(rows),
                    }
                }
                asked.push(Asked { level, linked: false, rows: self.rows(*place) });
            }
        }
        (asked, left_out)
    }

    /// Compares the tables opened and their bits in a reply of kind 8; what else stands there is the map's.
    pub(super) fn compare_probe(&mut self, served: &Served) -> Result<(), String> {
        if served.kind != 8 || !Working::well_formed(8, served.body) {
            return Ok(());
        }
        let key = u64::from_le_bytes(served.body.try_into().expect("eight bytes"));
        let (opened, bits, met) = self.probed(key);
        self.met.extend(met);
        let opened_bytes = (opened as u16).to_le_bytes();
        let expected = [&opened_bytes[..], &(bits as u32).to_le_bytes()].concat();
        match served.reply.get(8..14) == Some(&expected) {
            true => Ok(()),
            false => Err(format!(
                "probe of {key}: replied {:02X?}, expected {opened} tables and {bits} bits",
                served.reply
            )),
        }
    }

    /// The tables opened up to the entry that decides, the bits set in their summaries, and what was met.
    fn probed(&self, key: u64) -> (usize, usize, Vec<&'static str>) {
        let wanted = three(key);
        let may_hold = |rows: &Rows| {
            let bits = bits_of(rows);
            wanted.iter().all(|bit| bits[*bit])
        };
        if let Some(row) = self.memory.iter().find(|row| row.0 == key) {
            let name = if row.1.is_some() { met::PROBED_MEMORY } else { met::PROBED_MEMORY_MARK };
            return (0, 0, vec![name]);
        }
        let (asked, left_out) = self.asked(key);
        let (mut opened, mut bits, mut met, mut decided) = (0, 0, Vec::new(), false);
        for table in &asked {
            if !may_hold(table.rows) {
                met.push(met::NOT_OPENED);
                continue;
            }
            opened += 1;
            bits += bits_of(table.rows).iter().filter(|bit| **bit).count();
            met.extend(table.met(key));
            if table.entry(key).is_some() {
                decided = true;
                break;
            }
        }
        let outside = (1..4).any(|level| {
            !self.levels[level].is_empty() && asked.iter().all(|table| table.level != level)
        });
        let seen = [
            (opened == 0 && !asked.is_empty(), met::NONE_OPENED),
            (opened > 0 && !decided, met::ALL_IN_VAIN),
            (opened > 2, met::SEVERAL_OPENED),
            (!decided && outside, met::OUTSIDE_SPANS),
            (left_out.iter().any(|rows| may_hold(rows)), met::BEYOND_RANGE),
        ];
        met.extend(seen.iter().filter(|(is_so, _)| *is_so).map(|(_, name)| *name));
        (opened, bits, met)
    }
}
