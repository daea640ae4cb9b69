//! `probe`: what a look-up opens on its way to a value, in words.

use crate::words::{counted, share_words, value_words};
use zilgwern::{Asked, Key, Probe, Summary, View};

/// The reply on one line.
pub fn reply_words(probe: &Probe) -> String {
    let Probe { value, tables, bits } = probe;
    let tables = counted(usize::from(*tables), "table", "tables");
    let bits = counted(*bits as usize, "bit", "bits");
    match value {
        Some(value) => format!("found, {tables} opened, {bits} set: {}", value_words(value)),
        None => format!("not found, {tables} opened, {bits} set"),
    }
}

/// The tables that were opened, one on a line, and how many were not, as the store's memory shows it.
pub fn opened_words(view: &View, key: Key) -> String {
    let asked = view.asked(key);
    if asked.is_empty() {
        return match view.memory.iter().any(|entry| entry.key == key) {
            true => "  memory decides, no table is asked\n".into(),
            false => "  no table is asked\n".into(),
        };
    }
    let opened = asked.iter().filter(|it| it.opened);
    let mut lines: String = opened.clone().map(|it| table_words(it, key)).collect();
    let others = asked.len() - opened.count();
    if others > 0 {
        let tables = counted(others, "table", "tables");
        lines += &format!("  {tables} asked and not opened: a bit of the key is clear\n");
    }
    lines
}

/// A table that was opened: where it stands, its bits, and what it holds under the key.
fn table_words(asked: &Asked, key: Key) -> String {
    let Asked { table, level, linked_from, .. } = asked;
    let stands = match linked_from {
        None => format!("level {level}"),
        Some(place) => format!("linked from {place} on level {level}"),
    };
    let holds = match table.entries.iter().find(|entry| entry.key == key) {
        None => "in vain",
        Some(entry) if entry.value.is_none() => "delete mark",
        Some(_) => "value",
    };
    let bits = share_words(table.summary.bits_set(), Summary::BITS);
    format!("  place {}, {stands}: {bits}, {holds}\n", table.place)
}
