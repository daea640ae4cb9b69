//! Which tables a look-up asks for a key, and which of them it opens, worked out from a view.

use crate::{Key, Table, View};

/// A table that a look-up comes to.
#[derive(Clone, Copy, PartialEq, Eq, Debug)]
pub struct Asked<'a> {
    /// The table.
    pub table: &'a Table,
    /// The level that it is read on: of a frozen table that of the link.
    pub level: usize,
    /// Of a frozen table the live place whose link leads to it.
    pub linked_from: Option<usize>,
    /// Whether it is opened: its summary has the three bits of the key.
    pub opened: bool,
    /// Whether its entry, a value or a delete mark, decides.
    pub decides: bool,
}

impl View {
    /// The tables that a look-up asks for a key, in the order of reading up to the one that decides: on level 0 each, newest first; on
    /// levels 1 to 3 the one whose span holds the key, behind its links whose range holds it, newest first. None where memory decides.
    ///
    /// ```
    /// use zilgwern::{Key, Store};
    ///
    /// let mut store = Store::owned(16, 4)?;
    /// for key in [5, 6, 7] {
    ///     store.put(key, b"v")?;
    ///     store.flush()?;
    /// }
    /// // Keys 7 and 6 stand in newer tables, whose summaries lack the bit of key 5: those are passed.
    /// let view = store.view();
    /// let asked: Vec<_> = view.asked(Key(5)).iter().map(|it| (it.table.place, it.opened)).collect();
    /// assert_eq!(asked, [(2, false), (1, false), (0, true)]);
    /// assert_eq!(store.probe(5)?.tables, 1);
    /// # Ok::<(), zilgwern::Error>(())
    /// ```
    pub fn asked(&self, key: Key) -> Vec<Asked<'_>> {
        if self.memory.iter().any(|entry| entry.key == key) {
            return Vec::new();
        }
        let mut asked = self.read_order(key);
        let deciding = asked.iter().position(|it| it.decides);
        asked.truncate(deciding.map_or(asked.len(), |at| at + 1));
        asked
    }

    /// The same to the end, whatever decides.
    fn read_order(&self, key: Key) -> Vec<Asked<'_>> {
        let asked = |table, level, linked_from| Asked::of(table, level, linked_from, key);
        let mut order: Vec<Asked> =
            self.levels[0].iter().rev().map(|table| asked(table, 0, None)).collect();
        for (level, tables) in self.levels.iter().enumerate().skip(1) {
            let Some(table) = tables.iter().find(|table| table.spans(key)) else { continue };
            let links = table.links.iter().rev().filter(|link| link.holds(key));
            let frozen = links.filter_map(|link| self.frozen_at(link.place));
            order.extend(frozen.map(|frozen| asked(frozen, level, Some(table.place))));
            order.push(asked(table, level, None));
        }
        order
    }
}

impl<'a> Asked<'a> {
    fn of(table: &'a Table, level: usize, linked_from: Option<usize>, key: Key) -> Asked<'a> {
        let opened = table.summary.may_hold(key);
        let decides = opened && table.entries.iter().any(|entry| entry.key == key);
        Asked { table, level, linked_from, opened, decides }
    }
}
