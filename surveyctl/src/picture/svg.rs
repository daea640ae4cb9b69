//! The picture as an SVG: a lane for the memory table and for each level, links as slices that hang between frozen tables
//! and the tables below, and a map of all places.

use super::paint::{Paint, FREE, FROZEN, LEFT, LEVELS, MEMORY, MERGED, RIGHT, WIDTH};
use super::scale::{extent, fill, frozen_on, states, summary_bits, title, weighed, Scale, State};
use crate::words::{counted, key_words, range_words, share_words};
use zilgwern::{Entry, Key, Link, Summary, Table, View};

/// Heights of a row of tables and of a link's slice, each with the room below it, and the room between things.
const ROW: f64 = 25.0;
const SLICE: f64 = 10.0;
const GAP: f64 = 6.0;

/// Rows that have their full height; more of them share the same room, but have at least this height each.
const FULL_ROWS: f64 = 16.0;
const LEAST_ROW: f64 = 1.5;

/// Room for the lines from frozen tables to slices.
const REACH: f64 = 26.0;

/// Places on one row of the map, and the side of one.
const MAP: usize = 128;
const SQUARE: f64 = 8.1;

struct Drawing<'a> {
    view: &'a View,
    scale: Scale,
    whole: bool,
    paint: Paint,
    /// How far down the picture has come.
    y: f64,
}

/// A frozen table's bar: its place, and where it ends downwards.
struct Hung {
    place: usize,
    bottom: f64,
}

pub fn draw(view: &View, whole: bool) -> String {
    let mut drawing =
        Drawing { view, scale: Scale::of(view), whole, paint: Paint::default(), y: 28.0 };
    drawing.head();
    drawing.memory();
    drawing.level_0();
    (1..view.levels.len()).for_each(|level| drawing.level(level));
    drawing.map();
    drawing.paint.picture(LEFT + WIDTH + RIGHT, drawing.y + 20.0)
}

/// The height of one of so many rows.
fn row_height(rows: usize) -> f64 {
    (FULL_ROWS * ROW / rows.max(1) as f64).clamp(LEAST_ROW, ROW)
}

/// What of a row its table takes; the rest keeps it from the next.
fn table_height(row: f64) -> f64 {
    row - (row / 8.0).min(3.0)
}

/// The frozen tables of a level, in as few rows as keep them apart.
fn rows(view: &View, level: usize) -> Vec<Vec<&Table>> {
    let mut tables = frozen_on(view, level);
    tables.sort_by_key(|table| extent(&table.entries));
    let mut rows: Vec<(Key, Vec<&Table>)> = Vec::new();
    for table in tables {
        let Some((low, high)) = extent(&table.entries) else { continue };
        match rows.iter_mut().find(|(end, _)| *end < low) {
            Some((end, row)) => {
                *end = high;
                row.push(table);
            }
            None => rows.push((high, vec![table])),
        }
    }
    rows.into_iter().map(|(_, row)| row).collect()
}

/// What a table's links weigh against its own entries; nothing where it has none.
fn weight_words(table: &Table) -> String {
    let weights = format!("{} against {}", table.weight(), table.entries.len());
    match table.links.len() {
        0 => String::new(),
        1 => format!("; its link weighs {weights}"),
        count => format!("; its {count} links weigh {weights}"),
    }
}

impl Drawing<'_> {
    /// Title, what the width means, and what the colours mean.
    fn head(&mut self) {
        let View { threshold, cursor, .. } = self.view;
        let bits = summary_bits(self.view).map_or(String::new(), |bits| format!("; {bits}"));
        let words = format!("{}; threshold {threshold}; cursor {cursor}{bits}", title(self.view));
        self.paint.words(16.0, self.y, "title", &words);
        let words = match self.scale.ends() {
            Some((low, high)) => {
                let range = range_words(low, high, self.whole);
                let keys = "left to right: the keys in their order";
                let weights = "5/16 on a table: its links weigh 5 entries, and it has 16 itself";
                format!("{keys}, {range}, each as wide as the next; {weights}")
            }
            None => "no keys".into(),
        };
        self.paint.words(16.0, self.y + 18.0, "note", &words);
        self.paint.legend(self.y + 36.0);
        self.y += 40.0;
    }

    /// Where a range of keys begins, and how wide it is.
    fn reach(&self, low: Key, high: Key) -> (f64, f64) {
        let (start, end) = self.scale.range(low, high);
        (LEFT + start * WIDTH, (end - start) * WIDTH)
    }

    fn reach_of(&self, entries: &[Entry]) -> (f64, f64) {
        extent(entries).map_or((LEFT, 0.0), |(low, high)| self.reach(low, high))
    }

    /// The name of a lane, with a line over all its width above it, and notes below the name.
    fn lane(&mut self, name: &str, notes: &[String]) {
        self.y += 2.0 * GAP;
        self.paint.rule(self.y);
        self.y += GAP;
        self.paint.words(16.0, self.y + 14.0, "lane", name);
        for (at, note) in notes.iter().enumerate() {
            self.paint.words(16.0, self.y + 30.0 + 15.0 * at as f64, "note", note);
        }
    }

    fn memory(&mut self) {
        let entries = &self.view.memory;
        self.lane("memory", &[format!("{} of 16 entries", entries.len())]);
        if let Some((low, high)) = extent(entries) {
            let range = range_words(low, high, self.whole);
            let tip = format!("memory: {}, {range}", counted(entries.len(), "entry", "entries"));
            let reach = self.reach(low, high);
            self.paint.solid(reach, (self.y, table_height(ROW)), MEMORY, &tip);
        }
        self.y += 34.0;
    }

    fn tip(&self, kind: &str, table: &Table) -> String {
        let count = counted(table.entries.len(), "entry", "entries");
        let range = extent(&table.entries)
            .map_or(String::new(), |(low, high)| range_words(low, high, self.whole));
        let bits = share_words(table.summary.bits_set(), Summary::BITS);
        format!("place {}, {kind}: {count}, {range}; {bits}", table.place)
    }

    /// Level 0: a row for each table, the newest on top since it is read first.
    fn level_0(&mut self) {
        let view = self.view;
        let mut notes = vec![fill(view, 0)];
        if view.levels[0].len() > 1 {
            notes.push("newest on top".into());
        }
        self.lane("level 0", &notes);
        let (began, row) = (self.y, row_height(view.levels[0].len()));
        for table in view.levels[0].iter().rev() {
            let (reach, tip) = (self.reach_of(&table.entries), self.tip("level 0", table));
            self.paint.solid(reach, (self.y, table_height(row)), LEVELS[0], &tip);
            let label = [table.place.to_string()];
            self.paint.label(reach, (self.y, table_height(row)), "on", &label);
            self.y += row;
        }
        self.y = self.y.max(began + 34.0);
    }

    /// What stands below the name of a level.
    fn notes(&self, level: usize, frozen: usize) -> Vec<String> {
        let view = self.view;
        let mut notes = vec![fill(view, level)];
        if frozen > 0 {
            notes.push(format!("{frozen} frozen above"));
        }
        match view.levels[level].iter().filter(|table| view.is_due(table)).count() {
            0 => {}
            count => notes.push(format!("{} due", counted(count, "merge", "merges"))),
        }
        if let Some(Some(mark)) = view.marks.get(level - 1) {
            notes.push(format!("mark {}", key_words(*mark, self.whole)));
        }
        notes
    }

    /// Levels 1 to 3: frozen tables on top, then slices over the tables they belong to.
    fn level(&mut self, level: usize) {
        let view = self.view;
        let (frozen, links) =
            (rows(view, level), view.levels[level].iter().map(|it| it.links.len()));
        let slices = links.max().unwrap_or(0) as f64 * SLICE;
        let notes = self.notes(level, frozen.iter().map(Vec::len).sum());
        self.lane(&format!("level {level}"), &notes);
        let row = row_height(frozen.len());
        let gap = if frozen.is_empty() { 0.0 } else { REACH };
        let tables = self.y + frozen.len() as f64 * row + gap + slices;
        // Lines lie below the tables that they pass.
        self.lines(level, &frozen, row, tables);
        for (at, tables) in frozen.iter().enumerate() {
            let y = (self.y + at as f64 * row, table_height(row));
            tables.iter().for_each(|table| self.frozen(level, table, y));
        }
        for table in &view.levels[level] {
            table
                .links
                .iter()
                .enumerate()
                .for_each(|(age, link)| self.slice(link, table, age, tables));
            self.live(level, table, tables);
        }
        if let Some(Some(mark)) = view.marks.get(level - 1) {
            let (x, width) = self.reach(*mark, *mark);
            self.paint.mark(x + width, tables + ROW);
        }
        self.y = (tables + ROW + GAP).max(self.y + 20.0 + 15.0 * notes.len() as f64);
    }

    /// A live table: its own keys filled, its span drawn around; in black where a merge is due.
    fn live(&mut self, level: usize, table: &Table, y: f64) {
        let ((low, high), at) = (table.span(), (y, table_height(ROW)));
        let due = self.view.is_due(table);
        let kind = format!("level {level}{}", if due { ", merge due" } else { "" });
        let (tip, own) =
            (self.tip(&kind, table) + &weight_words(table), self.reach_of(&table.entries));
        self.paint.span(self.reach(low, high), at, if due { "black" } else { LEVELS[level] }, &tip);
        self.paint.solid(own, at, LEVELS[level], &tip);
        let place = table.place.to_string();
        let labels = match table.links[..] {
            [] => vec![place],
            _ => vec![format!("{place}: {}", weighed(table)), place],
        };
        self.paint.label(own, at, "on", &labels);
    }

    /// A link's slice over its table: the oldest lies on it, newer ones above.
    fn slice(&mut self, link: &Link, table: &Table, age: usize, tables: f64) {
        let count = counted(link.number, "entry", "entries");
        let range = range_words(link.low, link.high, self.whole);
        let tip =
            format!("link of place {} to place {}: {count}, {range}", table.place, link.place);
        let y = tables - (age + 1) as f64 * SLICE;
        let (reach, at) = (self.reach(link.low, link.high), (y, SLICE - 2.0));
        self.paint.ice(reach, at, FROZEN, &tip);
        self.paint.small(reach, at, &link.number.to_string());
    }

    /// A line from what each link holds of its frozen table to the link's slice.
    fn lines(&mut self, level: usize, frozen: &[Vec<&Table>], row: f64, tables: f64) {
        let rows = frozen.iter().enumerate();
        let mut hung: Vec<Hung> = rows
            .flat_map(|(at, row_tables)| row_tables.iter().map(move |table| (at, table)))
            .map(|(at, table)| Hung {
                place: table.place,
                bottom: self.y + at as f64 * row + table_height(row),
            })
            .collect();
        hung.sort_by_key(|hung| hung.place);
        // Many lines are thin, so that they stay apart.
        let links: usize = self.view.levels[level].iter().map(|table| table.links.len()).sum();
        let thin = if links > 300 { 0.25 } else { 0.6 };
        for table in &self.view.levels[level] {
            for (age, link) in table.links.iter().enumerate() {
                let Ok(from) = hung.binary_search_by_key(&link.place, |hung| hung.place) else {
                    continue;
                };
                let (x, width) = self.reach_of(self.view.slice(link));
                let y = tables - (age + 1) as f64 * SLICE;
                self.paint.line(x + width / 2.0, hung[from].bottom, y, thin);
            }
        }
    }

    /// A frozen table, pale where it has been merged already.
    fn frozen(&mut self, level: usize, table: &Table, y: (f64, f64)) {
        let (view, own) = (self.view, self.reach_of(&table.entries));
        let tip = self.tip("frozen", table);
        self.paint.ice(own, y, MERGED, &tip);
        let links = view.levels[level].iter().flat_map(|on| &on.links);
        for link in links.filter(|link| link.place == table.place) {
            let entries = view.slice(link);
            let tip = format!("{tip}; {} wait", counted(entries.len(), "entry", "entries"));
            self.paint.ice(self.reach_of(entries), y, FROZEN, &tip);
        }
        self.paint.label(own, y, "ice", &[table.place.to_string()]);
    }

    /// All places as small squares, the cursor with a frame.
    fn map(&mut self) {
        self.lane("places", &["cursor framed".into()]);
        let at = |place: usize| ((place % MAP) as f64 * SQUARE, (place / MAP) as f64 * SQUARE);
        for (place, state) in states(self.view).into_iter().enumerate() {
            let (colour, words) = match state {
                State::Free => (FREE, "free".into()),
                State::Live(level) => (LEVELS[level], format!("live on level {level}")),
                State::Frozen => (FROZEN, "frozen".into()),
            };
            let (x, y) = at(place);
            if place % MAP == 0 {
                self.paint.words(LEFT - 6.0, self.y + y + 7.0, "row", &place.to_string());
            }
            let tip = format!("place {place}: {words}");
            self.paint.square((LEFT + x, self.y + y), SQUARE - 1.0, colour, &tip);
        }
        let (x, y) = at(self.view.cursor);
        self.paint.frame((LEFT + x, self.y + y), SQUARE - 1.0);
        let rows = self.view.places.div_ceil(MAP);
        self.y += (rows as f64 * SQUARE).max(34.0);
    }
}
