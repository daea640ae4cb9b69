//! The picture in a terminal of 80 columns: a line for each table and link, with a bar for its keys.

use super::scale::{
    delete_marks, extent, fill, frozen_on, states, summary_bits, title, weighed, Scale, State,
};
use crate::words::{counted, key_words, percent, range_words};
use zilgwern::{Key, Summary, Table, View};

/// Columns of a name with its count, of the share of bits, and of a bar.
const NAME: usize = 19;
const SHARE: usize = 5;
const BAR: usize = 26;

/// Places on one line of the map.
const MAP: usize = 64;

/// Tables that are named in one line.
const NAMED: usize = 4;

/// What bars are made of: own keys, a link's range, what of a frozen table waits and what is merged, and the rest.
pub struct Signs {
    own: char,
    link: char,
    waits: char,
    merged: char,
    rest: char,
    arrow: char,
}

impl Signs {
    pub const BLOCKS: Signs =
        Signs { own: '█', link: '▒', waits: '▒', merged: '░', rest: '·', arrow: '└' };
    pub const ASCII: Signs =
        Signs { own: '#', link: '=', waits: '=', merged: '-', rest: '.', arrow: '+' };
}

struct Drawing<'a> {
    view: &'a View,
    scale: Scale,
    whole: bool,
    signs: &'a Signs,
    lines: Vec<String>,
}

/// What stands before a bar: a name, a count, and of a table the share of its summary's bits that are set.
struct Named {
    name: String,
    count: String,
    share: String,
}

impl Named {
    fn of(table: &Table) -> Named {
        let share = format!("{}%", percent(table.summary.bits_set(), Summary::BITS));
        Named { name: format!("  place {}", table.place), count: weighed(table), share }
    }

    fn without_share(name: String, count: usize) -> Named {
        Named { name, count: count.to_string(), share: String::new() }
    }
}

pub fn draw(view: &View, whole: bool, signs: &Signs) -> String {
    let mut drawing = Drawing { view, scale: Scale::of(view), whole, signs, lines: Vec::new() };
    drawing.lines.push(title(view));
    drawing.book();
    drawing.lines.push(String::new());
    drawing.memory();
    (0..view.levels.len()).for_each(|level| drawing.level(level));
    (1..view.levels.len()).for_each(|level| drawing.frozen(level));
    drawing.map();
    drawing.lines.push(String::new());
    drawing.lines.join("\n")
}

impl Drawing<'_> {
    /// Threshold, cursor and marks; where delete marks are; and how full the summaries.
    fn book(&mut self) {
        let mut line = format!("threshold {}, cursor {}", self.view.threshold, self.view.cursor);
        for (at, mark) in self.view.marks.iter().enumerate() {
            if let Some(mark) = mark {
                line += &format!(", mark of level {} at {}", at + 1, key_words(*mark, self.whole));
            }
        }
        self.lines.push(line);
        self.lines.extend(delete_marks(self.view));
        self.lines.extend(summary_bits(self.view));
    }

    /// One line: a name, a count, the share of a table's bits, a bar, and the range in words.
    fn row(&mut self, named: &Named, bar: &[char], range: Option<(Key, Key)>) {
        let Named { name, count, share } = named;
        let bar: String = bar.iter().collect();
        let words = range.map_or(String::new(), |(low, high)| range_words(low, high, self.whole));
        let rest = NAME.saturating_sub(name.chars().count());
        let line = format!("{name}{count:>rest$}{share:>SHARE$}  {bar}  {words}");
        self.lines.push(line.trim_end().into());
    }

    /// A bar without keys.
    fn bar(&self) -> [char; BAR] {
        [self.signs.rest; BAR]
    }

    /// Fills the columns that a range of keys touches.
    fn fill(&self, bar: &mut [char; BAR], low: Key, high: Key, sign: char) {
        let (start, end) = self.scale.range(low, high);
        let from = ((start * BAR as f64) as usize).min(BAR - 1);
        let until = ((end * BAR as f64).ceil() as usize).clamp(from + 1, BAR);
        bar[from..until].fill(sign);
    }

    /// A row whose bar is one range.
    fn simple(&mut self, named: &Named, sign: char, range: Option<(Key, Key)>) {
        let mut bar = self.bar();
        if let Some((low, high)) = range {
            self.fill(&mut bar, low, high, sign);
        }
        self.row(named, &bar, range);
    }

    fn memory(&mut self) {
        let range = extent(&self.view.memory);
        let named = Named::without_share("memory".into(), self.view.memory.len());
        self.simple(&named, self.signs.own, range);
    }

    fn level(&mut self, level: usize) {
        let view = self.view;
        let tables = &view.levels[level];
        let order = if level == 0 && tables.len() > 1 { ", oldest first" } else { "" };
        self.lines.push(format!("level {level}: {}{order}{}", fill(view, level), self.due(level)));
        for table in tables {
            self.simple(&Named::of(table), self.signs.own, extent(&table.entries));
            self.links(table);
        }
    }

    /// The places of tables of which a merge is due.
    fn due(&self, level: usize) -> String {
        let due = self.view.levels[level].iter().filter(|table| self.view.is_due(table));
        let places: Vec<String> = due.map(|table| table.place.to_string()).collect();
        let (named, others) = places.split_at(places.len().min(NAMED));
        let more = match others.len() {
            0 => String::new(),
            count => format!(" and {count} more"),
        };
        match named {
            [] => String::new(),
            [one] => format!("; merge due: place {one}"),
            several => format!("; merge due: places {}{more}", several.join(", ")),
        }
    }

    /// Below a table each link with its range, newest first, as they are read.
    fn links(&mut self, table: &Table) {
        for link in table.links.iter().rev() {
            let name = format!("  {} place {}", self.signs.arrow, link.place);
            let range = Some((link.low, link.high));
            self.simple(&Named::without_share(name, link.number), self.signs.link, range);
        }
    }

    /// The frozen tables whose slices hang on a level; what links still hold of them stands out.
    fn frozen(&mut self, level: usize) {
        let view = self.view;
        let tables = frozen_on(view, level);
        if tables.is_empty() {
            return;
        }
        let count = counted(tables.len(), "table", "tables");
        self.lines.push(format!("frozen, linked from level {level}: {count}"));
        for table in tables {
            let (mut bar, range) = (self.bar(), extent(&table.entries));
            if let Some((low, high)) = range {
                self.fill(&mut bar, low, high, self.signs.merged);
            }
            for link in view.levels[level].iter().flat_map(|on| &on.links) {
                if let (true, Some((low, high))) =
                    (link.place == table.place, extent(view.slice(link)))
                {
                    self.fill(&mut bar, low, high, self.signs.waits);
                }
            }
            self.row(&Named::of(table), &bar, range);
        }
    }

    /// What the bars mean, and all places with a sign each.
    fn map(&mut self) {
        let Signs { own, link, merged, .. } = self.signs;
        let slices = format!("{link} the slice of a link, {merged} merged already");
        self.lines.push(format!("entries: {own} a table's own keys, {slices}"));
        let links = counted(self.view.threshold as usize, "link", "links");
        let due = format!("a merge is due at {links}, or at m/m or more");
        self.lines.push(format!("n/m: m own entries, n in links; {due}"));
        let bits = Summary::BITS;
        self.lines.push(format!("n%: of the {bits} bits of a table's summary, so many are set"));
        self.lines.push("places: . free, 0 to 3 live on that level, f frozen".into());
        let sign = |state: &State| match state {
            State::Free => '.',
            State::Live(level) => char::from(b'0' + *level as u8),
            State::Frozen => 'f',
        };
        for (row, states) in states(self.view).chunks(MAP).enumerate() {
            let signs: String = states.iter().map(sign).collect();
            self.lines.push(format!("{:>6}  {signs}", row * MAP));
        }
    }
}
