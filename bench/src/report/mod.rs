//! The tables, in Markdown: times with ratios and the aims; here checks, stores kept, places written, and thresholds side by side.

mod aims;
mod times;

pub use aims::{against_before, aims};
pub use times::{cases, title};

use crate::checks::CheckTimes;
use crate::kept::KeptTimes;
use crate::places::Written;

/// A time in three figures.
pub fn figures(time: f64) -> String {
    match time {
        _ if time >= 99.95 => format!("{time:.0}"),
        _ if time >= 9.995 => format!("{time:.1}"),
        _ if time >= 0.9995 => format!("{time:.2}"),
        _ => format!("{time:.3}"),
    }
}

/// A time, and in brackets how many times the other it is.
fn beside(time: Option<f64>, other: Option<f64>) -> String {
    match (time, other) {
        (Some(time), Some(other)) => format!("{} ({})", figures(time), figures(time / other)),
        (Some(time), None) => figures(time),
        (None, _) => "".to_string(),
    }
}

/// A number with commas between the thousands.
pub fn grouped(number: usize) -> String {
    let digits = number.to_string();
    let mut words = String::new();
    for (at, digit) in digits.chars().enumerate() {
        if at > 0 && (digits.len() - at).is_multiple_of(3) {
            words.push(',');
        }
        words.push(digit);
    }
    words
}

/// A line of a table.
fn line(cells: &[String]) -> String {
    format!("| {} |\n", cells.join(" | "))
}

fn head(cells: &[String]) -> String {
    format!("{}|{}\n", line(cells), "---|".repeat(cells.len()))
}

/// What a check costs, each other one with its ratio to the proved store's; a column for the earlier store where there is one.
pub fn checks(all: &[CheckTimes]) -> String {
    let with_before = all.iter().any(|times| times.before.is_some());
    let mut titles = vec!["full places", "tables", "links", "proved (us)", "for each place (ns)"];
    titles.extend(with_before.then_some("proved before (us)"));
    titles.push("second implementation (us)");
    let mut text = head(&titles.into_iter().map(str::to_string).collect::<Vec<_>>());
    for times in all {
        let mut cells = vec![
            grouped(times.places),
            grouped(times.tables as usize),
            grouped(times.links as usize),
            figures(times.proved),
            figures(times.proved * 1000.0 / times.places as f64),
        ];
        cells.extend(with_before.then(|| beside(times.before, Some(times.proved))));
        cells.push(beside(times.second, Some(times.proved)));
        text += &line(&cells);
    }
    text
}

/// What it costs to keep a store, each way with its ratio to the first.
pub fn kept(times: &KeptTimes) -> String {
    let first = format!("{} full places kept", grouped(times.places));
    let mut text = head(&[first, "bytes".into(), "save (us)".into(), "open (us)".into()]);
    let Some(least) = times.ways.first() else { return text };
    for (number, way) in times.ways.iter().enumerate() {
        let cell = |time: f64, one: f64| beside(Some(time), Some(one).filter(|_| number > 0));
        text += &line(&[
            way.title.to_string(),
            grouped(way.bytes),
            cell(way.save, least.save),
            cell(way.open, least.open),
        ]);
    }
    text
}

fn each(count: usize, of: usize) -> f64 {
    count as f64 / of as f64
}

/// What compaction writes: keys, compaction, and what was counted.
pub fn written(all: &[(String, String, Written)]) -> String {
    let titles = "keys|compaction|places written for each put|for each flushed table|most by one step|steps for each flush";
    let titles: Vec<String> = titles.split('|').map(str::to_string).collect();
    let mut text = head(&titles);
    for (keys, compaction, written) in all {
        text += &line(&[
            keys.clone(),
            compaction.clone(),
            format!("{:.3}", each(written.places, written.puts)),
            format!("{:.2}", each(written.places, written.flushes)),
            written.most.to_string(),
            format!("{:.2}", each(written.tidies, written.flushes)),
        ]);
    }
    text
}

/// Thresholds side by side: for each of the keys what was counted with each threshold.
pub fn by_threshold(thresholds: &[u64], all: &[(String, Vec<Written>)]) -> String {
    type Cell = fn(&Written) -> String;
    let columns: [(&str, Cell); 3] = [
        ("places written for each put", |it| format!("{:.3}", each(it.places, it.puts))),
        ("most by one step", |it| it.most.to_string()),
        ("steps for each flush", |it| format!("{:.2}", each(it.tidies, it.flushes))),
    ];
    let mut titles = vec!["keys, lower-level driven: proved store".to_string()];
    for (what, _) in columns {
        titles.extend(thresholds.iter().map(|threshold| format!("{what}, T = {threshold}")));
    }
    let mut text = head(&titles);
    for (keys, row) in all {
        let cells = columns.iter().flat_map(|(_, cell)| row.iter().map(cell));
        text += &line(&[keys.clone()].into_iter().chain(cells).collect::<Vec<_>>());
    }
    text
}

/// One line about the run, so that it can be done again.
pub fn about(seed: u64, rounds: usize) -> String {
    format!(
        "Seed {seed}, medians of {rounds} rounds. Microseconds of processor time for each request; in \
         brackets the ratio: so many times as long as the proved store takes, so above 1 the proved \
         store is faster.\n"
    )
}
