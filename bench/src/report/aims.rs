//! The aims, met or not: beside other stores, and against an earlier proved store.

use super::{figures, grouped, head, line};
use crate::cases::CaseTimes;
use crate::checks::CheckTimes;
use crate::engines::{BEFORE, KINDS, PROVED};
use crate::rounds::Measure;

/// An aim beside another store: the other store's time is at least so many times that of the proved store.
struct Aim {
    measure: Measure,
    other: &'static str,
    least: f64,
}

const AIMS: [Aim; 8] = {
    use Measure::*;
    [
        Aim { measure: Put, other: "lmdb", least: 1.0 },
        Aim { measure: Hit, other: "lmdb", least: 1.0 },
        Aim { measure: Miss, other: "lmdb", least: 1.0 },
        Aim { measure: Scan, other: "lmdb", least: 1.0 / 1.5 },
        Aim { measure: Put, other: "leveldb", least: 2.0 },
        Aim { measure: Hit, other: "leveldb", least: 2.0 },
        Aim { measure: Miss, other: "leveldb", least: 2.0 },
        Aim { measure: Scan, other: "leveldb", least: 2.0 },
    ]
};

/// Aims against the earlier store: a request's time is at most so many times that one's, and so is a check of so many full places.
const AGAINST: [(Measure, f64); 4] = {
    use Measure::*;
    [(Put, 0.5), (Hit, 0.8), (Miss, 0.8), (Scan, 0.3)]
};
const CHECKED: (usize, f64) = (4096, 0.5);

fn verdict(ratio: f64, met: bool) -> String {
    format!("{} {}", figures(ratio), if met { "yes" } else { "no" })
}

/// One time over another, and what it comes to.
fn judged(time: Option<f64>, other: Option<f64>, met: impl Fn(f64) -> bool) -> String {
    let ratio = time.zip(other).map(|(time, other)| time / other);
    ratio.map_or("".to_string(), |ratio| verdict(ratio, met(ratio)))
}

/// A line, where anything was measured for it.
fn row(title: String, bound: f64, cells: Vec<String>) -> Option<String> {
    let any = cells.iter().any(|cell| !cell.is_empty());
    any.then(|| line(&[vec![title, format!("{bound:.2}")], cells].concat()))
}

/// A table of such lines; none where there is no line.
fn table(
    what: &str,
    bound: &str,
    columns: Vec<String>,
    rows: Vec<Option<String>>,
) -> Option<String> {
    let rows: Vec<String> = rows.into_iter().flatten().collect();
    let first = vec![what.to_string(), bound.to_string()];
    (!rows.is_empty()).then(|| head(&[first, columns].concat()) + &rows.concat())
}

/// Beside other stores: with the check in every list and without it.
pub fn aims(sizes: &[CaseTimes]) -> Option<String> {
    let columns = sizes.iter().flat_map(|times| {
        let places = grouped(times.case.setup.places);
        [format!("P = {places}"), format!("P = {places}, without the check")]
    });
    let rows = AIMS.iter().map(|aim| {
        let cells = sizes.iter().flat_map(|times| {
            let other = times.whole(aim.other, aim.measure);
            let proved = [times.whole(PROVED, aim.measure), times.own(PROVED, aim.measure)];
            proved.map(|proved| judged(other, proved, |ratio| ratio >= aim.least))
        });
        let other = KINDS.iter().find(|kind| kind.word == aim.other).map_or("", |kind| kind.title);
        row(format!("{}: {other}", aim.measure.title()), aim.least, cells.collect())
    });
    table("other store's time / proved store's", "at least", columns.collect(), rows.collect())
}

/// Against the earlier store, at each size that was asked for.
pub fn against_before(
    places: &[usize],
    sizes: &[CaseTimes],
    checks: &[CheckTimes],
) -> Option<String> {
    let mut rows: Vec<Option<String>> = Vec::new();
    for (measure, most) in AGAINST {
        let time = |places: &usize, word: &str| {
            sizes.iter().find(|it| it.case.setup.places == *places)?.whole(word, measure)
        };
        let cell =
            |places| judged(time(places, PROVED), time(places, BEFORE), |ratio| ratio <= most);
        rows.push(row(measure.title().to_string(), most, places.iter().map(cell).collect()));
    }
    let (checked, most) = CHECKED;
    let check = |places: &usize| {
        let times = checks.iter().find(|it| it.places == checked && it.places == *places);
        judged(times.map(|it| it.proved), times.and_then(|it| it.before), |ratio| ratio <= most)
    };
    let title = format!("check of {} full places", grouped(checked));
    rows.push(row(title, most, places.iter().map(check).collect()));
    let columns = places.iter().map(|places| format!("P = {}", grouped(*places)));
    table("proved store's time / earlier one's", "at most", columns.collect(), rows)
}
