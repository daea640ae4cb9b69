//! The tables of times, each with its ratio to the proved store's: one store with all that it is compared with, and the cases.

use super::{beside, grouped, head, line};
use crate::cases::{Case, CaseTimes, LEFT};
use crate::engines::PROVED;
use crate::rounds::{Measure, Times};
use crate::setup::Setup;
use crate::workload::Lengths;
use reference::limits::VALUE_BYTES;

/// What a case is called.
pub fn title(case: &Case) -> String {
    let Setup { places, threshold, tidies } = case.setup;
    let (keys, puts) = (grouped(case.keys), grouped(case.keys + case.keys / 2));
    let mut title = format!("P = {}, T = {threshold}, {keys} keys, {puts} puts", grouped(places));
    if case.lengths == Lengths::Mixed {
        title += &format!(", values of 0 to {VALUE_BYTES} bytes");
    }
    if tidies.is_none() {
        title += &format!(", {LEFT} tables on level 0");
    }
    title
}

impl CaseTimes<'_> {
    fn times(&self, word: &str) -> Option<&Times> {
        let store = self.kinds.iter().position(|kind| kind.word == word)?;
        Some(&self.times[store])
    }

    pub fn whole(&self, word: &str, measure: Measure) -> Option<f64> {
        self.times(word)?.whole(measure)
    }

    /// Without the check.
    pub fn own(&self, word: &str, measure: Measure) -> Option<f64> {
        self.times(word)?.own(measure)
    }

    /// The times of a store; of all but the proved one with their ratios.
    fn cells(&self, word: &str, measures: &[Measure]) -> Vec<String> {
        let proved = |measure| self.whole(PROVED, measure).filter(|_| word != PROVED);
        let cell = |measure: &Measure| beside(self.whole(word, *measure), proved(*measure));
        measures.iter().map(cell).collect()
    }

    /// A store to a line.
    pub fn table(&self, measures: &[Measure]) -> String {
        let titles = measures.iter().map(|measure| measure.title().to_string());
        let mut text = head(&[title(&self.case)].into_iter().chain(titles).collect::<Vec<_>>());
        let mut row =
            |title: String, cells: Vec<String>| text += &line(&[vec![title], cells].concat());
        for kind in self.kinds {
            row(kind.title.to_string(), self.cells(kind.word, measures));
            if kind.word == PROVED {
                let own = |measure: &Measure| {
                    beside(self.own(PROVED, *measure), self.whole(PROVED, *measure))
                };
                let cells = measures.iter().map(own).collect();
                row(format!("{}, without the check", kind.title), cells);
            }
        }
        text
    }
}

/// All cases in one table, a store to a line.
pub fn cases(all: &[CaseTimes]) -> String {
    let titles = Measure::ALL.iter().map(|measure| measure.title().to_string());
    let first = ["case".to_string(), "store".to_string()];
    let mut text = head(&first.into_iter().chain(titles).collect::<Vec<_>>());
    for times in all {
        for kind in times.kinds {
            let first = vec![title(&times.case), kind.title.to_string()];
            text += &line(&[first, times.cells(kind.word, &Measure::ALL)].concat());
        }
    }
    text
}
