//! The rounds: in each, every store is made anew and takes all measures, one measure of all stores before the next.

use crate::clock::timed;
use crate::compare::{Expected, Sum};
use crate::engine::{Engine, LOOK_UPS, PUTS, SCANS};
use crate::engines::Kind;
use crate::setup::Setup;
use crate::workload::Workload;

#[derive(Clone, Copy, PartialEq, Eq, Debug)]
pub enum Measure {
    Put,
    Hit,
    Miss,
    Scan,
}

impl Measure {
    pub const ALL: [Measure; 4] = [Measure::Put, Measure::Hit, Measure::Miss, Measure::Scan];

    pub fn word(self) -> &'static str {
        ["put", "hit", "miss", "scan"][self as usize]
    }

    pub fn title(self) -> &'static str {
        ["put", "look-up, hit", "look-up, miss", "scan of 16"][self as usize]
    }
}

/// The times of a store: for each measure a list for each batch, with a time from each round, in microseconds.
#[derive(Clone, Default)]
pub struct Times {
    batches: [Vec<Batch>; 4],
    requests: [usize; 4],
}

#[derive(Clone, Default)]
struct Batch {
    whole: Vec<f64>,
    /// Of a batch of nothing right behind it, where the store has such a cost.
    fixed: Vec<f64>,
}

/// The middle of some times; none of none.
pub fn median(times: &[f64]) -> Option<f64> {
    let mut sorted = times.to_vec();
    sorted.sort_by(f64::total_cmp);
    let middle = sorted.len() / 2;
    match sorted.len() {
        0 => None,
        length if length % 2 == 1 => Some(sorted[middle]),
        _ => Some((sorted[middle - 1] + sorted[middle]) / 2.0),
    }
}

impl Times {
    /// For each request: the medians of all batches together, so that what disturbs one batch in one round is left out.
    pub fn whole(&self, measure: Measure) -> Option<f64> {
        let medians = self.batches[measure as usize].iter().map(|batch| median(&batch.whole));
        self.each(measure, medians.sum())
    }

    /// The same without the batches' fixed cost.
    pub fn own(&self, measure: Measure) -> Option<f64> {
        let batches = self.batches[measure as usize].iter();
        let fixed =
            batches.filter_map(|batch| median(&batch.fixed)).reduce(|one, other| one + other);
        Some(self.whole(measure)? - self.each(measure, fixed)?)
    }

    fn each(&self, measure: Measure, sum: Option<f64>) -> Option<f64> {
        let requests = self.requests[measure as usize];
        sum.filter(|_| requests > 0).map(|sum| sum / requests as f64)
    }

    /// Adds a round.
    fn add(&mut self, measure: Measure, taken: Taken) {
        let batches = &mut self.batches[measure as usize];
        batches.resize(taken.batches.len(), Batch::default());
        for (batch, (whole, fixed)) in batches.iter_mut().zip(taken.batches) {
            batch.whole.push(whole);
            batch.fixed.extend(fixed);
        }
        self.requests[measure as usize] = taken.requests;
    }
}

pub struct Plan<'a> {
    pub setup: Setup,
    pub workload: &'a Workload,
    pub kinds: &'a [&'a Kind],
    pub measures: &'a [Measure],
    pub rounds: usize,
    /// How often the look-ups and scans of a round are done.
    pub repeats: usize,
    /// No comparison of whole answers and no batches of nothing: for a profile.
    pub plain: bool,
}

/// One round of a measure: the number of requests, and for each batch its time and that of a batch of nothing.
#[derive(Default)]
struct Taken {
    batches: Vec<(f64, Option<f64>)>,
    requests: usize,
}

impl Taken {
    fn take(&mut self, engine: &mut dyn Engine, plan: &Plan, action: impl FnOnce(&mut dyn Engine)) {
        let whole = timed(|| action(engine));
        let mut has_cost = false;
        let nothing = timed(|| has_cost = !plan.plain && engine.nothing());
        self.batches.push((whole, has_cost.then_some(nothing)));
    }
}

/// All puts, and what is left to be done behind them.
fn take_puts(engine: &mut dyn Engine, plan: &Plan) -> Taken {
    let mut taken = Taken { requests: plan.workload.puts.len(), ..Taken::default() };
    for batch in plan.workload.puts.chunks(PUTS) {
        taken.take(engine, plan, |engine| engine.put(batch));
    }
    taken.take(engine, plan, |engine| engine.settle());
    taken
}

/// Look-ups or scans in batches, the first batch once before the clock runs; and the sum of the answers.
fn take_reads(engine: &mut dyn Engine, plan: &Plan, measure: Measure) -> (Taken, Sum) {
    let (requests, size) = match measure {
        Measure::Hit => (&plan.workload.hits, LOOK_UPS),
        Measure::Miss => (&plan.workload.misses, LOOK_UPS),
        _ => (&plan.workload.scans, SCANS),
    };
    let read = |engine: &mut dyn Engine, batch: &[u64], sum: &mut Sum| match measure {
        Measure::Scan => {
            engine.scan(batch, &mut |number, key, value| sum.entry(number, key, value))
        }
        _ => engine.look_up(batch, &mut |value| sum.value(value)),
    };
    read(engine, &requests[..size.min(requests.len())], &mut Sum::default());
    let mut taken = Taken::default();
    let mut sum = Sum::default();
    for repeat in 0..plan.repeats {
        for batch in requests.chunks(size) {
            let mut other = Sum::default();
            let sum = if repeat == 0 { &mut sum } else { &mut other };
            taken.take(engine, plan, |engine| read(engine, batch, sum));
        }
        taken.requests += requests.len();
    }
    (taken, sum)
}

impl Plan<'_> {
    /// The times of each store. Ends with words where a store's answers are not those of the puts.
    pub fn run(&self, progress: &mut dyn FnMut(&str)) -> Result<Vec<Times>, String> {
        let expected = Expected::of(self.workload);
        let mut times = vec![Times::default(); self.kinds.len()];
        for round in 0..self.rounds {
            progress(&format!("round {} of {}", round + 1, self.rounds));
            let stores = self.kinds.len();
            // Another store is opened first and begins in each round.
            let order = (0..stores).map(|number| (number + round) % stores);
            let open = |store: usize| {
                let engine = (self.kinds[store].open)(self.setup);
                (store, engine.expect("it was there before"))
            };
            let mut engines: Vec<(usize, Box<dyn Engine>)> = order.map(open).collect();
            for measure in Measure::ALL {
                for (store, engine) in &mut engines {
                    if let Some(taken) = self.measure(&expected, &mut **engine, measure)? {
                        times[*store].add(measure, taken);
                    }
                }
            }
            if !self.plain && (round == 0 || round + 1 == self.rounds) {
                for (_, engine) in &mut engines {
                    expected.compare(self.workload, &mut **engine)?;
                }
            }
        }
        Ok(times)
    }

    /// One measure of one store; none if it is not wanted. The puts are always done.
    fn measure(
        &self,
        expected: &Expected,
        engine: &mut dyn Engine,
        measure: Measure,
    ) -> Result<Option<Taken>, String> {
        let wanted = self.measures.contains(&measure);
        if measure == Measure::Put {
            let taken = take_puts(engine, self);
            return Ok(wanted.then_some(taken));
        }
        if !wanted {
            return Ok(None);
        }
        let (taken, sum) = take_reads(engine, self, measure);
        expected.compare_sum(engine.name(), measure, sum)?;
        Ok(Some(taken))
    }
}

impl Expected {
    fn compare_sum(&self, name: &str, measure: Measure, sum: Sum) -> Result<(), String> {
        let wanted = match measure {
            Measure::Hit => self.hits,
            Measure::Miss => self.misses,
            _ => self.scans,
        };
        if sum != wanted {
            return Err(format!(
                "{name}: answers of '{}' differ from what was put",
                measure.title()
            ));
        }
        Ok(())
    }
}
