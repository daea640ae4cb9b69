//! The words of the command line.

use crate::engines::KINDS;
use crate::rounds::Measure;

pub const HELP: &str = "\
run: what the survey store costs, beside other stores on the same keys, as Markdown tables

usage: bench/run [OPTIONS]

  --quick           the small store alone and few rounds: a look, no measurement
  --seed N          other keys, values and orders (1)
  --rounds N        rounds of each measure, medians are told (7)
  --places P        one size of store alone: 4096 or 256
  --only STORES     of zilgwern, second, btreemap, lmdb, leveldb, sqlite; with commas between
  --before FILE.a   of bench/run: an earlier static library takes part in the same rounds, with a table of the aims against it;
                    it may be from before cards had summaries, but not from before links had numbers
  --measure NAMES   of put, hit, miss, scan, mixed, check, cases, kept, written, threshold; with commas between
  --thresholds LIST of the table 'threshold': numbers from 1 to 8, with commas between (1,4,8)
  --repeat N        look-ups and scans of a round so many times (1)
  --plain           compare no answers and time no empty runs: for a profile of one store
  --no-install      of bench/run: install no packages
  -h, --help        this text

The tables go to standard output, progress to standard error. LMDB, LevelDB and SQLite come from the Debian packages liblmdb0,
libleveldb1d and libsqlite3-0; bench/run installs them where it may, and a store that is not there is left out with a word. All
answers are compared with what was put: the status is 1 where one differs.

'mixed' has put, hit, miss and scan once more with values of all lengths; elsewhere they are as long as they may be. The second
implementation is left out there. 'cases' has the four for stores beside those of the main tables: a small one, other thresholds,
values of all lengths, a level 0 that nobody tidies; of the proved store alone, and of the earlier one where it is given.

'kept' has what it costs to keep a full store between jobs: to save its book and to open it again, beside the second implementation,
the five pieces of memory copied as they lie, and SQLite's bytes of the same entries. Each way checks what it reads.

Times are those of stores with threshold 4, but for two of the cases. The last two tables count and time nothing, so they are the
same on every machine: 'written' has the places that compaction writes, beside upper-level driven compaction, with as many keys as
fit with threshold 4; 'threshold' has the thresholds side by side on the same keys, fewer than above so that they fit with threshold
1 too: places written for each put (what compaction costs in all), the most by one step (how long a single tidy may take), and the
steps that a flush needs (tidies to ask for behind it). A higher threshold writes less and leaves more links for look-ups and scans
to pass.
";

/// Sizes of stores, and how many keys fit when half of them are overwritten.
pub const SIZES: [(usize, usize); 2] = [(4096, 25_000), (256, 1_500)];

#[derive(Clone, PartialEq, Eq, Debug)]
pub struct Options {
    pub help: bool,
    pub quick: bool,
    pub plain: bool,
    pub seed: u64,
    pub rounds: usize,
    pub repeats: usize,
    pub sizes: Vec<(usize, usize)>,
    /// Words of stores.
    pub only: Vec<String>,
    /// Shared objects of today's library and of an earlier one; bench/run makes both of them.
    pub now: Option<String>,
    pub before: Option<String>,
    pub measures: Vec<Measure>,
    pub mixed: bool,
    pub check: bool,
    pub cases: bool,
    pub kept: bool,
    pub written: bool,
    pub by_threshold: bool,
    pub thresholds: Vec<u64>,
}

impl Options {
    pub fn of(words: &[String]) -> Result<Options, String> {
        let mut options = Options {
            help: false,
            quick: false,
            plain: false,
            seed: 1,
            rounds: 0,
            repeats: 1,
            sizes: Vec::new(),
            only: KINDS.iter().map(|kind| kind.word.to_string()).collect(),
            now: None,
            before: None,
            measures: Measure::ALL.to_vec(),
            mixed: true,
            check: true,
            cases: true,
            kept: true,
            written: true,
            by_threshold: true,
            thresholds: vec![1, 4, 8],
        };
        let mut words = words.iter();
        while let Some(word) = words.next() {
            let (name, joined) = match word.split_once('=') {
                Some((name, value)) => (name, Some(value.to_string())),
                None => (word.as_str(), None),
            };
            let mut value = || {
                let value = joined.clone().or_else(|| words.next().cloned());
                value.ok_or_else(|| format!("{name}: a word is missing behind it"))
            };
            options.take(name, &mut value)?;
        }
        options.fill();
        Ok(options)
    }

    fn take(
        &mut self,
        name: &str,
        value: &mut dyn FnMut() -> Result<String, String>,
    ) -> Result<(), String> {
        match name {
            "-h" | "--help" => self.help = true,
            "--quick" => self.quick = true,
            "--plain" => self.plain = true,
            "--no-install" => {}
            "--seed" => self.seed = number(name, &value()?)? as u64,
            "--rounds" => self.rounds = number(name, &value()?)?.max(1),
            "--repeat" => self.repeats = number(name, &value()?)?.max(1),
            "--places" => {
                let places = number(name, &value()?)?;
                let known = SIZES.into_iter().filter(|size| size.0 == places);
                self.sizes = known.collect();
                if self.sizes.is_empty() {
                    return Err(format!("--places: {places} is neither 4096 nor 256"));
                }
            }
            "--only" => self.only = stores(&value()?)?,
            "--now" => self.now = Some(value()?),
            "--before" => self.before = Some(value()?),
            "--measure" => self.take_measures(&value()?)?,
            "--thresholds" => self.thresholds = thresholds(name, &value()?)?,
            _ => return Err(format!("{name}: no such option; see `bench/run --help`")),
        }
        Ok(())
    }

    fn take_measures(&mut self, words: &str) -> Result<(), String> {
        (self.mixed, self.check, self.cases) = (false, false, false);
        (self.kept, self.written, self.by_threshold) = (false, false, false);
        self.measures.clear();
        for word in words.split(',') {
            let measure = Measure::ALL.into_iter().find(|measure| measure.word() == word);
            match (word, measure) {
                (_, Some(measure)) => self.measures.push(measure),
                ("mixed", _) => self.mixed = true,
                ("check", _) => self.check = true,
                ("cases", _) => self.cases = true,
                ("kept", _) => self.kept = true,
                ("written", _) => self.written = true,
                ("threshold", _) => self.by_threshold = true,
                _ => return Err(format!("--measure: {word}: no such measure")),
            }
        }
        Ok(())
    }

    /// What was not said.
    fn fill(&mut self) {
        if self.rounds == 0 {
            self.rounds = if self.quick { 3 } else { 7 };
        }
        if self.sizes.is_empty() {
            let quick: Vec<_> = SIZES.into_iter().filter(|size| size.0 == 256).collect();
            self.sizes = if self.quick { quick } else { SIZES.to_vec() };
        }
    }
}

fn number(name: &str, word: &str) -> Result<usize, String> {
    word.parse().map_err(|_| format!("{name}: {word} is not a whole number"))
}

fn thresholds(name: &str, words: &str) -> Result<Vec<u64>, String> {
    let known = |word: &str| match number(name, word)? as u64 {
        threshold @ 1..=8 => Ok(threshold),
        other => Err(format!("{name}: {other} is not 1 to 8")),
    };
    words.split(',').map(known).collect()
}

fn stores(words: &str) -> Result<Vec<String>, String> {
    let known = |word: &str| KINDS.iter().any(|kind| kind.word == word);
    let unknown = words.split(',').find(|word| !known(word));
    match unknown {
        Some(word) => Err(format!("--only: {word}: no such store")),
        None => Ok(words.split(',').map(str::to_string).collect()),
    }
}
