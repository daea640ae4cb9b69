//! run: prints what the survey store costs, beside other stores on the same keys. See `--help`.

use bench::cases::{Case, CaseTimes, CASES};
use bench::checks::{self, check_times, CheckTimes};
use bench::compare::Expected;
use bench::engine::{LOOK_UPS, SCANS};
use bench::engines::{Kind, Versions, KINDS, SECOND};
use bench::kept::kept_times;
use bench::lists::Listed;
use bench::options::{Options, HELP};
use bench::places::{Steps, Watched, Written};
use bench::proved::Proved;
use bench::report::{self, grouped};
use bench::rounds::{Measure, Plan};
use bench::setup::Setup;
use bench::thresholds::{count, KEYS_A_PLACE};
use bench::upper::Upper;
use bench::workload::{Lengths, Workload};
use std::process::ExitCode;
use std::time::{Duration, Instant};

/// Checks of one size, for each round: even, as those of two stores change places.
const CHECKS: usize = 8;

/// How often long work says how far it is.
const TOLD_EVERY: Duration = Duration::from_secs(5);

fn say(words: &str) {
    eprintln!("bench: {words}");
}

/// The stores that are wanted and there, behind those that are opened; a word on each that is missing.
fn present<'a>(options: &Options, opened: &'a [Kind]) -> Vec<&'a Kind> {
    let wanted = |kind: &&Kind| {
        options.only.iter().any(|word| word == kind.word)
            && opened.iter().all(|other| other.word != kind.word)
    };
    let there = |kind: &&Kind| {
        let there = (kind.open)(Setup::of(16)).is_some();
        if let (false, Some(package)) = (there, kind.package) {
            say(&format!("{} is skipped: the package {package} is not installed", kind.title));
        }
        there
    };
    opened.iter().chain(KINDS.iter().filter(wanted).filter(there)).collect()
}

/// The rounds of one case.
fn times_of<'a>(
    options: &Options,
    case: Case,
    kinds: &'a [&'a Kind],
    measures: &[Measure],
) -> Result<CaseTimes<'a>, String> {
    let name = report::title(&case);
    let workload = case.workload(options.seed);
    let plan = Plan {
        setup: case.setup,
        workload: &workload,
        kinds,
        measures,
        rounds: options.rounds * case.rounds,
        repeats: options.repeats,
        plain: options.plain,
    };
    let mut told: Option<Instant> = None;
    let times = plan.run(&mut |words| {
        if told.is_none_or(|told| told.elapsed() > TOLD_EVERY) {
            told = Some(Instant::now());
            say(&format!("{name}: {words}"));
        }
    })?;
    Ok(CaseTimes { case, kinds, times })
}

/// The main tables, with values of such lengths.
fn times<'a>(
    options: &Options,
    kinds: &'a [&'a Kind],
    lengths: Lengths,
    measures: &[Measure],
) -> Result<Vec<CaseTimes<'a>>, String> {
    let mut all = Vec::new();
    for (places, keys) in &options.sizes {
        let times = times_of(options, Case::main(*places, *keys, lengths), kinds, measures)?;
        println!("{}", times.table(measures));
        all.push(times);
    }
    Ok(all)
}

fn largest(options: &Options) -> usize {
    options.sizes.iter().map(|size| size.0).max().unwrap_or(0)
}

fn check(options: &Options, versions: Option<Versions>) -> Vec<CheckTimes> {
    let second = options.only.iter().any(|word| word == SECOND);
    let sizes = checks::SIZES.into_iter().filter(|places| *places <= largest(options));
    let times = sizes.map(|places| {
        say(&format!("checks of {} places", grouped(places)));
        check_times(options.seed, places, options.rounds * CHECKS, versions, second)
    });
    let times = times.collect::<Vec<_>>();
    println!("{}", report::checks(&times));
    times
}

/// Of the opened stores where there are some, else of the one that is linked.
fn cases(options: &Options, opened: &[Kind]) -> Result<(), String> {
    let linked = &KINDS[..1];
    let kinds: Vec<&Kind> = if opened.is_empty() { linked } else { opened }.iter().collect();
    let sized = CASES.into_iter().filter(|case| case.setup.places <= largest(options));
    let times = sized.map(|case| times_of(options, case, &kinds, &Measure::ALL));
    println!("{}", report::cases(&times.collect::<Result<Vec<_>, _>>()?));
    Ok(())
}

/// Keeping full stores of each size.
fn kept(options: &Options) {
    let sqlite = options.only.iter().any(|word| word == "sqlite");
    for (places, _) in &options.sizes {
        say(&format!("keeping {} places", grouped(*places)));
        let times = kept_times(options.seed, *places, options.rounds * CHECKS, sqlite);
        println!("{}", report::kept(&times));
    }
}

/// Leads one store through all puts and compares its answers.
fn lead(store: &mut dyn Steps, workload: &Workload) -> Result<Written, String> {
    let name = store.name();
    let total = workload.puts.len();
    let mut told = Instant::now();
    let mut watched = Watched::new(store);
    watched.lead(&workload.puts, &mut |done| {
        if told.elapsed() > TOLD_EVERY {
            told = Instant::now();
            say(&format!("places written, {name}: {} of {} puts", grouped(done), grouped(total)));
        }
    });
    let written = watched.written;
    Expected::of(workload).compare(workload, store)?;
    Ok(written)
}

fn written(options: &Options) -> Result<(), String> {
    let mut all = Vec::new();
    for (places, keys) in &options.sizes {
        let uniform = Workload::uniform(options.seed, *keys, LOOK_UPS, SCANS);
        let skewed = Workload::skewed(options.seed, *keys, LOOK_UPS, SCANS);
        for (name, workload) in [("uniform", uniform), ("skewed", skewed)] {
            let mut stores: [(&str, Box<dyn Steps>); 2] = [
                ("lower-level driven: proved store", Box::new(Listed::new(Proved, *places))),
                ("upper-level driven", Box::new(Upper::new(*places))),
            ];
            for (title, store) in &mut stores {
                let written = lead(&mut **store, &workload)?;
                let keys = format!("{name}, P = {}", grouped(*places));
                all.push((keys, title.to_string(), written));
            }
        }
    }
    println!("{}", report::written(&all));
    Ok(())
}

/// The same keys for each threshold.
fn by_threshold(options: &Options) -> Result<(), String> {
    let mut all = Vec::new();
    for (places, _) in &options.sizes {
        let keys = KEYS_A_PLACE * places;
        let uniform = Workload::uniform(options.seed, keys, LOOK_UPS, SCANS);
        let skewed = Workload::skewed(options.seed, keys, LOOK_UPS, SCANS);
        for (name, workload) in [("uniform", uniform), ("skewed", skewed)] {
            let keys = format!("{name}, P = {}, {} keys", grouped(*places), grouped(keys));
            say(&format!("by threshold: {keys}"));
            let mut row = Vec::new();
            for threshold in &options.thresholds {
                let mut store = Listed::with_threshold(Proved, *places, *threshold);
                row.push(count(&mut store, &workload.puts));
                Expected::of(&workload).compare(&workload, &mut store)?;
            }
            all.push((keys, row));
        }
    }
    println!("{}", report::by_threshold(&options.thresholds, &all));
    Ok(())
}

/// Times beside the other stores, and checks; then what they say of the aims.
fn compare(options: &Options, versions: Option<Versions>, opened: &[Kind]) -> Result<(), String> {
    let timed = !options.measures.is_empty() || options.mixed;
    let kinds = if timed { present(options, opened) } else { Vec::new() };
    let mut sizes = Vec::new();
    if !options.measures.is_empty() {
        sizes = times(options, &kinds, Lengths::Longest, &options.measures)?;
        report::aims(&sizes).iter().for_each(|table| println!("{table}"));
    }
    if options.mixed {
        // The second implementation would take longer than all others together, and says nothing new here.
        let kinds: Vec<&Kind> = kinds.iter().copied().filter(|it| it.word != SECOND).collect();
        times(options, &kinds, Lengths::Mixed, &Measure::ALL)?;
    }
    let checks = if options.check { check(options, versions) } else { Vec::new() };
    let places: Vec<usize> = options.sizes.iter().map(|size| size.0).collect();
    let against = report::against_before(&places, &sizes, &checks);
    against.iter().for_each(|table| println!("{table}"));
    Ok(())
}

fn run(options: &Options, versions: Option<Versions>) -> Result<(), String> {
    let opened: Vec<Kind> = versions.into_iter().flat_map(Versions::kinds).collect();
    println!("{}", report::about(options.seed, options.rounds));
    compare(options, versions, &opened)?;
    if options.cases {
        cases(options, &opened)?;
    }
    if options.kept {
        kept(options);
    }
    if options.written {
        written(options)?;
    }
    if options.by_threshold {
        by_threshold(options)?;
    }
    Ok(())
}

/// The libraries that are to be opened, if any.
fn versions(options: &Options) -> Result<Option<Versions>, String> {
    match (&options.now, &options.before) {
        (Some(now), Some(before)) => Versions::open(now, before).map(Some),
        (None, None) => Ok(None),
        _ => Err("bench/run makes two shared objects, and --now names the other".to_string()),
    }
}

/// Ends with a word, status 2 where the run could not begin.
fn ended(words: &str, status: u8) -> ExitCode {
    say(words);
    ExitCode::from(status)
}

fn main() -> ExitCode {
    let words: Vec<String> = std::env::args().skip(1).collect();
    let options = match Options::of(&words) {
        Ok(options) => options,
        Err(words) => return ended(&words, 2),
    };
    if options.help {
        print!("{HELP}");
        return ExitCode::SUCCESS;
    }
    let versions = match versions(&options) {
        Ok(versions) => versions,
        Err(words) => return ended(&format!("--before: {words}"), 2),
    };
    match run(&options, versions) {
        Ok(()) => ExitCode::SUCCESS,
        Err(words) => ended(&words, 1),
    }
}
