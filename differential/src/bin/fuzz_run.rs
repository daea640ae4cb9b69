//! fuzz_run: one run from arbitrary bytes, the proved store beside the second implementation; aborts on any difference.

use differential::fuzz::{input_of, try_input};
use std::collections::BTreeMap;
use std::io::{Read, Write};
use std::path::Path;
use std::process::{abort, ExitCode};

const HELP: &str = "\
Usage: fuzz_run                       works through one input from standard input; aborts on a difference
       fuzz_run --loop N [SEED]       works through the inputs of N seeds, from SEED (else 1) on
       fuzz_run --input SEED          writes the input of a seed to standard output
       fuzz_run --corpus DIRECTORY    writes 64 inputs to begin with into DIRECTORY, which is made if it is missing

With afl-fuzz:  fuzz_run --corpus corpus && afl-fuzz -n -i corpus -o findings -- fuzz_run
--loop says before every 1,000 inputs where it stands, and what they reached at the end. A difference is told with its seed.";

const CORPUS: u64 = 64;

/// A touched guard panics; a fuzzer sees only signals.
fn abort_on_panic() {
    let tell = std::panic::take_hook();
    std::panic::set_hook(Box::new(move |info| {
        tell(info);
        abort();
    }));
}

fn work(input: &[u8]) -> String {
    try_input(input).unwrap_or_else(|words| panic!("{words}"))
}

fn from_standard_input() -> std::io::Result<()> {
    let mut input = Vec::new();
    std::io::stdin().lock().read_to_end(&mut input)?;
    println!("{}", work(&input));
    Ok(())
}

fn repeat(count: u64, first: u64) {
    let mut reached: BTreeMap<String, u64> = BTreeMap::new();
    for seed in (first..).take(count as usize) {
        if (seed - first).is_multiple_of(1000) {
            eprintln!("seeds from {seed}");
        }
        match try_input(&input_of(seed)) {
            Ok(name) => *reached.entry(name).or_default() += 1,
            Err(words) => panic!("seed {seed}: {words}"),
        }
    }
    for (name, times) in reached {
        println!("{times:>10}  {name}");
    }
}

fn write_corpus(directory: &Path) -> std::io::Result<()> {
    std::fs::create_dir_all(directory)?;
    for seed in 0..CORPUS {
        std::fs::write(directory.join(format!("seed-{seed:02}")), input_of(seed))?;
    }
    println!("{CORPUS} inputs in {}", directory.display());
    Ok(())
}

/// Does what the words ask for, or gives none where they ask for nothing known.
fn obey(words: &[&str]) -> Option<std::io::Result<()>> {
    let number = |word: &str| word.parse::<u64>().ok();
    Some(match *words {
        [] => from_standard_input(),
        ["--loop", count] => {
            repeat(number(count)?, 1);
            Ok(())
        }
        ["--loop", count, seed] => {
            repeat(number(count)?, number(seed)?);
            Ok(())
        }
        ["--input", seed] => std::io::stdout().lock().write_all(&input_of(number(seed)?)),
        ["--corpus", directory] => write_corpus(Path::new(directory)),
        ["--help" | "-h"] => {
            println!("{HELP}");
            Ok(())
        }
        _ => return None,
    })
}

fn main() -> ExitCode {
    abort_on_panic();
    let arguments: Vec<String> = std::env::args().skip(1).collect();
    let words: Vec<&str> = arguments.iter().map(String::as_str).collect();
    match obey(&words) {
        Some(Ok(())) => return ExitCode::SUCCESS,
        Some(Err(error)) => eprintln!("{error}"),
        None => eprintln!("{HELP}"),
    }
    ExitCode::FAILURE
}
