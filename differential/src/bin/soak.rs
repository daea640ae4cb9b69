//! soak: random histories of the proved store, as many as one has patience for, compared as in the gate.

use differential::histories::{history, Shape, Tally, SHAPES};
use reference::generate::random::mix;
use std::process::ExitCode;
use std::time::{Instant, SystemTime, UNIX_EPOCH};

const HELP: &str = "\
Usage: soak N [SEED [SHAPE]]

Leads the proved store through random histories until at least N requests are served, and compares every run with the second
implementation and its judge: numbers, answers and every byte that was lent. N is a plain number (2000000), or millions with
an M behind it (2M). Histories have consecutive seeds from SEED on, which is taken from the clock if it is not given. SHAPE is
small, middle or large (new stores of so many places), planted or planted-large (arbitrary sound ones), deletes or
planted-marks (small ones, new or arbitrary, with many delete marks); without it, each history's seed chooses. All of a
history follows from its seed and shape; one that fails is told with the command that repeats it alone.

Status 0: no difference. 2: wrong arguments. Any other: a difference, or a byte written outside of what was lent.";

/// Seconds between two lines of progress.
const PROGRESS: u64 = 5;

/// A plain number, or millions.
fn requests_of(word: &str) -> Option<u64> {
    match word.strip_suffix(['M', 'm']) {
        Some(millions) => millions.parse::<u64>().ok()?.checked_mul(1_000_000),
        None => word.parse().ok(),
    }
}

fn seed_of_clock() -> u64 {
    let now = SystemTime::now().duration_since(UNIX_EPOCH).map_or(0, |time| time.as_nanos());
    // Short enough to be typed again.
    mix(now as u64) >> 32
}

fn shape_of(word: &str) -> Option<&'static Shape> {
    SHAPES.into_iter().find(|shape| shape.name == word)
}

/// The shape that a seed chooses.
fn shape_by(seed: u64) -> &'static Shape {
    SHAPES[(mix(!seed) % SHAPES.len() as u64) as usize]
}

fn soak(asked: &Asked) -> Result<Tally, String> {
    let began = Instant::now();
    let mut told = 0;
    let mut tally = Tally::default();
    for seed in asked.seed.. {
        if tally.served >= asked.requests {
            break;
        }
        tally.add(&history(asked.shape.unwrap_or_else(|| shape_by(seed)), seed)?);
        let seconds = began.elapsed().as_secs();
        if seconds >= told + PROGRESS {
            told = seconds;
            let Tally { served, runs, .. } = tally;
            println!("{seconds:>6} s  {served:>12} requests in {runs} runs, up to seed {seed}");
        }
    }
    Ok(tally)
}

/// What the command line asks for.
struct Asked {
    requests: u64,
    seed: u64,
    shape: Option<&'static Shape>,
}

impl Asked {
    fn of(words: &[&str]) -> Option<Asked> {
        let (requests, seed, shape) = match *words {
            [requests] => (requests, seed_of_clock(), None),
            [requests, seed] => (requests, seed.parse().ok()?, None),
            [requests, seed, shape] => (requests, seed.parse().ok()?, Some(shape_of(shape)?)),
            _ => return None,
        };
        Some(Asked { requests: requests_of(requests)?, seed, shape })
    }

    fn command(&self) -> String {
        let shape = self.shape.map_or(String::new(), |shape| format!(" {}", shape.name));
        format!("tools/soak {} {}{shape}", self.requests, self.seed)
    }
}

fn main() -> ExitCode {
    let arguments: Vec<String> = std::env::args().skip(1).collect();
    let words: Vec<&str> = arguments.iter().map(String::as_str).collect();
    if let ["--help" | "-h"] = words[..] {
        println!("{HELP}");
        return ExitCode::SUCCESS;
    }
    let Some(asked) = Asked::of(&words) else {
        eprintln!("{HELP}");
        return ExitCode::from(2);
    };
    println!("{}", asked.command());
    match soak(&asked) {
        Ok(Tally { reached, served, runs, histories }) => {
            print!("{reached}");
            println!("no difference in {served} requests, {runs} runs, {histories} histories");
            ExitCode::SUCCESS
        }
        Err(words) => {
            println!("DIFFERENCE in {words}");
            ExitCode::FAILURE
        }
    }
}
