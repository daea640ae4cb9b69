//! The program `survey` as a function: a new store of 32 places with threshold 4 runs its input.

use crate::implementation::Reference;
use crate::lent::Lent;
use crate::limits::LIST_BYTES;
use crate::reached::Reached;
use crate::request::split;
use crate::run::{make, run};
use crate::trial::{Eyes, Trial};

const PLACES: usize = 32;
const THRESHOLD: u64 = 4;

/// The answer buffer of the proved program.
const ROOM: usize = 4096;

/// The answer bytes that the program writes for this input; none for a refused run.
pub fn survey(input: &[u8]) -> Vec<u8> {
    let mut lent = Lent::zeroed(PLACES);
    make(&mut lent, THRESHOLD);
    let mut answers = Vec::new();
    let mut rest = input;
    loop {
        // The rest after a stop is a list of its own, run on the same store with an empty buffer.
        let outcome = run(&mut lent, rest, LIST_BYTES);
        answers.extend(&outcome.answers);
        let served = split(rest).map_or(0, |requests| {
            requests.iter().take(outcome.served).map(|request| 4 + request.body.len()).sum()
        });
        rest = &rest[served..];
        if outcome.served == 0 || rest.is_empty() {
            return answers;
        }
    }
}

/// What a list led the program through.
pub struct Surveyed {
    pub reached: Reached,
    pub served: u64,
    pub written: usize,
    pub stops: usize,
}

/// Runs the input as the proved program does, under the judge.
pub fn follow(input: &[u8]) -> Result<Surveyed, String> {
    let subject = Reference::default();
    let mut trial = Trial::of_new_store(&subject, Eyes::WholeBook, Lent::zeroed(PLACES), THRESHOLD)
        .map_err(|finding| finding.words)?;
    let (mut rest, mut written, mut stops) = (input, 0, 0);
    loop {
        let ran = trial.run(rest, ROOM).map_err(|finding| finding.words)?;
        written += ran.written;
        let requests = split(rest).unwrap_or_default();
        if ran.served == requests.len() {
            return Ok(Surveyed { reached: trial.reached, served: trial.served, written, stops });
        }
        stops += 1;
        let served = requests[..ran.served].iter().map(|request| 4 + request.body.len());
        rest = &rest[served.sum()..];
    }
}
