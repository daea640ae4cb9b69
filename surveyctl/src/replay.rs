//! `replay`: runs a file of requests, of any length, and says on the way how far it is.

use crate::codec::read;
use crate::disk::same_file;
use crate::failure::Failure;
use crate::session::{refusal_words, Session};
use crate::Streams;
use std::collections::BTreeMap;
use std::io::Write;
use std::time::{Duration, Instant};
use zilgwern::{Error, Refusal, Refused, LIST_BYTES};

/// Room for the answers of one run.
const ROOM: usize = 1 << 18;

/// Time between two lines of progress.
const PAUSE: Duration = Duration::from_millis(200);

pub fn replay(mut session: Session, rest: &[&str], streams: &mut Streams) -> Result<(), Failure> {
    let (name, answers, progress) = words(rest)?;
    if let Some(answers) = answers {
        session.spare(answers)?;
        if same_file(name, answers) {
            let words = format!("{answers}: is the list itself; name another for the answers");
            return Err(Failure::Words(words));
        }
    }
    let requests = read(&[name], "replay", streams)?;
    // All of it is looked at before any of it is run.
    let ends = ends(&requests).map_err(|failure| failure.at(name))?;
    let mut file = match answers {
        Some(name) => {
            Some((name, std::fs::File::create(name).map_err(|error| Failure::file(name, error))?))
        }
        None => None,
    };
    let mut progress = Progress::new(progress || streams.tells, ends.len());
    let mut results: BTreeMap<u16, u64> = BTreeMap::new();
    let mut buffer = vec![0; ROOM];
    let mut done = 0;
    while done < ends.len() {
        let (start, end) = next_list(&ends, done);
        let (served, written) = session.store.run_bytes(&requests[start..end], &mut buffer)?;
        done += served;
        count(&buffer[..written], &mut results);
        if let Some((name, file)) = &mut file {
            if let Err(error) = file.write_all(&buffer[..written]) {
                progress.end(streams.err);
                return Err(Failure::file(name, format!("{error}; nothing is kept")));
            }
        }
        progress.tell(done, streams.err);
    }
    progress.end(streams.err);
    session.keep()?;
    writeln!(streams.out, "{done} requests served")?;
    for (result, times) in results {
        writeln!(streams.out, "{times:>10}  {}", result_words(result))?;
    }
    Ok(())
}

/// The file to run, the file for the answers, and whether progress is told in any case.
fn words<'a>(rest: &[&'a str]) -> Result<(&'a str, Option<&'a str>, bool), Failure> {
    let (mut name, mut answers, mut progress) = (None, None, false);
    let mut rest = rest.iter().copied();
    while let Some(word) = rest.next() {
        match word {
            "--progress" => progress = true,
            "--answers" => {
                let missing = || Failure::usage("replay", "--answers wants a file behind it");
                answers = Some(rest.next().ok_or_else(missing)?);
            }
            _ if name.is_none() && !word.starts_with("--") => name = Some(word),
            _ => return Err(Failure::usage("replay", &format!("`{word}` is too much"))),
        }
    }
    let name = name.ok_or_else(|| Failure::usage("replay", "name the file of requests"))?;
    Ok((name, answers, progress))
}

/// Where each request ends.
fn ends(requests: &[u8]) -> Result<Vec<usize>, Failure> {
    let (mut at, mut ends) = (0, Vec::new());
    while at < requests.len() {
        let length = match requests[at..] {
            [low, high, _, _, ..] => usize::from(u16::from_le_bytes([low, high])),
            _ => 0,
        };
        if length < 4 || at + length > requests.len() {
            let error = Failure::Refused(Error::Refused(Refused::BrokenList));
            return Err(error.at(&format!("request {}, at byte {at}", ends.len() + 1)));
        }
        at += length;
        ends.push(at);
    }
    Ok(ends)
}

/// The bytes of the next requests, as many as one list takes.
fn next_list(ends: &[usize], done: usize) -> (usize, usize) {
    let start = if done == 0 { 0 } else { ends[done - 1] };
    let fitting = ends[done..].partition_point(|end| end - start <= LIST_BYTES);
    (start, ends[done + fitting - 1])
}

/// Counts the results of replies.
fn count(mut answers: &[u8], results: &mut BTreeMap<u16, u64>) {
    while let [low, high, _, _, result, zero, ..] = *answers {
        *results.entry(u16::from_le_bytes([result, zero])).or_default() += 1;
        answers = &answers[usize::from(u16::from_le_bytes([low, high]))..];
    }
}

fn result_words(result: u16) -> String {
    match result {
        0 => "done".into(),
        64 => "no value".into(),
        65 => "nothing to do".into(),
        _ => match Refusal::of(result) {
            Some(refusal) => refusal_words(refusal),
            None => format!("result {result}"),
        },
    }
}

/// How far the replay is, told on one line of a terminal.
struct Progress {
    told: bool,
    all: usize,
    began: Instant,
    last: Option<Instant>,
}

impl Progress {
    fn new(told: bool, all: usize) -> Progress {
        Progress { told, all, began: Instant::now(), last: None }
    }

    /// Who does not want to hear it is no reason to stop.
    fn tell(&mut self, done: usize, err: &mut dyn Write) {
        let soon = self.last.is_some_and(|last| last.elapsed() < PAUSE) && done < self.all;
        if !self.told || soon {
            return;
        }
        self.last = Some(Instant::now());
        let (seconds, percent) = (self.began.elapsed().as_secs_f64(), 100 * done / self.all);
        let _ = write!(err, "\r{percent:>3} %  {done} of {} requests, {seconds:.1} s", self.all);
        let _ = err.flush();
    }

    fn end(&self, err: &mut dyn Write) {
        if self.told && self.last.is_some() {
            let _ = writeln!(err);
        }
    }
}
