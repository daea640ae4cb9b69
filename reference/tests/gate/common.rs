//! What several tests share: jobs on two threads, and output that the test harness lets through.

use std::io::Write;
use std::sync::atomic::{AtomicUsize, Ordering};
use std::sync::Mutex;

/// Writes to standard error past the harness, which would hold back the words of a passing test.
pub fn announce(words: &str) {
    let mut out = std::io::stderr().lock();
    writeln!(out, "{words}").expect("standard error can be written");
}

/// Works through all jobs on two threads; results come in the order of the jobs.
pub fn on_two_threads<J: Sync, R: Send>(jobs: &[J], work: impl Fn(&J) -> R + Sync) -> Vec<R> {
    let next = AtomicUsize::new(0);
    let results = Mutex::new(Vec::new());
    std::thread::scope(|scope| {
        for _ in 0..2 {
            scope.spawn(|| loop {
                let number = next.fetch_add(1, Ordering::Relaxed);
                let Some(job) = jobs.get(number) else { break };
                let result = work(job);
                results.lock().expect("no job panicked").push((number, result));
            });
        }
    });
    let mut results = results.into_inner().expect("no job panicked");
    results.sort_by_key(|(number, _)| *number);
    results.into_iter().map(|(_, result)| result).collect()
}
