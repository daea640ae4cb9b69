//! A campaign of the second implementation: long random lists, judged with the whole book, and a
//! count of everything that was reached.

use crate::common::{announce, on_two_threads};
use reference::campaign::{jobs, required};
use reference::implementation::Reference;
use reference::reached::Reached;
use reference::trial::Eyes;

#[test]
fn every_history_is_judged_right_and_everything_is_reached() {
    let subject = Reference::default();
    let jobs = jobs(0);
    let results = on_two_threads(&jobs, |job| job.work(&subject, Eyes::WholeBook));
    let mut reached = Reached::requiring(required());
    let mut served = 0;
    for result in results {
        let (part, requests) = result.unwrap_or_else(|words| panic!("{words}"));
        reached.add(&part);
        served += requests;
    }
    announce(&format!("{served} requests judged in {} jobs; reached:\n{reached}", jobs.len()));
    assert!(reached.missing().is_empty(), "never reached: {:?}", reached.missing());
}
