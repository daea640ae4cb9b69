//! Number and letter of one store: check and run give the same, and they are compared with a plan of damages, which needs no
//! rules, or with the second implementation.

use crate::generate::plan::Plan;
use crate::generate::requests::report;
use crate::implementation::{Implementation, Ran, Reference};
use crate::lent::Lent;
use crate::limits::ANSWER_ROOM;
use crate::trial::UNTOUCHED;

/// What check and run both say of lent memory: number and letter. The run has a good list and room for its answer, so that it
/// has no reason of its own to be refused; where it is refused, it serves, writes and changes nothing.
pub fn said(subject: &dyn Implementation, lent: &Lent) -> Result<(u16, u8), String> {
    let (number, letter) = subject.check(lent);
    let mut after = lent.clone();
    let mut answers = [UNTOUCHED; ANSWER_ROOM];
    let ran = subject.run(&mut after, &report(), &mut answers);
    if (ran.number, ran.letter) != (number, letter) {
        return Err(format!("check gives {number} and {letter}, run {ran:?}"));
    }
    let nothing = Ran { number, letter, served: 0, written: 0 };
    let untouched = answers.iter().all(|byte| *byte == UNTOUCHED) && after == *lent;
    if number != 0 && (ran != nothing || !untouched) {
        return Err(format!("a refused run served, wrote or changed something: {ran:?}"));
    }
    Ok((number, letter))
}

/// Compares what is said of a store with what its plan says.
pub fn compare_with_plan(
    subject: &dyn Implementation,
    lent: &Lent,
    plan: &Plan,
) -> Result<(), String> {
    compare(said(subject, lent)?, plan.says())
        .map_err(|words| format!("{words} by the plan {:?}", plan.names()))
}

/// Compares what is said of a store with what the second implementation's check says.
pub fn compare_with_reference(subject: &dyn Implementation, lent: &Lent) -> Result<(), String> {
    compare(said(subject, lent)?, Reference::default().check(lent))
}

fn compare(said: (u16, u8), expected: (u16, u8)) -> Result<(), String> {
    if said == expected {
        return Ok(());
    }
    Err(format!("gives {said:?}, expected {expected:?}"))
}
