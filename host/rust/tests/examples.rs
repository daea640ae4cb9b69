//! The examples run to their end.

#[path = "../examples/recorder.rs"]
mod recorder;

#[test]
fn the_recorder_s_day() {
    assert_eq!(recorder::main(), Ok(()));
}
