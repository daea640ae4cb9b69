//! Processor time of this process: unlike the time of day it stands still while other work has the processor.

use std::ffi::{c_int, c_long};

#[repr(C)]
struct Timespec {
    seconds: c_long,
    nanoseconds: c_long,
}

extern "C" {
    fn clock_gettime(clock: c_int, time: *mut Timespec) -> c_int;
}

/// CLOCK_PROCESS_CPUTIME_ID of Linux: all threads count, so a store can't hide work in another one.
const PROCESS_TIME: c_int = 2;

fn now() -> f64 {
    let mut time = Timespec { seconds: 0, nanoseconds: 0 };
    // SAFETY: the time is written to a struct of the C library's form.
    let status = unsafe { clock_gettime(PROCESS_TIME, &mut time) };
    assert_eq!(status, 0, "the clock of processor time");
    time.seconds as f64 * 1e6 + time.nanoseconds as f64 / 1e3
}

/// What an action takes, in microseconds.
pub fn timed(action: impl FnOnce()) -> f64 {
    let began = now();
    action();
    now() - began
}
