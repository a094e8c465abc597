//! The processor time of this thread, which other work on the machine does not change as it does the time of day.

use std::ffi::{c_int, c_long};

#[repr(C)]
struct Time {
    seconds: i64,
    nanoseconds: c_long,
}

unsafe extern "C" {
    fn clock_gettime(clock: c_int, time: *mut Time) -> c_int;
}

/// As on Linux.
const THREAD_PROCESSOR_TIME: c_int = 3;

/// In seconds.
pub fn now() -> f64 {
    let mut time = Time {
        seconds: 0,
        nanoseconds: 0,
    };
    // SAFETY: the call writes the time that it is lent.
    let result = unsafe { clock_gettime(THREAD_PROCESSOR_TIME, &mut time) };
    assert_eq!(result, 0, "no clock");
    time.seconds as f64 + time.nanoseconds as f64 * 1e-9
}
