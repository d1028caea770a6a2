//! The processor time of this thread. On a machine that others use too, the time in which they had
//! the core does not count.

use std::time::Duration;

/// Of the system's header time.h.
const THREAD_CPU_TIME: i32 = 3;

#[repr(C)]
struct Time {
    seconds: i64,
    nanoseconds: i64,
}

unsafe extern "C" {
    fn clock_gettime(clock: i32, time: *mut Time) -> i32;
}

pub fn now() -> Duration {
    let mut time = Time {
        seconds: 0,
        nanoseconds: 0,
    };
    // SAFETY: on 64-bit Linux this is the struct that the call fills.
    let failed = unsafe { clock_gettime(THREAD_CPU_TIME, &mut time) };
    assert_eq!(failed, 0, "no clock of the thread");
    let nanoseconds = 1_000_000_000 * time.seconds + time.nanoseconds;
    Duration::from_nanos(nanoseconds.unsigned_abs())
}
