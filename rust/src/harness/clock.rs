//! The processor time of the running thread, which other work on the machine
//! does not add to.

#![allow(unsafe_code)]

use std::time::Duration;

#[repr(C)]
struct Time {
    seconds: i64,
    nanoseconds: i64,
}

extern "C" {
    fn clock_gettime(clock: i32, time: *mut Time) -> i32;
}

/// Linux's number for the clock of the thread's processor time.
const THREAD: i32 = 3;

pub fn now() -> Duration {
    let mut time = Time {
        seconds: 0,
        nanoseconds: 0,
    };
    // SAFETY: the time is C's timespec on 64-bit Linux, and outlives the call.
    let failed = unsafe { clock_gettime(THREAD, &mut time) };
    assert_eq!(failed, 0, "the thread has a clock");
    Duration::new(time.seconds as u64, time.nanoseconds as u32)
}

/// Nanoseconds of processor time for one run of a job, which is repeated until
/// enough time has passed.
pub fn time(enough: Duration, mut job: impl FnMut()) -> f64 {
    let start = now();
    let mut runs = 0;
    loop {
        job();
        runs += 1;
        let passed = now() - start;
        if passed >= enough {
            return passed.as_nanos() as f64 / f64::from(runs);
        }
    }
}
