//! The time that this program has had a processor. What else the machine runs makes it wait, but does not lengthen this.

use std::time::Duration;

#[repr(C)]
struct Time {
    seconds: i64,
    nanoseconds: i64,
}

/// CLOCK_PROCESS_CPUTIME_ID of Linux.
const PROCESSOR_TIME: i32 = 2;

unsafe extern "C" {
    fn clock_gettime(clock: i32, time: *mut Time) -> i32;
}

pub fn processor_time() -> Duration {
    let mut time = Time { seconds: 0, nanoseconds: 0 };
    // The C library writes `time`, which is laid out as its own struct is on 64-bit Linux.
    let status = unsafe { clock_gettime(PROCESSOR_TIME, &mut time) };
    assert_eq!(status, 0);
    Duration::new(time.seconds as u64, time.nanoseconds as u32)
}
