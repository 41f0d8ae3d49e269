//! Processor time.

use std::time::Duration;

/// Processor time of this thread: what a busy machine disturbs less than the clock.
#[cfg(target_os = "linux")]
pub fn processor() -> Duration {
    #[repr(C)]
    struct Time {
        seconds: i64,
        nanoseconds: i64,
    }
    extern "C" {
        fn clock_gettime(clock: i32, time: *mut Time) -> i32;
    }
    const THREAD_CPUTIME: i32 = 3;
    let mut time = Time {
        seconds: 0,
        nanoseconds: 0,
    };
    // The C library writes one struct timespec, which is two 64-bit numbers on 64-bit Linux.
    unsafe { clock_gettime(THREAD_CPUTIME, &mut time) };
    Duration::new(time.seconds as u64, time.nanoseconds as u32)
}

#[cfg(not(target_os = "linux"))]
pub fn processor() -> Duration {
    Duration::ZERO
}
