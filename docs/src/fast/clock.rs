//! The thread's time on the processor: other programs on the machine don't count.

/// C's struct timespec on 64-bit Linux.
#[repr(C)]
struct Time {
    seconds: i64,
    nanoseconds: i64,
}

extern "C" {
    fn clock_gettime(clock: i32, time: *mut Time) -> i32;
}

/// Seconds that this thread has spent so far.
pub fn processor_time() -> f64 {
    const OF_THIS_THREAD: i32 = 3;
    let mut time = Time { seconds: 0, nanoseconds: 0 };
    let failed = unsafe { clock_gettime(OF_THIS_THREAD, &mut time) };
    assert!(failed == 0, "no clock");
    time.seconds as f64 + time.nanoseconds as f64 * 1e-9
}
