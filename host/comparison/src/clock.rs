//! CPU time of the running thread. The one C function of this package stands here.

#[repr(C)]
struct Timespec {
    seconds: i64,
    nanoseconds: i64,
}

extern "C" {
    fn clock_gettime(clock: i32, time: *mut Timespec) -> i32;
}

const CLOCK_THREAD_CPUTIME_ID: i32 = 3;

/// In milliseconds.
pub fn cpu_ms() -> f64 {
    let mut t = Timespec { seconds: 0, nanoseconds: 0 };
    // SAFETY: `t` has the layout of C's timespec on 64-bit Linux, and is written before the call returns.
    let failed = unsafe { clock_gettime(CLOCK_THREAD_CPUTIME_ID, &mut t) };
    assert_eq!(failed, 0, "no clock for the thread's CPU time");
    t.seconds as f64 * 1e3 + t.nanoseconds as f64 / 1e6
}
