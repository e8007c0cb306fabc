//! The processor time of this thread: what else the machine does is not in it, which tells
//! for calls that are too long to be left undisturbed.

/// As in Linux on 64 bits.
#[repr(C)]
struct Time {
    seconds: i64,
    nanoseconds: i64,
}

extern "C" {
    fn clock_gettime(clock: i32, time: *mut Time) -> i32;
}

/// CLOCK_THREAD_CPUTIME_ID.
const OF_THREAD: i32 = 3;

/// Microseconds that this thread has run.
pub fn microseconds() -> f64 {
    let mut time = Time {
        seconds: 0,
        nanoseconds: 0,
    };
    let status = unsafe { clock_gettime(OF_THREAD, &mut time) };
    assert_eq!(status, 0, "a clock of the thread");
    time.seconds as f64 * 1e6 + time.nanoseconds as f64 / 1e3
}
