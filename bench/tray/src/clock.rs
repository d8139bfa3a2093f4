//! The process's own time, in which nothing else that the machine does is counted.

#[repr(C)]
struct Timespec {
    seconds: i64,
    nanoseconds: i64,
}

unsafe extern "C" {
    fn clock_gettime(clock: i32, time: *mut Timespec) -> i32;
}

/// Linux's CLOCK_PROCESS_CPUTIME_ID.
const OF_THE_PROCESS: i32 = 2;

/// In seconds.
pub fn now() -> f64 {
    let mut time = Timespec { seconds: 0, nanoseconds: 0 };
    // SAFETY: both fields have 64 bits on 64-bit Linux, and `time` is lent for the time of the call.
    let answer = unsafe { clock_gettime(OF_THE_PROCESS, &mut time) };
    assert_eq!(answer, 0, "the process's clock cannot be read");
    time.seconds as f64 + time.nanoseconds as f64 * 1e-9
}
