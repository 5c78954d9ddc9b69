//! The time that this thread has had a processor, which other programs on the machine hardly disturb.
#![allow(unsafe_code)]

/// As on Linux for 64 bits.
#[repr(C)]
struct TimeSpec {
    seconds: i64,
    nanoseconds: i64,
}

const THREAD_CPU_TIME: i32 = 3;

unsafe extern "C" {
    fn clock_gettime(clock: i32, time: *mut TimeSpec) -> i32;
}

/// Seconds since the thread began, those apart in which it waited for a processor.
pub fn seconds() -> f64 {
    let mut time = TimeSpec { seconds: 0, nanoseconds: 0 };
    // SAFETY: the pointer is to a value of the type that the call writes.
    let status = unsafe { clock_gettime(THREAD_CPU_TIME, &mut time) };
    assert_eq!(status, 0, "no clock of this thread");
    time.seconds as f64 + time.nanoseconds as f64 * 1e-9
}
