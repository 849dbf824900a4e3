//! Processor time of this process, which other work on the machine changes little.
#![allow(unsafe_code)]

#[repr(C)]
struct Timespec {
    seconds: i64,
    nanoseconds: i64,
}

extern "C" {
    fn clock_gettime(clock: i32, time: *mut Timespec) -> i32;
}

/// CLOCK_PROCESS_CPUTIME_ID of Linux
const PROCESS: i32 = 2;

/// nanoseconds since the process began
pub fn processor_time() -> f64 {
    let mut time = Timespec { seconds: 0, nanoseconds: 0 };
    // SAFETY: the pointer is that of a whole timespec of Linux on 64 bits
    let status = unsafe { clock_gettime(PROCESS, &mut time) };
    assert_eq!(status, 0, "the clock is there");
    time.seconds as f64 * 1e9 + time.nanoseconds as f64
}
