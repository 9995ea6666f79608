//! The CPU time of this process, in which what else runs on the machine is not counted.
#[repr(C)]
struct Timespec {
    seconds: i64,
    nanoseconds: i64,
}

extern "C" {
    fn clock_gettime(clock: i32, to: *mut Timespec) -> i32;
}

/// Seconds of CPU time so far.
pub fn cpu_seconds() -> f64 {
    const CLOCK_PROCESS_CPUTIME_ID: i32 = 2;
    let mut now = Timespec {
        seconds: 0,
        nanoseconds: 0,
    };
    // SAFETY: `now` is a `timespec` of 64-bit Linux, and is not shared.
    let failed = unsafe { clock_gettime(CLOCK_PROCESS_CPUTIME_ID, &mut now) };
    assert_eq!(failed, 0, "there is no clock of CPU time");
    now.seconds as f64 + now.nanoseconds as f64 / 1e9
}
