//! The processor time of this thread, which other work on the machine disturbs less than it does the time on the wall.

#[repr(C)]
struct Time {
    seconds: i64,
    nanoseconds: i64,
}

extern "C" {
    fn clock_gettime(clock: i32, time: *mut Time) -> i32;
}

const CLOCK_THREAD_CPUTIME_ID: i32 = 3;

/// In nanoseconds.
pub fn processor_time() -> i64 {
    let mut time = Time { seconds: 0, nanoseconds: 0 };
    // Safety: the C function writes one time.
    let status = unsafe { clock_gettime(CLOCK_THREAD_CPUTIME_ID, &mut time) };
    assert_eq!(status, 0);
    time.seconds * 1_000_000_000 + time.nanoseconds
}
