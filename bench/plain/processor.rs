//! The processor time that this thread has used, which grows only while it runs.

#[repr(C)]
struct Time {
    seconds: i64,
    nanos: i64,
}

unsafe extern "C" {
    fn clock_gettime(clock: i32, time: *mut Time) -> i32;
}

/// In nanoseconds.
pub fn used() -> u64 {
    const OF_THREAD: i32 = 3;
    let mut time = Time { seconds: 0, nanos: 0 };
    unsafe { clock_gettime(OF_THREAD, &mut time) };
    time.seconds as u64 * 1_000_000_000 + time.nanos as u64
}
