//! The processor time of a thread, which std does not tell.

#[repr(C)]
struct Timespec {
    seconds: i64,
    nanoseconds: i64,
}

extern "C" {
    fn clock_gettime(clock: i32, time: *mut Timespec) -> i32;
}

/// `CLOCK_THREAD_CPUTIME_ID` of Linux.
const THREAD: i32 = 3;

pub fn processor_nanoseconds() -> u64 {
    let mut time = Timespec { seconds: 0, nanoseconds: 0 };
    unsafe { clock_gettime(THREAD, &mut time) };
    time.seconds as u64 * 1_000_000_000 + time.nanoseconds as u64
}
