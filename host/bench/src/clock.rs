//! The time that this thread was on a processor: what other programs take is not in it.

/// The C library's `struct timespec` on 64-bit Linux.
#[repr(C)]
struct Timespec {
    seconds: i64,
    nanoseconds: i64,
}

const THREAD_CPUTIME: i32 = 3;

extern "C" {
    fn clock_gettime(clock: i32, time: *mut Timespec) -> i32;
}

pub fn nanoseconds() -> i64 {
    let mut time = Timespec {
        seconds: 0,
        nanoseconds: 0,
    };
    // SAFETY: the C library writes one timespec, which is lent for the call.
    let answer = unsafe { clock_gettime(THREAD_CPUTIME, &mut time) };
    assert_eq!(answer, 0, "no clock of the thread");
    time.seconds * 1_000_000_000 + time.nanoseconds
}
