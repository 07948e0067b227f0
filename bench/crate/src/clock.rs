//! The processor's time of this program, which other programs on the machine do not lengthen as they do the wall's.

#[repr(C)]
struct Timespec {
    seconds: i64,
    nanoseconds: i64,
}

extern "C" {
    fn clock_gettime(clock: i32, time: *mut Timespec) -> i32;
}

/// CLOCK_PROCESS_CPUTIME_ID of Linux.
const PROCESS: i32 = 2;

pub fn nanoseconds() -> u64 {
    let mut time = Timespec { seconds: 0, nanoseconds: 0 };
    // SAFETY: `time` is laid out as C's struct timespec of 64-bit Linux, and is ours to write.
    let status = unsafe { clock_gettime(PROCESS, &mut time) };
    assert_eq!(status, 0, "no such clock");
    (time.seconds * 1_000_000_000 + time.nanoseconds) as u64
}
