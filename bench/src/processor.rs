//! Processor time, which other work on the machine lengthens less than the time by the clock.

use std::hint::black_box;
use std::time::Duration;

/// Linux's `struct timespec` on x86-64.
#[repr(C)]
#[derive(Default)]
struct Timespec {
    seconds: i64,
    nanoseconds: i64,
}

unsafe extern "C" {
    fn clock_gettime(clock: i32, time: *mut Timespec) -> i32;
}

/// Linux's CLOCK_THREAD_CPUTIME_ID.
const THREAD_TIME: i32 = 3;

/// What a call takes of the processor.
pub fn time_of<T>(call: impl FnOnce() -> T) -> Duration {
    let now = || {
        let mut t = Timespec::default();
        // SAFETY: the clock is written to a record of its own.
        assert_eq!(unsafe { clock_gettime(THREAD_TIME, &mut t) }, 0);
        Duration::new(t.seconds as u64, t.nanoseconds as u32)
    };
    let start = now();
    black_box(call());
    now() - start
}
