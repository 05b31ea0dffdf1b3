//! The processor time of this thread, which other programs on the machine disturb less than the time of day.

use std::time::Duration;

#[repr(C)]
struct Timespec {
    seconds: i64,
    nanoseconds: i64,
}

const THREAD_TIME: i32 = 3;

extern "C" {
    fn clock_gettime(clock: i32, time: *mut Timespec) -> i32;
}

fn now() -> Duration {
    let mut time = Timespec {
        seconds: 0,
        nanoseconds: 0,
    };
    // `time` lives through the call.
    let failed = unsafe { clock_gettime(THREAD_TIME, &mut time) };
    assert_eq!(failed, 0, "the clock of this thread");
    Duration::new(time.seconds as u64, time.nanoseconds as u32)
}

/// How long a call takes.
pub fn timed(call: impl FnOnce()) -> Duration {
    let start = now();
    call();
    now() - start
}
