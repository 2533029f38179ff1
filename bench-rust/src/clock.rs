//! A clock that runs only while this thread does, so that other work on the machine disturbs less.

use std::hint::black_box;

#[repr(C)]
struct Timespec {
    seconds: i64,
    nanoseconds: i64,
}

extern "C" {
    fn clock_gettime(clock: i32, time: *mut Timespec) -> i32;
}

/// The thread's own time, as Linux numbers its clocks.
const CLOCK_THREAD_CPUTIME_ID: i32 = 3;

/// The thread's time so far, in ns.
pub fn now() -> f64 {
    let mut time = Timespec { seconds: 0, nanoseconds: 0 };
    // Safe: the call writes the time, which is lent to it, and nothing else.
    let failed = unsafe { clock_gettime(CLOCK_THREAD_CPUTIME_ID, &mut time) };
    assert_eq!(failed, 0, "the thread's clock");
    time.seconds as f64 * 1e9 + time.nanoseconds as f64
}

fn elapsed<T>(work: fn(u32, &T) -> u32, rounds: u32, with: &T) -> f64 {
    let start = now();
    black_box(work(black_box(rounds), black_box(with)));
    now() - start
}

/// ns of a round in one run, without what comes before the rounds: what no rounds take is left out.
pub fn round<T>(work: fn(u32, &T) -> u32, rounds: u32, with: &T) -> f64 {
    let none = elapsed(work, 0, with);
    (elapsed(work, rounds, with) - none) / f64::from(rounds)
}
