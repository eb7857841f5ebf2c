//! Times of calls, in processor time of the thread: other programs on the machine
//! then count for little.

use std::hint::black_box;

/// A call is repeated until a round takes this long.
const ROUND: f64 = 0.02;
const ROUNDS: usize = 7;
/// A call that takes longer is made once.
const SLOW: f64 = 0.5;
/// Least time of a call that repeats are counted by: the clock is no finer.
const FINEST: f64 = 20e-9;

#[repr(C)]
#[derive(Default)]
struct Timespec {
    seconds: i64,
    nanoseconds: i64,
}

/// The thread's own processor time, on Linux.
const THREAD_CLOCK: i32 = 3;

/// The processor time of a process, as something that is limited.
const PROCESS_TIME: i32 = 0;

extern "C" {
    fn clock_gettime(clock: i32, out: *mut Timespec) -> i32;
    fn setrlimit(resource: i32, limits: *const [u64; 2]) -> i32;
}

/// Ends this process when it has had so many seconds of processor time from its start.
pub fn limit_to(seconds: u64) {
    // Two numbers, the limit now and the most that it may be set to.
    let failed = unsafe { setrlimit(PROCESS_TIME, &[seconds, seconds]) };
    assert_eq!(failed, 0, "no limit");
}

fn now() -> f64 {
    let mut time = Timespec::default();
    // The struct has the layout of the C library's own on 64-bit Linux.
    let failed = unsafe { clock_gettime(THREAD_CLOCK, &mut time) };
    assert_eq!(failed, 0, "no clock");
    time.seconds as f64 + time.nanoseconds as f64 * 1e-9
}

/// Seconds of one call: the middle one of several rounds.
pub fn seconds<T>(mut call: impl FnMut() -> T) -> f64 {
    let start = now();
    black_box(call());
    let once = now() - start;
    if once > SLOW {
        return once;
    }
    let repeats = (ROUND / once.max(FINEST)) as u32 + 1;
    let mut rounds: Vec<f64> = (0..ROUNDS)
        .map(|_| {
            let start = now();
            (0..repeats).for_each(|_| drop(black_box(call())));
            (now() - start) / f64::from(repeats)
        })
        .collect();
    rounds.sort_by(f64::total_cmp);
    rounds[ROUNDS / 2]
}

/// A time with a fitting unit.
pub fn shown(seconds: f64) -> String {
    match seconds {
        s if s < 1e-6 => format!("{:.0} ns", s * 1e9),
        s if s < 1e-3 => format!("{:.1} us", s * 1e6),
        s if s < 1.0 => format!("{:.2} ms", s * 1e3),
        s => format!("{s:.2} s"),
    }
}
