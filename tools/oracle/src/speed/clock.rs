//! How time is taken.

/// Different rows of a kind, or names, tried in turn.
pub const ROWS: usize = 16;
/// The median of so many runs is taken, each of at least so many nanoseconds.
const RUNS: usize = 21;
const RUN: f64 = 1e7;

pub fn ratio(rattle: f64, rust: f64) -> String {
    format!("{:.1}", rust / rattle)
}

/// The median of how much longer the second takes than the first, for each row. Both are timed in each run.
pub fn more(mut first: impl FnMut(), mut second: impl FnMut()) -> f64 {
    let mut calls = 1;
    while timed(&mut second, calls) < RUN {
        calls *= 2;
    }
    let mut longer = || {
        let time = timed(&mut first, calls);
        timed(&mut second, calls) - time
    };
    median((0..RUNS).map(|_| longer()).collect()) / f64::from(calls) / ROWS as f64
}

pub fn median(mut times: Vec<f64>) -> f64 {
    times.sort_by(f64::total_cmp);
    times[times.len() / 2]
}

/// Nanoseconds that so many calls take.
fn timed(call: &mut impl FnMut(), calls: u32) -> f64 {
    let start = processor_time();
    for _ in 0..calls {
        call();
    }
    processor_time() - start
}

/// The time that this thread has had the processor, in nanoseconds: others may be at work on the machine.
pub fn processor_time() -> f64 {
    #[repr(C)]
    struct Timespec {
        seconds: i64,
        nanoseconds: i64,
    }
    unsafe extern "C" {
        fn clock_gettime(clock: i32, time: *mut Timespec) -> i32;
    }
    const CLOCK_THREAD_CPUTIME_ID: i32 = 3;
    let mut time = Timespec {
        seconds: 0,
        nanoseconds: 0,
    };
    // SAFETY: Linux on x86-64 has this function, with these types, and writes the struct alone.
    let status = unsafe { clock_gettime(CLOCK_THREAD_CPUTIME_ID, &mut time) };
    assert_eq!(status, 0, "Linux has this clock");
    time.seconds as f64 * 1e9 + time.nanoseconds as f64
}

/// The time that the programs which have ended had the processor, in seconds.
pub fn programs_time() -> f64 {
    #[repr(C)]
    #[derive(Clone, Copy, Default)]
    struct Timeval {
        seconds: i64,
        microseconds: i64,
    }
    #[repr(C)]
    #[derive(Default)]
    struct Usage {
        user: Timeval,
        system: Timeval,
        others: [i64; 14],
    }
    unsafe extern "C" {
        fn getrusage(who: i32, usage: *mut Usage) -> i32;
    }
    const RUSAGE_CHILDREN: i32 = -1;
    let mut usage = Usage::default();
    // SAFETY: Linux on x86-64 has this function, with these types, and writes the struct alone.
    let status = unsafe { getrusage(RUSAGE_CHILDREN, &mut usage) };
    assert_eq!(status, 0, "Linux counts this");
    [usage.user, usage.system]
        .map(|time| time.seconds as f64 + time.microseconds as f64 / 1e6)
        .iter()
        .sum()
}
