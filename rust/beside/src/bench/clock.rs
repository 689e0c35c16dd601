//! Processor time, as the system counts it: what other programs take of the machine is not in it.

use std::time::Duration;

/// `CLOCK_THREAD_CPUTIME_ID` of Linux.
const THREAD_CPU_TIME: i32 = 3;
/// `RUSAGE_CHILDREN` of Linux.
const CHILDREN: i32 = -1;

#[repr(C)]
#[derive(Default)]
struct Timespec {
    seconds: i64,
    nanoseconds: i64,
}

#[repr(C)]
#[derive(Default)]
struct Timeval {
    seconds: i64,
    microseconds: i64,
}

/// `struct rusage` of Linux on x86-64.
#[repr(C)]
#[derive(Default)]
struct Usage {
    user: Timeval,
    system: Timeval,
    others: [i64; 14],
}

unsafe extern "C" {
    fn clock_gettime(clock: i32, time: *mut Timespec) -> i32;
    fn getrusage(whose: i32, usage: *mut Usage) -> i32;
}

/// The time that this thread has had.
pub fn of_thread() -> Duration {
    let mut time = Timespec::default();
    // SAFETY: it writes one `timespec`.
    let status = unsafe { clock_gettime(THREAD_CPU_TIME, &mut time) };
    assert_eq!(status, 0, "Linux has a clock for each thread");
    Duration::new(time.seconds as u64, time.nanoseconds as u32)
}

/// The time, user and system, that the children have had that were waited for.
pub fn of_children() -> Duration {
    let mut usage = Usage::default();
    // SAFETY: it writes one `rusage`.
    let status = unsafe { getrusage(CHILDREN, &mut usage) };
    assert_eq!(status, 0, "Linux counts the children's time");
    [usage.user, usage.system].iter().map(duration).sum()
}

fn duration(time: &Timeval) -> Duration {
    Duration::new(time.seconds as u64, 1_000 * time.microseconds as u32)
}

/// The middle one of several times, or of ratios of times.
pub fn median(numbers: impl Iterator<Item = f64>) -> f64 {
    let mut numbers: Vec<f64> = numbers.collect();
    numbers.sort_by(f64::total_cmp);
    numbers[numbers.len() / 2]
}
