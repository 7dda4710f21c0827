//! Processor time: other work on the machine does not count as it does on the wall's clock.

use std::mem::MaybeUninit;

#[repr(C)]
#[derive(Clone, Copy)]
struct Time {
    seconds: i64,
    /// Nanoseconds of `clock_gettime`, microseconds of `getrusage`.
    parts: i64,
}

/// In user mode, in the kernel, and what is not read.
#[repr(C)]
struct Usage {
    times: [Time; 2],
    rest: [i64; 14],
}

extern "C" {
    fn clock_gettime(clock: i32, time: *mut Time) -> i32;
    fn getrusage(who: i32, usage: *mut Usage) -> i32;
}

/// Linux's numbers for the thread's clock, and for programs that were waited for.
const THREAD: i32 = 3;
const CHILDREN: i32 = -1;

fn thread() -> f64 {
    let mut time = MaybeUninit::<Time>::uninit();
    assert_eq!(unsafe { clock_gettime(THREAD, time.as_mut_ptr()) }, 0);
    let time = unsafe { time.assume_init() };
    time.seconds as f64 + 1e-9 * time.parts as f64
}

fn children() -> f64 {
    let mut usage = MaybeUninit::<Usage>::uninit();
    assert_eq!(unsafe { getrusage(CHILDREN, usage.as_mut_ptr()) }, 0);
    let usage = unsafe { usage.assume_init() };
    usage.times.iter().map(|time| time.seconds as f64 + 1e-6 * time.parts as f64).sum()
}

/// Seconds that this thread works at it.
pub fn seconds(work: impl FnOnce()) -> f64 {
    let start = thread();
    work();
    thread() - start
}

/// Seconds that the programs started and waited for in it work.
pub fn seconds_of_programs(work: impl FnOnce()) -> f64 {
    let start = children();
    work();
    children() - start
}
