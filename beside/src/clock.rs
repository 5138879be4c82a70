//! Processor time, which other work on the machine changes less than the time of day.

const OF_THIS_PROCESS: i32 = 2;
const OF_ITS_CHILDREN: i32 = -1;

/// Seconds and nanoseconds, as C has them.
#[repr(C)]
#[derive(Default)]
struct Time {
    seconds: i64,
    nanoseconds: i64,
}

/// What C says of processes that have ended: user and system time, each in seconds and microseconds, and more.
#[repr(C)]
#[derive(Default)]
struct Usage {
    user: [i64; 2],
    system: [i64; 2],
    rest: [i64; 14],
}

unsafe extern "C" {
    fn clock_gettime(clock: i32, time: *mut Time) -> i32;
    fn getrusage(who: i32, usage: *mut Usage) -> i32;
}

/// The seconds that this process has computed, and those of its children that have ended.
pub fn processor_seconds() -> f64 {
    let (mut time, mut usage) = (Time::default(), Usage::default());
    // Both are given a place of the form that they write.
    let done = unsafe { [clock_gettime(OF_THIS_PROCESS, &mut time), getrusage(OF_ITS_CHILDREN, &mut usage)] };
    assert_eq!(done, [0, 0], "the clocks are there");
    let children = |[seconds, microseconds]: [i64; 2]| seconds as f64 + 1e-6 * microseconds as f64;
    time.seconds as f64 + 1e-9 * time.nanoseconds as f64 + children(usage.user) + children(usage.system)
}
