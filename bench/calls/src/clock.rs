//! The CPU time of a program, to which other programs on a busy machine add little.

#[repr(C)]
struct Time {
    seconds: i64,
    nanoseconds: i64,
}

extern "C" {
    fn clock_gettime(clock: i32, time: *mut Time) -> i32;
    fn getrusage(who: i32, usage: *mut [i64; 18]) -> i32;
}

/// `CLOCK_THREAD_CPUTIME_ID` and `RUSAGE_CHILDREN` of Linux.
const THIS_THREAD: i32 = 3;
const CHILDREN: i32 = -1;

/// Returns the CPU time of this thread, in seconds.
pub fn of_this_thread() -> f64 {
    let mut time = Time {
        seconds: 0,
        nanoseconds: 0,
    };
    unsafe { clock_gettime(THIS_THREAD, &mut time) };
    time.seconds as f64 + time.nanoseconds as f64 * 1e-9
}

/// Returns the CPU time of the programs that this one started and waited for, in seconds, including
/// the system's time for them.
pub fn of_children() -> f64 {
    let mut usage = [0; 18];
    unsafe { getrusage(CHILDREN, &mut usage) };
    let [user, user_micros, system, system_micros, ..] = usage;
    (user + system) as f64 + (user_micros + system_micros) as f64 * 1e-6
}
