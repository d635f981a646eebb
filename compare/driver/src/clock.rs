//! Processor time: waiting for the processor does not count. What other programs do to the caches still does.

/// CLOCK_THREAD_CPUTIME_ID, RUSAGE_CHILDREN of Linux.
const OF_THREAD: i32 = 3;
const OF_CHILDREN: i32 = -1;

/// `timespec`, with nanoseconds, and `timeval`, with microseconds.
#[repr(C)]
#[derive(Default)]
struct Time {
    seconds: i64,
    parts: i64,
}

/// `rusage`, of which two fields are read.
#[repr(C)]
#[derive(Default)]
struct Usage {
    user: Time,
    system: Time,
    others: [i64; 14],
}

unsafe extern "C" {
    fn clock_gettime(clock: i32, time: *mut Time) -> i32;
    fn getrusage(who: i32, usage: *mut Usage) -> i32;
}

/// Seconds that this thread has run.
pub fn of_thread() -> f64 {
    let mut time = Time::default();
    // SAFETY: it writes to the place lent for it.
    assert_eq!(unsafe { clock_gettime(OF_THREAD, &mut time) }, 0, "Linux has a clock for each thread");
    time.in_seconds(1e9)
}

/// Seconds that all processes which this one has started and waited for have run, in themselves and in the system.
pub fn of_children() -> f64 {
    let mut usage = Usage::default();
    // SAFETY: it writes to the place lent for it.
    assert_eq!(unsafe { getrusage(OF_CHILDREN, &mut usage) }, 0, "Linux counts the time of processes");
    usage.user.in_seconds(1e6) + usage.system.in_seconds(1e6)
}

impl Time {
    fn in_seconds(&self, parts: f64) -> f64 {
        self.seconds as f64 + self.parts as f64 / parts
    }
}
