//! The clock that both programs read, and what they say of a run.

/// The kernel's timespec on 64-bit Linux.
#[repr(C)]
struct Time {
    seconds: i64,
    nanoseconds: i64,
}

extern "C" {
    fn clock_gettime(clock: i32, time: *mut Time) -> i32;
}

const THREAD_CPU_TIME: i32 = 3;

/// Nanoseconds of this thread's own processor time: others on the machine do not count.
pub fn thread_time() -> u64 {
    let mut time = Time { seconds: 0, nanoseconds: 0 };
    // Safe: it writes the time and keeps nothing.
    unsafe { clock_gettime(THREAD_CPU_TIME, &mut time) };
    time.seconds as u64 * 1_000_000_000 + time.nanoseconds as u64
}

/// The calls of a shelf, in the order of `Counted::calls`.
pub const CALLS: [&str; 6] = ["load", "arrive", "frame", "take", "hear", "count"];

/// What a clock counted over all calls of a run.
#[derive(Clone, Copy, Debug, Default, PartialEq, Eq)]
pub struct Counted {
    pub load: u64,
    pub arrive: u64,
    pub frame: u64,
    pub take: u64,
    pub hear: u64,
    pub count: u64,
    /// A thousand readings of the clock, as each batch has one in its time.
    pub thousand_readings: u64,
    /// Over all answers: the same in both programs.
    pub sum: u64,
}

impl Counted {
    /// What the clock counted in each kind of call.
    pub fn calls(self) -> [u64; 6] {
        [self.load, self.arrive, self.frame, self.take, self.hear, self.count]
    }
}
