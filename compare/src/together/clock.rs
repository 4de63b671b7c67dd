//! CPU time of this thread (Linux): other programs on the machine do not count.

#[repr(C)]
struct Time {
    seconds: i64,
    nanoseconds: i64,
}

extern "C" {
    fn clock_gettime(clock: i32, time: &mut Time) -> i32;
}

/// CLOCK_THREAD_CPUTIME_ID
const THREAD: i32 = 3;

/// Seconds of CPU time so far.
pub fn now() -> f64 {
    let mut time = Time { seconds: 0, nanoseconds: 0 };
    // SAFETY: the C library fills the struct that it is lent; its layout is that of 64-bit Linux.
    let failed = unsafe { clock_gettime(THREAD, &mut time) };
    assert_eq!(failed, 0, "the clock of this thread cannot be read");
    time.seconds as f64 + time.nanoseconds as f64 * 1e-9
}

/// The seconds that `work` takes, and what it gives.
pub fn timed<T>(work: impl FnOnce() -> T) -> (f64, T) {
    let start = now();
    let value = work();
    (now() - start, value)
}

/// The best times of two works, taken in turn, in seconds for one call.
#[derive(Clone, Copy)]
pub struct Pair {
    pub rust: f64,
    pub here: f64,
}

impl Pair {
    pub fn ratio(&self) -> f64 {
        self.rust / self.here
    }
}

/// How often a pair is timed.
#[derive(Clone, Copy)]
pub struct Effort {
    /// Short works are repeated for at least these seconds a turn.
    pub turn: f64,
    /// Turns go on for at least these seconds,
    pub seconds: f64,
    /// and at least this often.
    pub turns: usize,
}

/// Times two works in turn and compares what they give, outside the times.
pub fn race<A, B>(
    effort: Effort,
    mut rust: impl FnMut() -> A,
    mut here: impl FnMut() -> B,
    same: impl Fn(&A, &B) -> Result<(), String>,
) -> Result<Pair, String> {
    let mut best = Pair { rust: f64::INFINITY, here: f64::INFINITY };
    let (mut spent, mut turns) = (0.0, 0);
    while turns < effort.turns || spent < effort.seconds {
        let (rust_time, of_rust, a) = repeated(effort.turn, &mut rust);
        let (here_time, of_here, b) = repeated(effort.turn, &mut here);
        same(&a, &b)?;
        best = Pair { rust: best.rust.min(rust_time), here: best.here.min(here_time) };
        spent += of_rust + of_here;
        turns += 1;
    }
    Ok(best)
}

/// Seconds of one call, seconds of all, the last value. Calls are made in rows of 1, 2, 4, .., so that reading the clock, which takes as long as a
/// small grid, does not count.
fn repeated<T>(turn: f64, work: &mut impl FnMut() -> T) -> (f64, f64, T) {
    let start = now();
    let (mut calls, mut row) = (0.0, 1);
    loop {
        let mut value = std::hint::black_box(work());
        for _ in 1..row {
            value = std::hint::black_box(work());
        }
        calls += f64::from(row);
        let spent = now() - start;
        if spent >= turn {
            return (spent / calls, spent, value);
        }
        row *= 2;
    }
}
