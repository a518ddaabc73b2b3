//! Many runs of one thing or of two by turns, and the medians of their times.

use std::hint::black_box;
use std::time::{Duration, Instant};

/// How long the runs of one thing may take together.
const BUDGET: Duration = Duration::from_millis(1500);
/// The most runs.
const MOST: usize = 2001;
/// The fewest runs.
const FEWEST: usize = 5;
/// The least time of one measurement; shorter calls are timed several at once.
const LEAST: Duration = Duration::from_micros(50);

/// The median time of a call in milliseconds.
pub fn median<T>(call: impl FnMut() -> T) -> f64 {
    let mut timed = Timed::new(call);
    repeat(BUDGET, || timed.run());
    timed.median()
}

/// The same for two calls. Their runs take turns, so that a slow moment of the machine hits both.
pub fn medians<T, U>(first: impl FnMut() -> T, second: impl FnMut() -> U) -> [f64; 2] {
    let (mut first, mut second) = (Timed::new(first), Timed::new(second));
    repeat(2 * BUDGET, || {
        first.run();
        second.run();
    });
    [first.median(), second.median()]
}

/// Repeats a run, or one of each of two, until the time is over or there are enough.
fn repeat(budget: Duration, mut run: impl FnMut()) {
    let start = Instant::now();
    let mut runs = 0;
    while runs < FEWEST || (runs < MOST && start.elapsed() < budget) {
        run();
        runs += 1;
    }
}

/// A call and the times of its runs.
struct Timed<F> {
    call: F,
    /// How many calls one run takes.
    calls: u32,
    /// Milliseconds of a call, for each run.
    times: Vec<f64>,
}

impl<T, F: FnMut() -> T> Timed<F> {
    /// Warms up, and finds how many calls one run takes.
    fn new(call: F) -> Timed<F> {
        let (calls, times) = (1, Vec::new());
        let mut timed = Timed { call, calls, times };
        while timed.elapsed() < LEAST && timed.calls < 1024 {
            timed.calls *= 2;
        }
        timed
    }

    /// The time of one run.
    fn elapsed(&mut self) -> Duration {
        let before = Instant::now();
        for _ in 0..self.calls {
            black_box((self.call)());
        }
        before.elapsed()
    }

    fn run(&mut self) {
        let time = self.elapsed().as_secs_f64() * 1000.0 / f64::from(self.calls);
        self.times.push(time);
    }

    fn median(mut self) -> f64 {
        self.times.sort_by(f64::total_cmp);
        self.times[self.times.len() / 2]
    }
}
