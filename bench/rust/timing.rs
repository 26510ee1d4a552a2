//! Timing a unit of work: the median of many laps.
use std::time::{Duration, Instant};

const LAPS: usize = 31;
const LEAST_LAP: Duration = Duration::from_millis(5);

/// `lap(n)` does `n` units and answers their time. `n` doubles until the shortest lap is long enough, so the laps that
/// count are warm.
pub fn measure(unit: &str, calls: u32, mut lap: impl FnMut(u32) -> Duration) {
    let mut n = 1;
    let laps = loop {
        let mut laps: Vec<Duration> = (0..LAPS).map(|_| lap(n)).collect();
        laps.sort();
        if laps[0] >= LEAST_LAP {
            break laps;
        }
        n *= 2
    };
    let ns = |k: usize| laps[k].as_nanos() as f64 / f64::from(n);
    let median = ns(LAPS / 2);
    println!("{unit} {median:.1} {:.1}", median / f64::from(calls));
    let (lower, upper) = (ns(LAPS / 4), ns(LAPS - 1 - LAPS / 4));
    eprintln!("{unit}: laps of {n}; quartiles {lower:.1} {upper:.1}");
}

/// The time of `work`, `n` times.
pub fn timed(n: u32, mut work: impl FnMut()) -> Duration {
    let start = Instant::now();
    for _ in 0..n {
        work()
    }
    start.elapsed()
}
