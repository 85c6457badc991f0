//! The time of a single call, for calls that cannot be made twice on the same words.

use std::time::Instant;

/// Nanoseconds that the call takes, and its answer. The clock itself is among them.
pub fn time_of<T>(call: impl FnOnce() -> T) -> (f64, T) {
    let start = Instant::now();
    let answer = call();
    (start.elapsed().as_nanos() as f64, answer)
}

/// Nanoseconds that the clock itself takes: the fewest between two looks at it.
pub fn clock() -> f64 {
    let looks = (0..100_000).map(|_| time_of(|| ()).0);
    looks.fold(f64::INFINITY, f64::min)
}
