//! The time that a call takes when nothing else disturbs it.

use std::ptr::read_volatile;
use std::time::{Duration, Instant};

/// What is measured: a function of the words.
pub type Function = fn(&mut [u32]) -> u32;

/// How long one batch of calls is to take: long for the clock, short for other programs.
const BATCH: Duration = Duration::from_micros(100);

/// Batches of each function in one go.
const ROUNDS: u32 = 200;

/// Lowers each function's nanoseconds a call to those of its fastest batch here, if that was
/// faster. The functions take turns, so that a slow stretch of the machine meets them all.
pub fn lower(best: &mut [f64], functions: &[Function], words: &mut [u32]) {
    let batches: Vec<(Function, u32)> = functions
        .iter()
        .map(|function| (*function, batch_size(*function, words)))
        .collect();
    for _ in 0..ROUNDS {
        for (best, (function, calls)) in best.iter_mut().zip(&batches) {
            let time = time_of(*function, *calls, words);
            *best = best.min(time.as_nanos() as f64 / f64::from(*calls));
        }
    }
}

/// How many calls make a batch.
fn batch_size(function: Function, words: &mut [u32]) -> u32 {
    let mut calls = 1;
    while time_of(function, calls, words) < BATCH {
        calls *= 2;
    }
    calls
}

fn time_of(function: Function, calls: u32, words: &mut [u32]) -> Duration {
    let start = Instant::now();
    for _ in 0..calls {
        opaque(opaque(function)(words));
    }
    start.elapsed()
}

/// The value, which the compiler cannot know any more: no call is left out because its answer is
/// known or not needed. `std::hint::black_box` is younger than the oldest compiler supported.
fn opaque<T: Copy>(value: T) -> T {
    // SAFETY: the pointer is that of a local value.
    unsafe { read_volatile(&value) }
}
