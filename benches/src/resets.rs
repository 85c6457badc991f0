//! A reset beside the same returns by single calls, and beside a reset of half as many blocks.

use crate::single::time_of;
use reference::calls::Allocator;
use reference::sizes::words_needed;
use tests::calls::{free, reset};
use tests::layout::encode;

/// The arena's pages.
pub const PAGES: u32 = 256;
/// Bytes of each chunk, so that a zone has the most.
pub const SIZE: u32 = 8;
/// How often a reset is measured.
const REPETITIONS: u32 = 15;
/// Points on the way from all chunks live to none at which single returns are measured.
const POINTS: u32 = 20;
/// Single returns measured at each point.
const RETURNS: u32 = 20;

/// An arena in which so many chunks are live, all of group 1; the first `returned` of those granted
/// have been returned, in the order of a reset.
fn arena(chunks: u32, returned: u32) -> Allocator {
    let mut arena = Allocator::zeroed(words_needed(PAGES));
    arena.init(PAGES).expect("words enough");
    for _ in 0..chunks {
        arena.allocate(1, SIZE).outcome.expect("room");
    }
    for chunk in 0..returned {
        arena.free(1, chunk * SIZE).expect("a live block");
    }
    arena
}

fn words_of(arena: &Allocator) -> Vec<u32> {
    encode(arena.state().expect("a valid state"))
}

/// Nanoseconds of a reset of so many chunks, the fastest of several.
pub fn reset_of(chunks: u32) -> f64 {
    let before = words_of(&arena(chunks, 0));
    let mut words = before.clone();
    let times = (0..REPETITIONS).map(|_| {
        words.copy_from_slice(&before);
        let (time, count) = time_of(|| reset(&mut words, 1));
        assert_eq!(count, Ok(chunks));
        time
    });
    times.fold(f64::INFINITY, f64::min)
}

/// Nanoseconds that returns of so many chunks one by one would take. A return takes the longer the
/// more chunks have been returned before it, so a few are measured at points all along the way, the
/// fastest of each few is taken, and it stands for all returns from that point to the next.
pub fn returns_of(chunks: u32) -> f64 {
    let stretch = chunks / POINTS;
    let at_point = |point: u32| {
        // In the middle of the stretch.
        let returned = point * stretch + stretch / 2;
        let mut words = words_of(&arena(chunks, returned));
        let times = (returned..returned + RETURNS).map(|chunk| {
            let (time, done) = time_of(|| free(&mut words, 1, chunk * SIZE));
            assert_eq!(done, Ok(()));
            time
        });
        times.fold(f64::INFINITY, f64::min)
    };
    (0..POINTS).map(at_point).sum::<f64>() * f64::from(stretch)
}
