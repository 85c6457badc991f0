//! What several test files need: runs of the bench program, and allocators
//! brought to a state. Not every file uses all of it.
#![allow(dead_code)]

pub mod mixed;

use reference::bench::{run, WORDS};
use reference::calls::Allocator;
use reference::sizes::words_needed;
use reference::state::{Run, State};

/// What the bench program writes for an input.
pub fn bench_bytes(input: &[u8]) -> Vec<u8> {
    let mut output = Vec::new();
    run(WORDS, &mut &*input, &mut output).expect("memory takes every byte");
    output
}

/// The same for text.
pub fn bench(input: &str) -> String {
    String::from_utf8(bench_bytes(input.as_bytes())).expect("answers are ASCII")
}

/// An arena of so many pages after its start, on books just long enough.
pub fn started(pages: u32) -> Allocator {
    let mut allocator = Allocator::zeroed(words_needed(pages));
    assert_eq!(allocator.init(pages), Ok(()));
    allocator
}

/// The state that the allocator's books picture.
pub fn state(allocator: &Allocator) -> &State {
    allocator.state().expect("the books picture a legal state")
}

/// Grants of one size to one group; answers their offsets.
pub fn grant(allocator: &mut Allocator, group: u32, size: u32, times: usize) -> Vec<u32> {
    let grants = (0..times).map(|_| allocator.allocate(group, size).outcome);
    grants.collect::<Result<_, _>>().expect("there is room")
}

/// The free runs as pairs of start and page count.
pub fn runs(allocator: &Allocator) -> Vec<(u32, u32)> {
    let pair = |run: &Run| (run.start, run.pages);
    state(allocator).runs.iter().map(pair).collect()
}

/// A class's list, front first.
pub fn list(allocator: &Allocator, class: u32) -> Vec<u32> {
    state(allocator).list(class).iter().copied().collect()
}

/// The empty list, front first.
pub fn empty(allocator: &Allocator) -> Vec<u32> {
    state(allocator).empty.iter().copied().collect()
}

/// The whole listing.
pub fn text(allocator: &Allocator) -> String {
    allocator.listing(usize::MAX).expect("a legal state")
}
