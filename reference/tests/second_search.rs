//! Document 02's request a) on histories, said in another way than the second
//! program does it: a request that needs pages which no run has is answered
//! as it is after a tidy, and leaves what it leaves then. If it is refused
//! there too, everything stays. Any other request gives no zone back.

mod common;

use common::{started, state};
use reference::calls::{Allocator, Answer, Call, Refusal};
use reference::histories::{History, Profile};
use reference::lines::render;
use reference::sizes::DIRECT_FROM;
use reference::state::State;

/// How often a request has come to each end.
#[derive(Debug, Default)]
struct Ends {
    blocks_found: u32,
    blocks_refused: u32,
    blocks_refused_with_idle_zones: u32,
    zones_found: u32,
    zones_refused: u32,
    several_given_back: u32,
    idle_zones_kept: u32,
}

/// The starts of the zones without a live chunk.
fn idle_zones(state: &State) -> Vec<u32> {
    let zones = state.zones.iter();
    let idle = zones.filter(|(_, zone)| zone.is_idle());
    idle.map(|(&start, _)| start).collect()
}

/// Whether this many pages are free in a row.
fn has_run(state: &State, pages: u32) -> bool {
    state.runs.iter().any(|run| run.pages >= pages)
}

/// Checks what a request of a legal group and size has answered and left.
fn check(ends: &mut Ends, before: &Allocator, call: Call, answer: &Answer, after: &Allocator) {
    let size = match call {
        Call::Allocate { size, .. } => size,
        _ => return,
    };
    let idle = idle_zones(state(before));
    let is_block = size >= DIRECT_FROM;
    match state(before).pages_needed(size) {
        Some(pages) if !has_run(state(before), pages) => {
            let mut tidied = before.clone();
            assert_eq!(tidied.trim(), Ok(idle.len() as u32));
            assert_eq!(render(&tidied.serve(call)), render(answer), "{call:?}");
            let refused = answer.refusal() == Some(Refusal::NoRun);
            let left = if refused { before } else { &tidied };
            assert_eq!(after, left, "{call:?}");
            assert!(refused || idle_zones(state(after)).is_empty(), "{call:?}");
            match (is_block, refused) {
                (true, true) => {
                    ends.blocks_refused += 1;
                    ends.blocks_refused_with_idle_zones += u32::from(!idle.is_empty());
                }
                (true, false) => ends.blocks_found += 1,
                (false, true) => {
                    assert!(idle.is_empty(), "an idle zone has 8 pages: {call:?}");
                    ends.zones_refused += 1;
                }
                (false, false) => ends.zones_found += 1,
            }
            ends.several_given_back += u32::from(!refused && idle.len() > 1);
        }
        _ => {
            let zones = &state(after).zones;
            assert!(idle.iter().all(|start| zones.contains_key(start)));
            ends.idle_zones_kept += u32::from(!idle.is_empty());
        }
    }
}

/// Follows histories of every profile on arenas of so many pages.
fn follow(pages: u32, seeds: u64) -> Ends {
    let mut ends = Ends::default();
    for profile in Profile::ALL {
        for seed in 0..seeds {
            let mut allocator = started(pages);
            let mut history = History::with(profile, seed);
            for _ in 0..400 {
                let call = history.next_call();
                let before = allocator.clone();
                let answer = allocator.serve(call);
                history.observe(&call, &answer);
                let granted = matches!(answer, Answer::Granted { .. });
                if granted || answer.refusal() == Some(Refusal::NoRun) {
                    check(&mut ends, &before, call, &answer, &allocator);
                }
            }
        }
    }
    ends
}

/// Every end is met so often or more.
fn expect(pages: u32, least: u32, ends: &Ends) {
    let all = [
        ends.blocks_found,
        ends.blocks_refused,
        ends.blocks_refused_with_idle_zones,
        ends.zones_found,
        ends.zones_refused,
        ends.several_given_back,
        ends.idle_zones_kept,
    ];
    let met = all.iter().all(|&times| times >= least);
    assert!(met, "{pages} pages: {ends:?}");
}

#[test]
fn a_request_without_a_run_is_answered_as_after_a_tidy() {
    for pages in [24, 32, 64, 128, 255, 256] {
        expect(pages, 30, &follow(pages, 10));
    }
}

#[test]
fn in_the_smallest_arenas_too() {
    for pages in [1, 2, 7, 8, 9, 16] {
        let ends = follow(pages, 3);
        assert_eq!(ends.zones_found > 0, pages >= 8, "{pages} pages: {ends:?}");
    }
}

/// Idle zones that no call leaves so: several on one class's list.
#[test]
fn several_idle_zones_on_one_list_are_all_given_back() {
    let mut allocator = started(24);
    common::grant(&mut allocator, 1, 8_191, 9);
    assert_eq!(allocator.reset(1), Ok(9));
    let mut odd = state(&allocator).clone();
    let empty: Vec<u32> = odd.empty.drain(..).collect();
    odd.lists[63].extend(empty);
    assert_eq!(odd.list(63).len(), 3);
    let mut allocator = Allocator::picturing(allocator.words(), odd);
    let mut other = allocator.clone();
    // No other class is served by that list, and the empty list is empty.
    assert_eq!(allocator.allocate(2, 100).outcome, Ok(0));
    assert_eq!(common::runs(&allocator), [(8, 16)]);
    assert_eq!(common::list(&allocator, 63), []);
    assert_eq!(common::list(&allocator, 12), [0]);
    // Its own class is, and nothing is given back.
    assert_eq!(other.allocate(2, 8_191).outcome, Ok(73_728));
    assert_eq!(common::list(&other, 63).len(), 3);
    assert_eq!(common::runs(&other), []);
}
