//! Document 01's "A legal state is": odd states that are legal, and at least
//! one state for each clause that is broken. figures.rs has the clauses on the
//! groups' figures, and ceilings.rs the one on their ceilings.

mod common;

use common::mixed::{assert_broken, assert_served, mixed, run, zone};
use reference::calls::Allocator;
use reference::sizes::words_needed;
use reference::state::{DirectBlock, State, Zone};
use reference::validity::*;
use std::collections::VecDeque;

/// Puts a zone that belongs on no list at a page.
fn put_full_zone(state: &mut State, start: u32) {
    state.zones.insert(start, zone([1; 4], 4, &[]));
}

// --- Legal, though no call makes some of them.

#[test]
fn fresh_states_and_the_mixed_one_are_legal() {
    for pages in 1..=256 {
        assert_served(State::fresh(pages));
    }
    assert_served(mixed());
}

#[test]
fn direct_blocks_of_one_page_are_legal_and_come_back() {
    let mut state = State::fresh(2);
    state.runs = vec![run(1, 1)];
    let block = DirectBlock { pages: 1, group: 3 };
    state.direct.insert(0, block);
    let state = state.recounted();
    assert_served(state.clone());
    let mut allocator = Allocator::picturing(words_needed(2), state);
    assert_eq!(allocator.query(0), Ok((3, 4_096)));
    assert_eq!(allocator.free(3, 0), Ok(()));
    let mut left = State::fresh(2);
    left.holdings[2].greatest = 4_096;
    assert_eq!(allocator.state(), Some(&left));
}

#[test]
fn zones_with_nothing_handed_out_are_legal_and_serve() {
    let mut state = State::fresh(8);
    state.runs.clear();
    state.zones.insert(0, Zone::set_up(63));
    for on_the_empty_list in [false, true] {
        let mut state = state.clone();
        match on_the_empty_list {
            false => state.lists[63].push_front(0),
            true => state.empty.push_front(0),
        }
        assert_served(state.clone());
        let mut allocator = Allocator::picturing(words_needed(8), state);
        assert_eq!(allocator.allocate(1, 8_191).outcome, Ok(0));
    }
}

/// Three idle zones on one class's list, in this order, and no free page.
fn idle_zones(order: [u32; 3]) -> State {
    let mut state = State::fresh(24);
    state.runs.clear();
    state.lists[63] = VecDeque::from(order);
    for start in order {
        state.zones.insert(start, zone([0; 4], 2, &[1, 0]));
    }
    state
}

#[test]
fn several_idle_zones_on_one_list_are_legal_in_any_order() {
    for order in [[0, 8, 16], [16, 0, 8], [8, 16, 0]] {
        assert_served(idle_zones(order));
        let words = words_needed(24);
        let mut allocator = Allocator::picturing(words, idle_zones(order));
        // The front one serves, at its k.
        let offset = order[0] * 4_096 + 2 * 8_192;
        assert_eq!(allocator.allocate(1, 8_191).outcome, Ok(offset));
        assert_eq!(allocator.free(1, offset), Ok(()));
        assert_eq!(common::empty(&allocator), order[..1]);
        assert_eq!(common::list(&allocator, 63), order[1..]);
        assert_eq!(allocator.trim(), Ok(3));
        let mut left = State::fresh(24);
        left.holdings[0].greatest = 8_192;
        assert_eq!(allocator.state(), Some(&left));
    }
}

#[test]
fn an_idle_zone_on_the_empty_list_alone_in_its_class_is_legal() {
    let mut state = idle_zones([0, 8, 16]);
    state.lists[63] = VecDeque::from([8]);
    state.empty = VecDeque::from([16, 0]);
    assert_served(state.clone());
    state.zones.get_mut(&16).unwrap().chain = VecDeque::from([0, 1]);
    assert_served(state);
}

// --- One state, or a few, for each clause.

#[test]
fn page_counts_out_of_range() {
    assert_broken(
        page_count_is_legal,
        &[
            |state| *state = State::fresh(0),
            |state| *state = State::fresh(257),
            |state| *state = State::fresh(u32::MAX),
        ],
    );
}

#[test]
fn runs_out_of_order_overlapping_touching_or_empty() {
    assert_broken(
        runs_are_apart,
        &[
            |state| state.runs.reverse(),
            |state| state.runs[0].pages = 8,
            |state| state.runs = vec![run(45, 5), run(52, 6), run(58, 6)],
            |state| state.runs.insert(0, run(41, 0)),
            |state| state.runs[0].pages = u32::MAX,
        ],
    );
}

#[test]
fn direct_blocks_without_a_page_or_a_group() {
    assert_broken(
        direct_blocks_are_legal,
        &[
            |state| state.direct.get_mut(&40).unwrap().group = 0,
            |state| state.direct.get_mut(&42).unwrap().group = 13,
            |state| {
                let block = DirectBlock { pages: 0, group: 1 };
                state.direct.insert(46, block);
            },
        ],
    );
}

#[test]
fn zones_without_a_class_or_with_too_much_handed_out() {
    assert_broken(
        zones_have_their_form,
        &[
            |state| state.zones.get_mut(&8).unwrap().class = 64,
            |state| state.zones.get_mut(&8).unwrap().class = u32::MAX,
            |state| state.zones.get_mut(&0).unwrap().handed_out = 5,
            |state| state.zones.get_mut(&0).unwrap().handed_out = u32::MAX,
            |state| state.zones.get_mut(&16).unwrap().owners.push(None),
            |state| state.zones.get_mut(&16).unwrap().owners.truncate(3),
        ],
    );
}

#[test]
fn chunks_below_k_neither_live_nor_once_on_the_chain() {
    assert_broken(
        handed_out_chunks_are_live_or_chained,
        &[
            |state| state.zones.get_mut(&0).unwrap().owners[2] = Some(0),
            |state| state.zones.get_mut(&0).unwrap().owners[2] = Some(13),
            |state| state.zones.get_mut(&0).unwrap().owners[2] = None,
            // Missing from the chain, live and on it, twice on it.
            |state| state.zones.get_mut(&8).unwrap().chain = VecDeque::from([2]),
            |state| state.zones.get_mut(&8).unwrap().chain = VecDeque::from([0, 1, 2]),
            |state| state.zones.get_mut(&8).unwrap().chain = VecDeque::from([0, 2, 0]),
            |state| state.zones.get_mut(&8).unwrap().chain = VecDeque::from([0, 0]),
        ],
    );
}

#[test]
fn chunks_from_k_up_live_or_on_the_chain() {
    assert_broken(
        other_chunks_are_untouched,
        &[
            |state| state.zones.get_mut(&8).unwrap().owners[3] = Some(5),
            |state| state.zones.get_mut(&8).unwrap().chain.push_back(3),
            |state| state.zones.get_mut(&8).unwrap().chain.push_back(4),
            |state| state.zones.get_mut(&8).unwrap().chain.push_front(u32::MAX),
            |state| state.zones.get_mut(&16).unwrap().handed_out = 0,
        ],
    );
}

#[test]
fn pages_covered_twice_or_not_at_all() {
    assert_broken(
        pages_are_covered_once,
        &[
            |state| state.pages = 63,
            |state| state.pages = 65,
            |state| state.runs[0].pages = 4,
            |state| state.runs[0].start = 44,
            |state| state.runs[1].pages = 13,
            |state| state.runs.truncate(1),
            |state| state.direct.retain(|&start, _| start != 40),
            |state| state.zones.retain(|&start, _| start != 0),
            |state| state.direct.get_mut(&42).unwrap().pages = 4,
            |state| state.direct.get_mut(&42).unwrap().pages = u32::MAX,
            |state| put_full_zone(state, 58),
            |state| put_full_zone(state, 4),
        ],
    );
}

#[test]
fn zones_on_a_list_that_is_not_theirs() {
    assert_broken(
        lists_hold_their_class,
        &[
            |state| state.lists.truncate(63),
            |state| state.lists.push(VecDeque::new()),
            // A full zone, another class's zone, pages that are no zone.
            |state| state.lists[63].push_back(0),
            |state| state.lists.swap(62, 63),
            |state| state.lists[63].push_back(40),
            |state| state.lists[63].push_back(9),
            |state| state.lists[0].push_back(u32::MAX),
        ],
    );
}

#[test]
fn empty_lists_too_long_or_with_a_live_chunk() {
    assert_broken(
        empty_list_is_legal,
        &[
            |state| {
                state.zones.insert(16, zone([0; 4], 0, &[]));
                state.lists[63] = VecDeque::from([8]);
                state.empty.push_front(16);
            },
            |state| {
                state.lists[63] = VecDeque::from([8]);
                state.empty = VecDeque::from([16, 32]);
            },
            |state| state.empty = VecDeque::from([24, 40]),
        ],
    );
}

#[test]
fn zones_with_room_on_no_list() {
    assert_broken(
        zones_with_room_are_listed,
        &[
            |state| state.lists[63] = VecDeque::from([8]),
            |state| state.lists[63] = VecDeque::from([16]),
            |state| state.empty = VecDeque::from([32]),
            |state| state.lists.clear(),
        ],
    );
}

#[test]
fn zones_standing_twice() {
    assert_broken(
        no_zone_stands_twice,
        &[
            |state| state.lists[63].push_back(8),
            |state| state.lists[63].push_back(24),
            |state| state.lists[62].push_back(16),
            |state| state.empty = VecDeque::from([24, 24]),
        ],
    );
}
