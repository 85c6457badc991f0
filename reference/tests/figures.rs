//! Document 02's request c) on legal states: which figures agree with the
//! blocks, for each of its clauses, and that greatest figures between their
//! bounds are served and stay.

mod common;

use common::mixed::{assert_miscounted, assert_served, mixed};
use reference::calls::Allocator;
use reference::sizes::words_needed;
use reference::validity::*;

#[test]
fn blocks_that_are_not_as_many_as_the_figures_say() {
    assert_miscounted(
        live_blocks_are_counted,
        &[
            |state| state.holdings[0].blocks += 1,
            |state| state.holdings[0].blocks -= 1,
            |state| state.holdings[3].blocks = 1,
            |state| state.holdings[11].blocks = u32::MAX,
            // As many together, but not by group; and another group's block.
            |state| state.holdings.swap(0, 1),
            |state| state.zones.get_mut(&0).unwrap().owners[0] = Some(2),
            |state| state.direct.get_mut(&40).unwrap().group = 2,
            // A block that comes, one that goes, and one of no group.
            |state| state.zones.get_mut(&16).unwrap().owners[1] = Some(7),
            |state| state.zones.get_mut(&16).unwrap().owners[0] = None,
            |state| state.direct.get_mut(&40).unwrap().group = 0,
            |state| state.direct.get_mut(&40).unwrap().group = 13,
        ],
    );
}

#[test]
fn rooms_that_are_not_what_the_figures_say() {
    assert_miscounted(
        held_bytes_are_added_up,
        &[
            |state| state.holdings[0].held += 1,
            |state| state.holdings[0].held -= 8_192,
            |state| state.holdings[3].held = 8,
            |state| state.holdings[11].held = u32::MAX,
            // 8,191 bytes asked for in place of the room.
            |state| state.holdings[6].held = 8_191,
            // The same blocks, with other rooms.
            |state| state.zones.get_mut(&16).unwrap().class = 62,
            |state| state.direct.get_mut(&42).unwrap().pages = 2,
            |state| state.direct.get_mut(&42).unwrap().pages = u32::MAX,
            |state| state.zones.get_mut(&0).unwrap().class = u32::MAX,
        ],
    );
}

#[test]
fn greatest_figures_below_the_held_ones_or_above_the_arena() {
    assert_miscounted(
        greatest_figures_are_legal,
        &[
            |state| state.holdings[0].greatest = 0,
            |state| state.holdings[0].greatest = state.holdings[0].held - 1,
            |state| state.holdings[0].greatest = 64 * 4_096 + 1,
            |state| state.holdings[3].greatest = 64 * 4_096 + 1,
            |state| state.holdings[11].greatest = u32::MAX,
            |state| state.holdings[11].held = u32::MAX,
        ],
    );
}

#[test]
fn every_greatest_figure_between_is_legal_and_stays() {
    let held = mixed().holding(1).held;
    for greatest in [held, held + 1, 100_000, 64 * 4_096 - 1, 64 * 4_096] {
        let mut state = mixed();
        state.holdings[0].greatest = greatest;
        // Of a group that holds nothing, too.
        state.holdings[3].greatest = greatest;
        assert_served(state.clone());
        let mut allocator = Allocator::picturing(words_needed(64), state);
        assert_eq!(allocator.reset(1), Ok(2));
        let left = common::state(&allocator);
        assert_eq!(
            [1, 4].map(|group| left.holding(group).greatest),
            [greatest; 2]
        );
        assert_eq!(left.holding(1).held, 0);
    }
}
