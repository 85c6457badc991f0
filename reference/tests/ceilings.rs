//! Document 02's request e): what just meets a ceiling and what passes it, the
//! order of the refusals, ceilings below what is held, and which ceilings are
//! legal. under_ceilings.rs has its histories.

mod common;

use common::mixed::{assert_miscounted, assert_served, mixed};
use common::{grant, runs, started, state};
use reference::calls::{Allocator, Call, Refusal};
use reference::ceilings::{AT_START, MAX_CEILING};
use reference::sizes::{need, words_needed, MAX_SIZE};
use reference::state::State;
use reference::validity::ceilings_are_legal;

/// An arena after its start, with one group's ceiling set.
fn under(pages: u32, group: u32, bytes: u32) -> Allocator {
    let mut allocator = started(pages);
    assert_eq!(allocator.set_ceiling(group, bytes), Ok(()));
    allocator
}

/// Makes a request that is refused before any search, and checks its number,
/// that it looked at no run, and that nothing changed.
fn assert_refused(allocator: &mut Allocator, group: u32, size: u32, refusal: Refusal) {
    let before = allocator.clone();
    let answer = allocator.allocate(group, size);
    assert_eq!(answer.outcome, Err(refusal), "group {group}, {size} bytes");
    assert_eq!(answer.looked, 0, "group {group}, {size} bytes");
    assert_eq!(*allocator, before, "group {group}, {size} bytes");
}

// --- At the ceiling and above it.

#[test]
fn just_the_room_is_granted_and_a_byte_less_refuses() {
    for size in [
        1, 8, 9, 100, 128, 129, 8_191, 8_192, 8_193, 98_304, MAX_SIZE,
    ] {
        let room = need(size).room();
        for held in [0, 8, 104, 8_192]
            .into_iter()
            .filter(|held| held + room <= MAX_CEILING)
        {
            let mut allocator = started(256);
            grant(&mut allocator, 3, held, usize::from(held > 0));
            assert_eq!(allocator.set_ceiling(3, held + room - 1), Ok(()));
            assert_refused(&mut allocator, 3, size, Refusal::OverCeiling);
            assert_eq!(allocator.set_ceiling(3, held + room), Ok(()));
            assert!(allocator.allocate(3, size).outcome.is_ok(), "{size} bytes");
            assert_eq!(state(&allocator).holding(3).held, held + room);
            assert_refused(&mut allocator, 3, 1, Refusal::OverCeiling);
        }
    }
}

#[test]
fn it_is_the_room_that_counts_and_not_the_size() {
    for (size, room) in [
        (1, 8),
        (100, 104),
        (127, 128),
        (4_097, 4_608),
        (9_000, 12_288),
    ] {
        // A ceiling that the size would meet.
        assert_refused(&mut under(24, 1, size), 1, size, Refusal::OverCeiling);
        assert!(under(24, 1, room).allocate(1, size).outcome.is_ok());
    }
}

#[test]
fn ceiling_0_refuses_every_legal_size() {
    let mut allocator = under(24, 12, 0);
    // A zone of class 0 and one of class 63 are at hand.
    grant(&mut allocator, 1, 1, 1);
    grant(&mut allocator, 1, 8_191, 1);
    let before = allocator.clone();
    for size in 1..=MAX_SIZE {
        let answer = allocator.allocate(12, size);
        let expected = (Err(Refusal::OverCeiling), 0);
        assert_eq!((answer.outcome, answer.looked), expected, "{size} bytes");
    }
    assert_eq!(allocator, before);
    assert_refused(&mut allocator, 12, 0, Refusal::Size);
    assert_refused(&mut allocator, 12, MAX_SIZE + 1, Refusal::Size);
}

#[test]
fn a_group_with_the_largest_ceiling_can_have_all_256_pages() {
    let mut allocator = started(256);
    assert_eq!(allocator.allocate(7, MAX_SIZE).outcome, Ok(0));
    assert_refused(&mut allocator, 7, 1, Refusal::OverCeiling);
    let other = allocator.allocate(8, 1);
    assert_eq!((other.outcome, other.looked), (Err(Refusal::NoRun), 0));
}

// --- The order: 3, 4, 5, 10, 6 for a request, and 3, 4, 5 for a setting.

/// 24 pages that are all group 1's, and groups 1 and 2 with ceiling 0.
fn full() -> Allocator {
    let mut allocator = started(24);
    grant(&mut allocator, 1, 98_304, 1);
    assert_eq!(allocator.set_ceiling(1, 0), Ok(()));
    assert_eq!(allocator.set_ceiling(2, 0), Ok(()));
    allocator
}

#[test]
fn a_request_tests_3_4_5_10_6_in_this_order() {
    let mut too_high = state(&full()).clone();
    too_high.ceilings[11] = MAX_CEILING + 1;
    let mut illegal = Allocator::picturing(words_needed(24), too_high);
    for (group, size) in [(13, 0), (1, 0), (1, 1), (12, 1)] {
        assert_refused(&mut illegal, group, size, Refusal::NoLegalState);
    }
    for size in [0, 1, 8_192, MAX_SIZE + 1] {
        assert_refused(&mut full(), 0, size, Refusal::Group);
        assert_refused(&mut full(), 13, size, Refusal::Group);
    }
    for group in [1, 2] {
        assert_refused(&mut full(), group, 0, Refusal::Size);
        assert_refused(&mut full(), group, MAX_SIZE + 1, Refusal::Size);
        assert_refused(&mut full(), group, 1, Refusal::OverCeiling);
        assert_refused(&mut full(), group, 8_192, Refusal::OverCeiling);
        assert_refused(&mut full(), group, MAX_SIZE, Refusal::OverCeiling);
    }
    assert_refused(&mut full(), 3, 1, Refusal::NoRun);
    assert_refused(&mut full(), 3, MAX_SIZE, Refusal::NoRun);
}

#[test]
fn a_setting_tests_3_4_5_in_this_order() {
    for (group, bytes) in [(1, 0), (13, 0), (1, u32::MAX), (0, u32::MAX)] {
        let mut zeroed = Allocator::zeroed(13_568);
        let answer = zeroed.set_ceiling(group, bytes);
        assert_eq!(answer, Err(Refusal::NoLegalState));
    }
    let mut allocator = full();
    let before = allocator.clone();
    for group in [0, 13, 255, 256, 257, u32::MAX] {
        for bytes in [0, 8, MAX_CEILING, MAX_CEILING + 1, u32::MAX] {
            let answer = allocator.set_ceiling(group, bytes);
            assert_eq!(answer, Err(Refusal::Group), "group {group}");
        }
    }
    for group in 1..=12 {
        for bytes in [MAX_CEILING + 1, 2 * MAX_CEILING, u32::MAX] {
            let answer = allocator.set_ceiling(group, bytes);
            assert_eq!(answer, Err(Refusal::Size), "{bytes} bytes");
        }
    }
    assert_eq!(allocator, before);
    for bytes in [0, 1, MAX_CEILING - 1, MAX_CEILING] {
        assert_eq!(allocator.set_ceiling(12, bytes), Ok(()));
        assert_eq!(state(&allocator).ceiling(12), bytes);
    }
}

/// Two zones on the empty list and one on its class's, and no free page: 6
/// would be due after two searches, or pages would come of the zones.
#[test]
fn what_10_refuses_is_not_searched_for() {
    let mut allocator = started(24);
    grant(&mut allocator, 1, 8_191, 9);
    assert_eq!(allocator.reset(1), Ok(9));
    assert_eq!(allocator.set_ceiling(2, 32_767), Ok(()));
    assert_refused(&mut allocator, 2, 32_768, Refusal::OverCeiling);
    let answer = allocator.allocate(3, 32_768);
    assert_eq!((answer.outcome, answer.looked), (Ok(0), 1));
    assert_eq!(runs(&allocator), [(8, 16)]);
}

// --- What a setting changes, and what it leaves.

#[test]
fn a_ceiling_below_what_is_held_takes_nothing_away() {
    let mut allocator = started(24);
    let chunks = grant(&mut allocator, 1, 8_191, 4);
    let block = grant(&mut allocator, 1, 9_000, 1)[0];
    let before = state(&allocator).clone();
    for bytes in [45_055, 8_192, 0] {
        assert_eq!(allocator.set_ceiling(1, bytes), Ok(()));
        let mut expected = before.clone();
        expected.ceilings[0] = bytes;
        assert_eq!(*state(&allocator), expected);
        assert_refused(&mut allocator, 1, 1, Refusal::OverCeiling);
    }
    // Everything else that the group asks for is served.
    assert_eq!(allocator.query(block), Ok((1, 12_288)));
    assert_eq!(allocator.free(1, block), Ok(()));
    assert_eq!(allocator.free(1, chunks[1]), Ok(()));
    assert_eq!(state(&allocator).holding(1).held, 3 * 8_192);
    assert_eq!(allocator.reset(1), Ok(3));
    assert_eq!(allocator.trim(), Ok(1));
    assert_eq!(runs(&allocator), [(0, 24)]);
    assert_eq!(state(&allocator).ceiling(1), 0);
}

#[test]
fn below_what_is_held_blocks_have_to_come_back_first() {
    let mut allocator = started(24);
    let blocks = grant(&mut allocator, 1, 8_192, 4);
    assert_eq!(allocator.set_ceiling(1, 16_384), Ok(()));
    for offset in &blocks[..2] {
        assert_refused(&mut allocator, 1, 8_192, Refusal::OverCeiling);
        assert_eq!(allocator.free(1, *offset), Ok(()));
    }
    // As much is held as the ceiling allows.
    assert_refused(&mut allocator, 1, 1, Refusal::OverCeiling);
    assert_eq!(allocator.free(1, blocks[2]), Ok(()));
    assert_eq!(grant(&mut allocator, 1, 8_192, 1), [0]);
    assert_refused(&mut allocator, 1, 1, Refusal::OverCeiling);
}

#[test]
fn a_setting_changes_one_ceiling_and_nothing_else() {
    for group in 1..=12 {
        let mut allocator = Allocator::picturing(words_needed(64), mixed());
        assert_eq!(allocator.set_ceiling(group, 8), Ok(()));
        let mut expected = mixed();
        expected.ceilings[group as usize - 1] = 8;
        assert_eq!(*state(&allocator), expected);
        // The other groups are granted what they ask for.
        for other in (1..=12).filter(|other| *other != group) {
            let mut allocator = allocator.clone();
            assert!(allocator.allocate(other, 8_191).outcome.is_ok());
            assert!(allocator.allocate(other, 49_152).outcome.is_ok());
        }
        assert_refused(&mut allocator, group, 8_191, Refusal::OverCeiling);
    }
}

#[test]
fn a_start_sets_all_twelve_and_a_refused_one_none() {
    let mut allocator = started(24);
    for group in 1..=12 {
        assert_eq!(allocator.set_ceiling(group, 100 * group), Ok(()));
    }
    let before = allocator.clone();
    assert_eq!(allocator.init(0), Err(Refusal::PageCount));
    assert_eq!(allocator.init(25), Err(Refusal::TooFewWords));
    assert_eq!(allocator, before);
    assert_eq!(allocator.init(23), Ok(()));
    assert_eq!(state(&allocator).ceilings, [1_048_576; 12]);
    assert_eq!(*state(&allocator), State::fresh(23));
    assert_eq!(AT_START, [1_048_576; 12]);
}

#[test]
fn settings_are_served_like_other_calls() {
    let mut allocator = started(24);
    let set = |group, bytes| Call::SetCeiling { group, bytes };
    let calls = [
        (set(1, 0), 0),
        (set(13, MAX_CEILING + 1), 4),
        (set(12, MAX_CEILING + 1), 5),
        (set(12, MAX_CEILING), 0),
        (Call::Allocate { group: 1, size: 1 }, 10),
    ];
    for (call, number) in calls {
        assert_eq!(allocator.serve(call).number(), number, "{call:?}");
    }
}

// --- Legal ceilings.

#[test]
fn ceilings_above_the_largest_are_not_legal() {
    assert_miscounted(
        ceilings_are_legal,
        &[
            |state| state.ceilings[0] = 1_048_577,
            |state| state.ceilings[6] = 2_097_152,
            |state| state.ceilings[11] = 1_048_577,
            |state| state.ceilings[11] = u32::MAX,
            |state| state.ceilings = [1_048_577; 12],
        ],
    );
}

#[test]
fn every_other_ceiling_is_legal_whatever_is_held() {
    let held = mixed().holding(1).held;
    for bytes in [0, 1, held - 1, held, held + 1, 64 * 4_096 + 1, 1_048_575] {
        // Of group 1, which holds something, and of group 4, which doesn't.
        for at in [0, 3] {
            let mut state = mixed();
            state.ceilings[at] = bytes;
            assert_served(state);
        }
        assert_served(mixed().with_ceilings([bytes; 12]));
        assert_served(State::fresh(1).with_ceilings([bytes; 12]));
    }
}
