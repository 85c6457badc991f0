//! The states that calls reach: legal every one, live blocks apart, live
//! exactly what the answers made live, and the ceilings those that were set.

mod common;

use common::{started, state};
use reference::calls::{Answer, Call};
use reference::ceilings::AT_START;
use reference::histories::{Granted, History};
use reference::state::{State, Zone};
use reference::validity::is_valid;

/// Checks a reached state: legal, live blocks apart and inside the arena, live
/// exactly what the answers made live, and the ceilings those that were set.
fn assert_sound(state: &State, history: &History) {
    assert!(is_valid(state), "{state:?}");
    let blocks = state.live_blocks();
    for pair in blocks.windows(2) {
        assert!(pair[0].offset + pair[0].room <= pair[1].offset);
    }
    if let Some(last) = blocks.last() {
        assert!(last.offset + last.room <= state.pages * 4_096);
    }
    let mut granted = history.live().to_vec();
    granted.sort_by_key(|block| block.offset);
    let found = blocks.iter().map(|block| Granted {
        group: u32::from(block.group),
        offset: block.offset,
        room: block.room,
    });
    assert_eq!(found.collect::<Vec<_>>(), granted);
    assert_eq!(state.ceilings, *history.ceilings());
}

/// How often the histories have passed through what the rules are about.
#[derive(Debug, Default)]
struct Passed {
    full_zones: u32,
    set_up_anew: u32,
    third_given_back: u32,
    grants: u32,
    refusals: u32,
}

impl Passed {
    fn note(&mut self, before: &State, call: Call, answer: &Answer, after: &State) {
        let is_allocate = matches!(call, Call::Allocate { .. });
        let is_free = matches!(call, Call::Free { .. });
        let as_many = after.zones.len() == before.zones.len();
        let from_empty = is_allocate && as_many && after.empty.len() < before.empty.len();
        let zone_went = is_free && after.zones.len() < before.zones.len();
        self.full_zones += u32::from(after.zones.values().any(Zone::is_full));
        self.set_up_anew += u32::from(from_empty);
        self.third_given_back += u32::from(zone_went);
        self.grants += u32::from(matches!(answer, Answer::Granted { .. }));
        self.refusals += u32::from(answer.refusal().is_some());
    }
}

#[test]
fn every_state_that_calls_reach_is_legal_and_blocks_are_apart() {
    let mut passed = Passed::default();
    for pages in [1, 2, 7, 8, 9, 24, 25, 32, 64, 128, 255, 256] {
        for seed in 0..3 {
            let mut allocator = started(pages);
            let mut history = History::new(seed);
            for _ in 0..400 {
                let before = state(&allocator).clone();
                let call = history.next_call();
                let answer = allocator.serve(call);
                history.observe(&call, &answer);
                assert_sound(state(&allocator), &history);
                passed.note(&before, call, &answer, state(&allocator));
            }
        }
    }
    let Passed {
        full_zones,
        set_up_anew,
        third_given_back,
        grants,
        refusals,
    } = passed;
    assert!(full_zones > 1_000 && set_up_anew > 10, "{passed:?}");
    assert!(third_given_back > 5, "{passed:?}");
    assert!(grants > 1_000 && refusals > 1_000, "{passed:?}");
}

#[test]
fn all_returned_and_tidied_leave_the_fresh_state_but_for_greatest_figures_and_ceilings() {
    let mut have_held = 0;
    for seed in 0..20 {
        let mut allocator = started(64);
        let mut history = History::new(seed);
        for _ in 0..300 {
            let call = history.next_call();
            let answer = allocator.serve(call);
            history.observe(&call, &answer);
        }
        let live = history.live().len() as u32;
        let returned: u32 = (1..=12).map(|group| allocator.reset(group).unwrap()).sum();
        assert_eq!(returned, live);
        allocator.trim().unwrap();
        let mut left = state(&allocator).clone();
        for holding in &mut left.holdings {
            have_held += u32::from(holding.greatest > 0);
            holding.greatest = 0;
        }
        assert_eq!(left.ceilings, *history.ceilings());
        left.ceilings = AT_START;
        assert_eq!(left, State::fresh(64));
    }
    assert!(have_held > 20 * 10, "{have_held} groups of all histories");
}

#[test]
fn a_reset_of_more_than_100_000_chunks() {
    let mut allocator = started(256);
    let chunks = 32 * 4_096;
    assert_eq!(common::grant(&mut allocator, 9, 1, chunks).len(), chunks);
    assert_eq!(allocator.reset(9), Ok(chunks as u32));
    assert!(is_valid(state(&allocator)));
    // One zone stays on its list, two on the empty list; the others went.
    assert_eq!(common::list(&allocator, 0), [0]);
    assert_eq!(common::empty(&allocator), [16, 8]);
    assert_eq!(common::runs(&allocator), [(24, 232)]);
}
