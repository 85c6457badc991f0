//! A state with a bit of everything, to be served or to be broken.

use reference::calls::Allocator;
use reference::holdings::Holdings;
use reference::sizes::words_needed;
use reference::state::{no_lists, DirectBlock, Run, State, Zone};
use reference::validity::is_valid;
use std::collections::{BTreeMap, VecDeque};

/// A zone of class 63 with its four owners (0 for a chunk that isn't live),
/// its k and its chain.
pub fn zone(owners: [u8; 4], handed_out: u32, chain: &[u32]) -> Zone {
    Zone {
        class: 63,
        handed_out,
        owners: owners.map(|group| Some(group).filter(|&g| g > 0)).to_vec(),
        chain: chain.iter().copied().collect(),
    }
}

/// 64 pages with a bit of everything: on class 63 a full zone at 0, zones
/// with room at 8 and 16, and two on the empty list at 24 and 32; direct
/// blocks at 40 and 42; runs 45 5 and 52 12 around a direct block at 50.
pub fn mixed() -> State {
    let zones = BTreeMap::from([
        (0, zone([1, 2, 3, 12], 4, &[])),
        (8, zone([0, 5, 0, 0], 3, &[0, 2])),
        (16, zone([7, 0, 0, 0], 1, &[])),
        (24, zone([0, 0, 0, 0], 4, &[3, 1, 0, 2])),
        (32, zone([0, 0, 0, 0], 1, &[0])),
    ]);
    let direct = [(40, 2, 1), (42, 3, 12), (50, 2, 6)]
        .map(|(start, pages, group)| (start, DirectBlock { pages, group }));
    let mut lists = no_lists();
    lists[63] = VecDeque::from([16, 8]);
    State::from_parts(
        64,
        vec![run(45, 5), run(52, 12)],
        BTreeMap::from(direct),
        zones,
        lists,
        VecDeque::from([24, 32]),
        Holdings::default(),
    )
    .recounted()
}

pub fn run(start: u32, pages: u32) -> Run {
    Run { start, pages }
}

/// Checks that the state is legal and that its books are served.
pub fn assert_served(state: State) {
    assert!(is_valid(&state), "{state:?}");
    let words = words_needed(state.pages);
    let allocator = Allocator::picturing(words, state.clone());
    assert_eq!(allocator.state(), Some(&state));
}

/// Breaks the mixed state, and checks that the clause and the whole say so.
/// The figures agree with the blocks all the same.
pub fn assert_broken(clause: fn(&State) -> bool, breaks: &[fn(&mut State)]) {
    assert_broken_as(clause, breaks, State::recounted);
}

/// The same with figures that stay as they were or as a break leaves them.
pub fn assert_miscounted(clause: fn(&State) -> bool, breaks: &[fn(&mut State)]) {
    assert_broken_as(clause, breaks, |state| state);
}

fn assert_broken_as(
    clause: fn(&State) -> bool,
    breaks: &[fn(&mut State)],
    finish: fn(State) -> State,
) {
    assert!(clause(&mixed()) && is_valid(&mixed()));
    for (at, spoil) in breaks.iter().enumerate() {
        let mut state = mixed();
        spoil(&mut state);
        let state = finish(state);
        assert!(!clause(&state), "case {at}");
        assert!(!is_valid(&state), "case {at}");
        let words = words_needed(256);
        assert_eq!(Allocator::picturing(words, state).state(), None);
    }
}
