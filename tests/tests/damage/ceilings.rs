//! The groups' ceilings, each of the twelve words: up to 1,048,576 every number is a ceiling, whatever
//! the group holds, and above that none is. On words with such a one every call but an init is refused
//! by 3 and changes nothing.

use crate::figures::{refuse, serve, states};
use reference::ceilings::MAX_CEILING;
use reference::histories::Xorshift;
use reference::state::State;
use tests::check::check;
use tests::layout::{encode, CEILINGS, HELD};
use tests::pair::Pair;

/// A state's words with one group's ceiling changed, and a name for them.
fn with(state: &State, group: usize, bytes: u32) -> (Vec<u32>, String) {
    let mut words = encode(state);
    words[CEILINGS.start + group] = bytes;
    let told = format!(
        "{} pages, ceiling of group {}: {bytes}",
        state.pages,
        group + 1
    );
    (words, told)
}

/// Not even the setting that would put it right is served.
#[test]
fn a_ceiling_above_the_largest_is_no_state() {
    for state in states() {
        for group in 0..CEILINGS.len() {
            for bytes in [MAX_CEILING + 1, 2 * MAX_CEILING, u32::MAX] {
                let (words, told) = with(&state, group, bytes);
                let mut pair = Pair::over(words.clone());
                assert_eq!(pair.set_ceiling(group as u32 + 1, 0), Err(3), "{told}");
                refuse(words, &state, &told);
            }
        }
    }
}

/// Nothing, one byte less than is held, just that, one byte more, and the largest.
#[test]
fn a_ceiling_up_to_the_largest_is_a_state_whatever_is_held() {
    let (mut below, mut just) = (0, 0);
    for state in states() {
        for group in 0..CEILINGS.len() {
            let held = encode(&state)[HELD.start + group];
            let near = [held.saturating_sub(1), held, MAX_CEILING.min(held + 1)];
            for bytes in near.into_iter().chain([0, MAX_CEILING - 1, MAX_CEILING]) {
                let (words, told) = with(&state, group, bytes);
                serve(words, &state, &told);
                below += u32::from(bytes < held);
                just += u32::from(bytes == held && held > 0);
            }
        }
    }
    assert!(below >= 150 && just >= 80, "{below}, {just}");
}

/// Every number that a single bit makes, and those bits beside the largest ceiling's own.
#[test]
fn each_bit_of_a_ceiling_is_read() {
    for state in states() {
        for group in 0..CEILINGS.len() {
            for bit in 0..32 {
                for bytes in [1 << bit, MAX_CEILING | 1 << bit, MAX_CEILING ^ 1 << bit] {
                    let (mut words, told) = with(&state, group, bytes);
                    let legal = u32::from(bytes <= MAX_CEILING);
                    assert_eq!(check(&mut words), legal, "{told}");
                }
            }
        }
    }
}

/// All twelve ceilings anything at once, and then one of them too large.
#[test]
fn twelve_ceilings_are_a_state_only_if_each_is_one() {
    let mut random = Xorshift::new(33);
    for state in states() {
        for _ in 0..12 {
            let ceilings = [(); 12].map(|()| random.below(MAX_CEILING + 1));
            let state = state.clone().with_ceilings(ceilings);
            serve(encode(&state), &state, "twelve ceilings");
            let group = random.below(12) as usize;
            let above = MAX_CEILING + 1 + random.below(u32::MAX - MAX_CEILING);
            let (words, told) = with(&state, group, above);
            refuse(words, &state, &told);
        }
    }
}
