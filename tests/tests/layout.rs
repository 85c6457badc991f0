//! The second reading of the metadata words by itself: words and states go back and forth without
//! loss, and no other words are taken for a state.

use reference::histories::Xorshift;
use reference::sizes::{CLASSES, MAX_PAGES};
use reference::state::{State, Zone};
use reference::validity::is_valid;
use std::collections::HashMap;
use tests::counts::Counts;
use tests::layout::{decode, encode, used_words, MAGIC};
use tests::states::{odd, reached, Plan};
use tests::zones::{any_zone, zone_with};

/// States from histories and odd ones, of every size an arena can have.
fn many_states() -> Vec<State> {
    let sizes = (1..=40).chain([63, 64, 100, 128, 200, 255, 256]);
    let states_of = |pages: u32| {
        (0..12).flat_map(move |seed| {
            let seed = seed + 100 * u64::from(pages);
            [
                reached(pages, 25 * (seed % 12) as u32, seed),
                odd(pages, seed),
            ]
        })
    };
    sizes.flat_map(states_of).collect()
}

/// States of a page or a few, each with something of its own.
fn small_states() -> Vec<State> {
    let zone = |class, is_live: &[bool]| Plan::new().zone(zone_with(class, is_live));
    let plans = vec![
        Plan::new().run(1),
        Plan::new().direct(1, 12),
        Plan::new().run(1).direct(1, 3).run(1),
        Plan::new().direct(1, 1).direct(1, 1).run(2),
        zone(63, &[]),
        zone(63, &[true, false, true]),
        zone(63, &[true; 4]).direct(1, 2),
        zone(12, &[false; 9]).run(1),
        Plan::new().empty_zone(zone_with(62, &[false, false])),
    ];
    plans.into_iter().map(Plan::assemble).collect()
}

#[test]
fn decoding_an_encoding_gives_the_state_back() {
    let mut random = Xorshift::new(1);
    for state in many_states() {
        assert!(is_valid(&state), "the generator made {state:?}");
        let mut words = encode(&state);
        assert_eq!(words.len(), used_words(state.pages));
        assert!(decode(&words[..words.len() - 1]).is_none());
        assert_eq!(decode(&words).as_ref(), Some(&state));
        words.extend((0..random.below(600)).map(|_| random.draw() as u32));
        assert_eq!(decode(&words), Some(state), "later words were read");
    }
}

#[test]
fn different_states_have_different_encodings() {
    let mut seen: HashMap<Vec<u32>, State> = HashMap::new();
    for state in many_states().into_iter().chain(neighbours()) {
        let words = encode(&state);
        let other = seen.entry(words).or_insert_with(|| state.clone());
        assert_eq!(*other, state);
    }
    assert!(seen.len() > 900, "only {} states differ", seen.len());
}

/// States that differ from each other in one thing, and in none that a listing would show.
fn neighbours() -> Vec<State> {
    let mut states = Vec::new();
    for seed in 0..40 {
        let mut random = Xorshift::new(seed);
        let zone = any_zone(random.below(CLASSES), &mut random);
        let mut state = Plan::new().zone(zone.clone()).zone(zone).run(1).assemble();
        states.push(state.clone());
        for list in &mut state.lists {
            list.rotate_left(1.min(list.len()));
        }
        states.push(state.clone());
        let changed = state.zones.get_mut(&8).expect("the second zone is there");
        changed.chain.rotate_left(1.min(changed.chain.len()));
        states.push(state.clone());
        state.ceilings[seed as usize % 12] -= 1;
        states.push(state);
    }
    states
}

#[test]
fn all_zero_words_encode_nothing() {
    let zeros = vec![0; used_words(MAX_PAGES) + 1_000];
    for count in 0..3_000 {
        assert!(decode(&zeros[..count]).is_none());
    }
    for pages in 0..=MAX_PAGES {
        for count in [0, 1, 2].map(|more| used_words(pages) + more - 1) {
            assert!(decode(&zeros[..count]).is_none());
        }
    }
    assert!(decode(&zeros).is_none());
}

#[test]
fn a_damaged_word_makes_no_state_or_the_state_of_those_words() {
    let mut random = Xorshift::new(2);
    let (mut none, mut some) = (0, 0);
    for state in small_states() {
        let mut words = encode(&state);
        for at in 0..words.len() {
            let old = words[at];
            let near = [
                old.wrapping_add(1),
                old.wrapping_sub(1),
                random.draw() as u32,
            ];
            for value in [0, 1, 2, 3, 4, 12, 13, 14, 15, 16].into_iter().chain(near) {
                words[at] = value;
                match decode(&words) {
                    None => none += 1,
                    Some(found) => {
                        some += 1;
                        // Not equal: a smaller N leaves the last words unread.
                        assert!(is_valid(&found) && words.starts_with(&encode(&found)));
                        assert_eq!(found == state, value == old);
                    }
                }
            }
            words[at] = old;
        }
    }
    // Every word that is 0 was once set to 0, and other groups and counts are legal too.
    assert!(none > 100_000 && some > 10_000, "{none} and {some}");
}

/// Words that are zero but for the ceilings of a start, the magic number, N, and these.
fn words_with(pages: u32, written: &[(usize, u32)]) -> Vec<u32> {
    let mut words = vec![0; used_words(pages)];
    words[36..48].fill(1_048_576);
    words[64] = MAGIC;
    words[65] = pages;
    for &(at, word) in written {
        words[at] = word;
    }
    words
}

/// The layout's description by hand: a round trip alone would not see a word in a wrong place.
#[test]
fn encodings_written_by_hand() {
    assert_eq!(
        encode(&State::fresh(1)),
        words_with(1, &[(1_088, 1), (1_089, 1)])
    );
    assert_eq!(
        encode(&State::fresh(256)),
        words_with(256, &[(1_088, 1), (1_089, 256)])
    );

    // A block of pages 0 and 1, a free page, a block of page 3.
    let state = Plan::new().direct(2, 12).run(1).direct(1, 7).assemble();
    let figures = [
        (6, 1),
        (11, 1),
        (18, 4_096),
        (23, 8_192),
        (30, 4_096),
        (35, 8_192),
    ];
    let block = [(1_088, 2), (1_089, 2), (1_090, 12)];
    let rest = [(2_128, 1), (2_129, 1), (2_648, 2), (2_649, 1), (2_650, 7)];
    let written = [&figures[..], &block, &rest].concat();
    assert_eq!(encode(&state), words_with(4, &written));
    assert_eq!(decode(&words_with(4, &written)), Some(state));
}

/// Three zones: at page 0 chunks 0 and 2 returned in this order and chunk 1 live; at page 8 one as
/// set-up leaves it, on the empty list; at page 16 a full one.
#[test]
fn zones_written_by_hand() {
    let mut state = Plan::new()
        .zone(zone_with(63, &[false, true, false]))
        .empty_zone(Zone::set_up(0))
        .zone(zone_with(63, &[true; 4]))
        .assemble();
    // Group 1 holds five chunks and has held seven; group 2 has once held the whole arena. Group 1's
    // ceiling is less than it holds, group 12 may hold nothing, and group 3 a byte less than the most.
    state.holdings[0].greatest = 57_344;
    state.holdings[1].greatest = 98_304;
    state.ceilings[0] = 40_000;
    state.ceilings[2] = 1_048_575;
    state.ceilings[11] = 0;
    let figures = [(0, 5), (12, 40_960), (24, 57_344), (25, 98_304)];
    let ceilings = [(36, 40_000), (38, 1_048_575), (47, 0)];
    let header = [(66, 9), (68, 1 + 256 * 63)];
    // Chunk 0 is at position 0 of the chain and chunk 2 at position 1.
    let first = [(1_088, 3), (1_089, 63), (1_090, 3), (1_091, 2)];
    let slots = [(1_152, 13), (1_153, 1 + 65_536 * 2), (1_154, 13 + 1)];
    let second = [(5_248, 3)];
    let third = [(9_408, 3), (9_409, 63), (9_410, 4)];
    let live = [(9_472, 1), (9_473, 1), (9_474, 1), (9_475, 1)];
    let written = [
        &figures[..],
        &ceilings,
        &header,
        &first,
        &slots,
        &second,
        &third,
        &live,
    ]
    .concat();
    assert_eq!(encode(&state), words_with(24, &written));
    assert_eq!(decode(&words_with(24, &written)), Some(state));
}

/// A figure that disagrees, and one behind them that is not zero.
#[test]
fn figures_that_disagree_are_no_state() {
    let state = Plan::new().direct(2, 12).run(1).assemble();
    let words = encode(&state);
    assert_eq!(decode(&words), Some(state));
    for (at, legal) in [(11, 1..=1), (23, 8_192..=8_192), (35, 8_192..=12_288)] {
        for value in (0..20_000).chain([u32::MAX]) {
            let mut changed = words.clone();
            changed[at] = value;
            let found = decode(&changed);
            assert_eq!(found.is_some(), legal.contains(&value), "{at}: {value}");
        }
    }
    for at in 48..64 {
        let mut changed = words.clone();
        changed[at] = 1;
        assert_eq!(decode(&changed), None, "{at}");
    }
}

/// Any number up to 1,048,576 is a group's ceiling, whatever the group holds, and no larger one is.
#[test]
fn ceilings_above_the_largest_are_no_state() {
    let state = Plan::new().direct(2, 12).run(1).assemble();
    let words = encode(&state);
    for (group, at) in (36..48).enumerate() {
        for value in [0, 1, 8_191, 8_192, 8_193, 12_289, 1_048_575, 1_048_576] {
            let mut changed = words.clone();
            changed[at] = value;
            let found = decode(&changed).expect("a ceiling");
            let mut expected = state.clone();
            expected.ceilings[group] = value;
            assert_eq!(found, expected, "{at}: {value}");
            assert_eq!(encode(&found), changed, "{at}: {value}");
        }
        for value in [1_048_577, 1 << 21, 1 << 31, u32::MAX] {
            let mut changed = words.clone();
            changed[at] = value;
            assert_eq!(decode(&changed), None, "{at}: {value}");
        }
    }
}

/// What a state is odd in, by name.
type Oddity = (&'static str, fn(&State) -> bool);

const ODDITIES: [Oddity; 13] = [
    ("a direct block of one page", |state| {
        state.direct.values().any(|block| block.pages == 1)
    }),
    ("a zone with nothing handed out", |state| {
        state.zones.values().any(|zone| zone.handed_out == 0)
    }),
    ("a full zone", |state| {
        state.zones.values().any(Zone::is_full)
    }),
    ("a long chain", |state| {
        state.zones.values().any(|zone| zone.chain.len() > 100)
    }),
    ("an empty list of two", |state| state.empty.len() == 2),
    ("two idle zones on one list", |state| {
        let idle = |start: &&u32| state.zones[*start].is_idle();
        let mut lists = state.lists.iter();
        lists.any(|list| list.iter().filter(idle).count() > 1)
    }),
    ("a group that has held more", |state| {
        let mut holdings = state.holdings.iter();
        holdings.any(|holding| holding.greatest > holding.held)
    }),
    ("a group that has held the whole arena", |state| {
        let mut holdings = state.holdings.iter();
        holdings.any(|holding| holding.greatest == state.pages * 4_096)
    }),
    ("a ceiling of nothing", |state| state.ceilings.contains(&0)),
    ("a ceiling below what is held", |state| {
        let mut groups = state.holdings.iter().zip(state.ceilings);
        groups.any(|(holding, ceiling)| ceiling < holding.held)
    }),
    ("a ceiling that is just held", |state| {
        let mut groups = state.holdings.iter().zip(state.ceilings);
        groups.any(|(holding, ceiling)| ceiling == holding.held && ceiling > 0)
    }),
    ("no ceiling that is the largest", |state| {
        state.ceilings.iter().all(|ceiling| *ceiling < 1_048_576)
    }),
    ("a list that descends", |state| {
        let mut lists = state.lists.iter();
        lists.any(|list| list.iter().zip(list.iter().skip(1)).any(|(a, b)| a > b))
    }),
];

#[test]
fn the_generator_makes_the_odd_states() {
    let mut counts = Counts::default();
    for seed in 0..300 {
        let state = odd(1 + seed as u32 % 100, seed);
        for (name, is_odd) in ODDITIES {
            counts.count(name, u32::from(is_odd(&state)));
        }
    }
    counts.expect(21, &ODDITIES.map(|(name, _)| name));
}
