//! The groups' ceilings: what a request meets at one, on both sides of it; and what a setting writes,
//! which is one word or none.

use reference::calls::Call;
use reference::ceilings::MAX_CEILING;
use reference::sizes::{chunk_size, need, CLASSES, GROUPS, MAX_SIZE, PAGE_BYTES};
use reference::state::State;
use tests::calls::{init, set_ceiling, Requested};
use tests::layout::{encode, used_words, CEILINGS, FIGURE_WORDS};
use tests::pair::{noise, Pair};
use tests::states::{odd, of_all_kinds, reached, zones_throughout, Plan};
use tests::zones::zone_with;

/// Groups that are none.
const NO_GROUPS: [u32; 6] = [0, 13, 14, 257, 1 << 31, u32::MAX];

/// Ceilings that are none.
const TOO_LARGE: [u32; 5] = [
    MAX_CEILING + 1,
    MAX_CEILING + 2,
    2 * MAX_CEILING,
    1 << 31,
    u32::MAX,
];

/// Ceilings at both ends, and some between.
const CEILINGS_TRIED: [u32; 8] = [0, 1, 8, 104, 4_096, 98_304, MAX_CEILING - 1, MAX_CEILING];

/// What is refused before any search.
fn refused_by(number: u32) -> Requested {
    Requested {
        outcome: Err(number),
        looked: 0,
    }
}

/// The place of a group's ceiling.
fn place(group: u32) -> usize {
    CEILINGS.start + group as usize - 1
}

/// Sizes on both sides of each step, of chunks and of pages.
fn sizes() -> Vec<u32> {
    let rooms = (0..CLASSES).map(chunk_size);
    let pages = [2, 3, 4, 9, 31, 32].map(|pages| pages * PAGE_BYTES);
    let near = |room: u32| [room - 1, room, room + 1];
    rooms.chain(pages).flat_map(near).collect()
}

#[test]
fn a_room_that_just_meets_the_ceiling_is_granted_and_a_byte_less_refuses_it() {
    let mut pair = Pair::started(64);
    for (size, group) in sizes().into_iter().zip((1..=GROUPS).cycle()) {
        let room = need(size).room();
        assert_eq!(pair.set_ceiling(group, room - 1), Ok(()));
        assert_eq!(pair.request(group, size), refused_by(10), "{size} bytes");
        assert_eq!(pair.set_ceiling(group, room), Ok(()));
        let offset = pair.allocate(group, size).expect("room");
        assert_eq!(pair.query(offset), Ok((group, room)), "{size} bytes");
        assert_eq!(pair.request(group, 1), refused_by(10));
        assert_eq!(pair.reset(group), Ok(1));
    }
}

/// With something held the same: what counts is both together.
#[test]
fn what_is_held_and_the_new_room_meet_the_ceiling_together() {
    let mut pair = Pair::started(64);
    let mut held = 0;
    for size in [100, 1, 8_191, 9_000, 127, 8_192, 40_000, 8] {
        let room = need(size).room();
        assert_eq!(pair.set_ceiling(7, held + room - 1), Ok(()));
        assert_eq!(pair.request(7, size), refused_by(10), "{size} bytes");
        assert_eq!(pair.set_ceiling(7, held + room), Ok(()));
        assert!(pair.allocate(7, size).is_ok(), "{size} bytes");
        held += room;
        let holdings = pair.holdings(12).expect("a list of twelve");
        assert_eq!(holdings[6].held, held);
    }
}

/// A ceiling that the size would meet, and the room passes.
#[test]
fn the_room_counts_and_not_the_size() {
    let mut pair = Pair::started(24);
    for (size, room) in [(1, 8), (100, 104), (7_681, 8_192), (8_193, 12_288)] {
        for ceiling in [size, room - 1] {
            assert_eq!(pair.set_ceiling(3, ceiling), Ok(()));
            assert_eq!(pair.request(3, size), refused_by(10), "{size} bytes");
        }
    }
}

/// The ceilings of a start: the whole of the largest arena, and not a byte more.
#[test]
fn one_group_may_hold_all_of_the_largest_arena() {
    let mut pair = Pair::started(256);
    assert_eq!(pair.allocate(12, MAX_SIZE), Ok(0));
    for size in [1, 8_191, 8_192, MAX_SIZE] {
        assert_eq!(pair.request(12, size), refused_by(10), "{size} bytes");
        assert_eq!(pair.allocate(11, size), Err(6), "{size} bytes");
    }
    let chunks = zones_throughout(256, &zone_with(0, &[true; 4_096]));
    let mut pair = Pair::over(encode(&chunks));
    for size in [1, MAX_SIZE] {
        assert_eq!(pair.request(1, size), refused_by(10), "{size} bytes");
        assert_eq!(pair.allocate(2, size), Err(6), "{size} bytes");
    }
}

#[test]
fn each_group_has_its_own_ceiling() {
    for group in 1..=GROUPS {
        let mut pair = Pair::started(24);
        for other in (1..=GROUPS).filter(|other| *other != group) {
            assert_eq!(pair.set_ceiling(other, 0), Ok(()));
        }
        for asking in 1..=GROUPS {
            let expected = match asking == group {
                true => Ok(0),
                false => Err(10),
            };
            assert_eq!(pair.allocate(asking, 100), expected, "group {asking}");
        }
    }
}

/// Runs and blocks of one page by turns, all of group 1: no two pages in a row are free, so that what
/// is neither 4 nor 5 nor 10 is refused by 6, after as many looks as there can be.
fn by_turns() -> Pair {
    let plan = (0..12).fold(Plan::new(), |plan, _| plan.run(1).direct(1, 1));
    Pair::over(encode(&plan.assemble()))
}

#[test]
fn a_request_tests_3_4_5_10_6_in_this_order() {
    let mut pair = by_turns();
    assert_eq!(pair.set_ceiling(2, 8_192), Ok(()));
    for (group, size, number) in [
        (0, 0, 4),
        (13, 8_193, 4),
        (u32::MAX, MAX_SIZE + 1, 4),
        (2, 0, 5),
        (2, MAX_SIZE + 1, 5),
        (2, u32::MAX, 5),
        (2, 8_193, 10),
        (2, MAX_SIZE, 10),
        (1, MAX_SIZE, 10),
    ] {
        assert_eq!(pair.request(group, size), refused_by(number));
    }
    let no_room = Requested {
        outcome: Err(6),
        looked: 2 * 12,
    };
    for (group, size) in [(2, 1), (2, 8_192), (1, 8_192), (3, MAX_SIZE)] {
        assert_eq!(pair.request(group, size), no_room, "{group}, {size}");
    }
}

#[test]
fn a_setting_tests_3_4_5_in_this_order() {
    let mut pair = by_turns();
    for bytes in CEILINGS_TRIED.into_iter().chain(TOO_LARGE) {
        for group in NO_GROUPS {
            assert_eq!(pair.set_ceiling(group, bytes), Err(4), "{group}, {bytes}");
        }
    }
    for bytes in TOO_LARGE {
        for group in 1..=GROUPS {
            assert_eq!(pair.set_ceiling(group, bytes), Err(5), "{group}, {bytes}");
        }
    }
    assert_eq!(pair.state().ceilings, [MAX_CEILING; 12]);
}

/// All that 4, 5 and 10 would be due for is refused by 3 where there is no state: no words of one, a
/// word too few, and a ceiling above the largest.
#[test]
fn without_a_state_settings_and_requests_are_refused_by_3() {
    let whole = encode(&reached(24, 200, 1));
    let mut above = whole.clone();
    above[place(5)] = MAX_CEILING + 1;
    let short = whole[..whole.len() - 1].to_vec();
    let length = whole.len();
    for words in [vec![0; length], noise(length, 2), short, above, Vec::new()] {
        let mut pair = Pair::over(words);
        for group in [1, 5, 12].into_iter().chain(NO_GROUPS) {
            for bytes in CEILINGS_TRIED.into_iter().chain(TOO_LARGE) {
                assert_eq!(pair.set_ceiling(group, bytes), Err(3), "{group}, {bytes}");
            }
            for size in [0, 1, MAX_SIZE, MAX_SIZE + 1] {
                assert_eq!(pair.request(group, size), refused_by(3), "{group}, {size}");
            }
        }
    }
}

/// Idle zones hold the pages that a request needs: what 10 refuses gives none of them back.
#[test]
fn what_10_refuses_gives_no_zone_back() {
    let idle = zones_throughout(32, &zone_with(63, &[false]));
    let mut pair = Pair::over(encode(&idle));
    let text = pair.text();
    assert_eq!(pair.set_ceiling(9, 131_071), Ok(()));
    assert_eq!(pair.request(9, 131_072), refused_by(10));
    assert_eq!(pair.text(), text);
    assert_eq!(pair.set_ceiling(9, 131_072), Ok(()));
    let granted = Requested {
        outcome: Ok(0),
        looked: 1,
    };
    assert_eq!(pair.request(9, 131_072), granted);
}

/// A chunk stands ready for others, and ceiling 0 keeps it from the group.
#[test]
fn ceiling_0_refuses_every_size() {
    let mut pair = Pair::started(256);
    assert_eq!(pair.allocate(1, 8), Ok(0));
    assert_eq!(pair.set_ceiling(2, 0), Ok(()));
    for size in sizes().into_iter().chain([1, MAX_SIZE]) {
        assert_eq!(pair.request(2, size), refused_by(10), "{size} bytes");
    }
    assert_eq!(pair.allocate(3, 8), Ok(8));
}

/// The words of a state with some behind them that are none of its own.
fn words_of(state: &State) -> Vec<u32> {
    let mut words = encode(state);
    words.extend(noise(700, 3));
    words
}

#[test]
fn a_setting_changes_its_own_word_and_no_other() {
    for state in of_all_kinds() {
        let mut words = words_of(&state);
        for group in 1..=GROUPS {
            for bytes in CEILINGS_TRIED {
                let mut expected = words.clone();
                expected[place(group)] = bytes;
                assert_eq!(set_ceiling(&mut words, group, bytes), Ok(()));
                assert!(words == expected, "group {group}: {bytes}");
            }
        }
    }
}

#[test]
fn a_refused_setting_changes_no_word() {
    for state in of_all_kinds() {
        let mut words = words_of(&state);
        let before = words.clone();
        for bytes in CEILINGS_TRIED.into_iter().chain(TOO_LARGE) {
            for group in NO_GROUPS {
                assert_eq!(set_ceiling(&mut words, group, bytes), Err(4));
            }
        }
        for bytes in TOO_LARGE {
            for group in 1..=GROUPS {
                assert_eq!(set_ceiling(&mut words, group, bytes), Err(5));
            }
        }
        assert!(words == before, "{} pages", state.pages);
    }
}

/// The last word is there, behind the lent ones: it is not read, and nothing is written.
#[test]
fn a_setting_on_a_word_too_few_is_refused_by_3() {
    for pages in [1, 24, 256] {
        let mut words = words_of(&odd(pages, 4));
        let before = words.clone();
        for lent in [0, 1, 36, 47, 48, 64, 1_088, used_words(pages) - 1] {
            for group in [0, 1, 12] {
                assert_eq!(set_ceiling(&mut words[..lent], group, 104), Err(3));
            }
        }
        assert!(words == before, "{pages} pages");
    }
}

/// Whatever the words held, ceilings among it; and of a refused start all of them stay.
#[test]
fn a_start_sets_all_twelve_to_the_largest() {
    for pages in [1, 24, 256] {
        for mut words in [words_of(&odd(pages, 5)), noise(used_words(pages), 6)] {
            let before = words.clone();
            assert_eq!(init(&mut words, 0), Err(1));
            let short = used_words(pages) - 1;
            assert_eq!(init(&mut words[..short], pages), Err(2));
            assert!(words == before, "{pages} pages");
            assert_eq!(init(&mut words, pages), Ok(()));
            assert_eq!(words[CEILINGS], [MAX_CEILING; 12]);
            assert!(words[CEILINGS.end..FIGURE_WORDS]
                .iter()
                .all(|word| *word == 0));
        }
    }
}

/// All twelve at once have ceiling 0: nothing that can be asked of the state changes.
#[test]
fn a_ceiling_below_what_is_held_takes_nothing_away() {
    for state in of_all_kinds() {
        let mut pair = Pair::over(encode(&state));
        let text = pair.text();
        for group in 1..=GROUPS {
            assert_eq!(pair.set_ceiling(group, 0), Ok(()));
        }
        assert_eq!(pair.text(), text);
        assert_eq!(pair.holdings(12), Ok(state.holdings));
        for block in state.live_blocks().iter().rev().take(50) {
            let held = (u32::from(block.group), block.room);
            assert_eq!(pair.query(block.offset), Ok(held));
        }
        assert_eq!(pair.state().live_blocks(), state.live_blocks());
    }
}

/// Under ceiling 0 blocks come back by returns and by resets as they always do, and no request is
/// granted, however little is held in the end.
#[test]
fn under_a_ceiling_below_what_is_held_returns_and_resets_go_on() {
    for state in [reached(24, 300, 7), odd(40, 8), reached(256, 300, 9)] {
        let mut pair = Pair::over(encode(&state));
        for group in 1..=GROUPS {
            assert_eq!(pair.set_ceiling(group, 0), Ok(()));
        }
        for block in state.live_blocks().iter().take(20) {
            let (group, offset) = (u32::from(block.group), block.offset);
            assert_eq!(pair.call(Call::Free { group, offset }).number(), 0);
            assert_eq!(pair.request(group, 1), refused_by(10));
        }
        for group in 1..=GROUPS {
            let left = pair.state().holdings[group as usize - 1].blocks;
            assert_eq!(pair.reset(group), Ok(left));
            assert_eq!(pair.request(group, 1), refused_by(10));
        }
        assert!(pair.trim().is_ok());
        let pages = state.pages;
        let fresh = format!("runs 1\n0 {pages}\ndirect 0\nzones 0\n");
        assert_eq!(pair.text(), fresh);
    }
}
