//! Refusals that cases/ cannot have: on books that picture no legal state for
//! several reasons, of a listing's buffer and of a list of records of every
//! length, and those of histories.

mod common;

use common::{started, state, text};
use reference::calls::{Allocator, Answer, Call, Refusal};
use reference::histories::History;
use reference::sizes::words_needed;
use reference::state::{DirectBlock, State};

/// 24 pages without a free one: a zone of class 12 with a chunk of group 1 at
/// 0 and of group 2 at 104, and the rest a direct block of group 3.
fn full() -> Allocator {
    let mut allocator = started(24);
    assert_eq!(allocator.allocate(1, 100).outcome, Ok(0));
    assert_eq!(allocator.allocate(2, 100).outcome, Ok(104));
    assert_eq!(allocator.allocate(3, 65_536).outcome, Ok(32_768));
    allocator
}

/// Books that picture no legal state: zeros, states that aren't legal, and a
/// legal state that needs one word more.
fn unusable() -> Vec<Allocator> {
    let mut overlapping = State::fresh(24);
    let block = DirectBlock { pages: 2, group: 1 };
    overlapping.direct.insert(0, block);
    let mut miscounted = State::fresh(24);
    miscounted.holdings[0].blocks = 1;
    let mut too_high = State::fresh(24);
    too_high.ceilings[0] += 1;
    vec![
        Allocator::zeroed(13_568),
        Allocator::picturing(13_568, overlapping.recounted()),
        Allocator::picturing(13_568, miscounted),
        Allocator::picturing(13_568, too_high),
        Allocator::picturing(13_567, State::fresh(24)),
    ]
}

/// Serves a call that is refused before any search, and checks its number, of
/// a request that it looked at no run, and that nothing changed.
fn assert_refused(allocator: &mut Allocator, call: Call, number: u32) {
    let before = allocator.clone();
    let answer = allocator.serve(call);
    assert_eq!(answer.number(), number, "{call:?}");
    let is_request = matches!(call, Call::Allocate { .. });
    assert_eq!(answer.looked(), is_request.then_some(0), "{call:?}");
    assert_eq!(*allocator, before, "{call:?} changed the state");
}

fn request(group: u32, size: u32) -> Call {
    Call::Allocate { group, size }
}

fn give(group: u32, offset: u32) -> Call {
    Call::Free { group, offset }
}

fn ceiling(group: u32, bytes: u32) -> Call {
    Call::SetCeiling { group, bytes }
}

#[test]
fn start_on_used_or_unusable_books_forgets_them() {
    for mut allocator in unusable().into_iter().chain([full()]) {
        assert_eq!(allocator.init(23), Ok(()));
        assert_eq!(*state(&allocator), State::fresh(23));
    }
}

#[test]
fn without_a_legal_state_every_call_but_start_is_refused_by_3() {
    // With values that would be refused by later numbers too.
    let calls = [
        request(1, 100),
        request(0, 0),
        request(13, 2_000_000),
        give(1, 0),
        give(0, 5),
        Call::Reset { group: 1 },
        Call::Reset { group: 13 },
        Call::Trim,
        Call::Query { offset: 0 },
        Call::Listing { capacity: 0 },
        Call::Listing { capacity: 9_999 },
        Call::Holdings { records: 0 },
        Call::Holdings { records: 12 },
        ceiling(1, 0),
        ceiling(1, 1_048_577),
        ceiling(13, 0),
        ceiling(0, u32::MAX),
    ];
    for mut allocator in unusable() {
        for call in calls {
            assert_refused(&mut allocator, call, 3);
        }
    }
}

#[test]
fn a_legal_state_on_just_enough_words_is_served() {
    let mut allocator = Allocator::picturing(13_568, State::fresh(24));
    assert_eq!(allocator.allocate(1, 1).outcome, Ok(0));
}

#[test]
fn listing_tests_12() {
    let expected = "runs 0\ndirect 1\n8 16 3\nzones 1\n0 12 2\n";
    for capacity in 0..expected.len() {
        assert_refused(&mut full(), Call::Listing { capacity }, 12);
    }
    for capacity in [expected.len(), expected.len() + 1, usize::MAX] {
        assert_eq!(full().listing(capacity).as_deref(), Ok(expected));
    }
}

#[test]
fn holdings_test_9() {
    for records in (0..12).chain([13, 24, usize::MAX]) {
        assert_refused(&mut full(), Call::Holdings { records }, 9);
    }
    let holdings = full().holdings(12).expect("a record for each group");
    let held = holdings.map(|holding| holding.held);
    assert_eq!(held, [104, 104, 65_536, 0, 0, 0, 0, 0, 0, 0, 0, 0]);
}

#[test]
fn every_refusal_has_its_number() {
    let numbers = [
        (Refusal::PageCount, 1),
        (Refusal::TooFewWords, 2),
        (Refusal::NoLegalState, 3),
        (Refusal::Group, 4),
        (Refusal::Size, 5),
        (Refusal::NoRun, 6),
        (Refusal::NoBlock, 7),
        (Refusal::OtherGroup, 8),
        (Refusal::ListLength, 9),
        (Refusal::OverCeiling, 10),
        (Refusal::ShortBuffer, 12),
    ];
    for (refusal, number) in numbers {
        assert_eq!(refusal.number(), number);
    }
    assert_eq!(numbers.map(|(refusal, _)| refusal), Refusal::ALL);
}

#[test]
fn refusals_asks_and_listings_change_nothing_in_histories() {
    let mut refused = [0; 13];
    for seed in 0..20 {
        let mut allocator = started([24, 32, 64, 128][seed as usize % 4]);
        let mut history = History::new(seed);
        for _ in 0..300 {
            let call = history.next_call();
            let before = allocator.clone();
            let answer = allocator.serve(call);
            history.observe(&call, &answer);
            match (answer.refusal(), answer) {
                (Some(refusal), _) => refused[refusal.number() as usize] += 1,
                (None, Answer::Held { .. } | Answer::Listed(_)) => {}
                _ => continue,
            }
            assert_eq!(allocator, before, "{call:?}");
        }
    }
    for number in [1, 4, 5, 6, 7, 8, 10, 12] {
        assert!(refused[number] > 0, "no refusal {number} in any history");
    }
}

#[test]
fn the_longest_listing() {
    for (pages, length) in [(24, 207), (256, 2_220)] {
        let mut state = State::fresh(pages);
        state.runs.clear();
        for start in 0..pages {
            let block = DirectBlock {
                pages: 1,
                group: 12,
            };
            state.direct.insert(start, block);
        }
        let allocator = Allocator::picturing(words_needed(pages), state.recounted());
        assert_eq!(text(&allocator).len(), length);
    }
    assert_eq!(reference::listing::LONGEST, 2_220);
}
