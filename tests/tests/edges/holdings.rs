//! The list of the holdings: of every length, and whatever stands in it and beside it. That a refused
//! call writes no record, and no call one beside the list, is seen to at every fetching.

use reference::holdings::{Holding, Holdings};
use reference::state::State;
use tests::calls::{holdings, Record, UNFILLED};
use tests::layout::{encode, used_words};
use tests::pair::{noise, Pair};
use tests::states::{odd, of_all_kinds, reached, zones_throughout, Plan};
use tests::zones::zone_with;

/// Records of a list that is refused.
const WRONG: [usize; 13] = [0, 1, 2, 3, 4, 5, 6, 7, 8, 9, 10, 11, 13];

/// Records that could be fetched ones, or not.
fn fillings() -> [Record; 3] {
    let of = |figure| Record {
        blocks: figure,
        held: figure,
        greatest: figure,
    };
    [of(0), of(104), of(u32::MAX)]
}

#[test]
fn a_list_of_twelve_is_filled() {
    for state in of_all_kinds() {
        let mut pair = Pair::over(encode(&state));
        assert_eq!(pair.holdings(12), Ok(state.holdings));
    }
}

#[test]
fn a_list_of_any_other_length_is_refused_by_9() {
    for state in of_all_kinds() {
        let mut pair = Pair::over(encode(&state));
        for records in WRONG.into_iter().chain([24, 36, 1_000]) {
            assert_eq!(pair.holdings(records), Err(9), "{records} records");
        }
        assert_eq!(pair.holdings(12), Ok(state.holdings));
    }
}

#[test]
fn without_a_state_a_list_is_refused_by_3_before_9() {
    for mut pair in [Pair::zeroed(used_words(24)), Pair::noisy(used_words(24))] {
        for records in WRONG.into_iter().chain([12, 24]) {
            assert_eq!(pair.holdings(records), Err(3), "{records} records");
        }
    }
}

/// The records by hand, with others in the list and on both sides of it.
#[test]
fn the_records_beside_the_list_stay_whatever_they_are() {
    let state = reached(32, 300, 9);
    let mut words = encode(&state);
    for filling in fillings() {
        let mut list = [filling; 36];
        assert_eq!(holdings(&mut words, &mut list[12..24]), Ok(()));
        let fetched: Vec<Holding> = list[12..24].iter().map(|one| (*one).into()).collect();
        assert_eq!(fetched, state.holdings);
        assert_eq!(list[..12], [filling; 12]);
        assert_eq!(list[24..], [filling; 12]);
    }
}

#[test]
fn a_refused_fetching_writes_no_record_whatever_they_are() {
    let mut words = encode(&reached(32, 300, 10));
    let mut zeros = vec![0; used_words(32)];
    let mut random = noise(used_words(32), 11);
    for filling in fillings() {
        let mut list = [filling; 36];
        for records in WRONG.into_iter().chain([24]) {
            let answer = holdings(&mut words, &mut list[6..6 + records]);
            assert_eq!(answer, Err(9), "{records} records");
        }
        for records in WRONG.into_iter().chain([12, 24]) {
            for stateless in [&mut zeros, &mut random] {
                let answer = holdings(stateless, &mut list[6..6 + records]);
                assert_eq!(answer, Err(3), "{records} records");
            }
        }
        assert_eq!(list, [filling; 36]);
    }
}

/// One word changed in every place that has one of a few arenas, in turn: the list stays.
#[test]
fn on_damaged_words_the_list_stays() {
    for state in [State::fresh(1), odd(9, 4), reached(24, 100, 5)] {
        let mut words = encode(&state);
        let mut list = [UNFILLED; 12];
        for at in 0..words.len() {
            let old = words[at];
            words[at] = old ^ 1 << 31;
            assert_eq!(holdings(&mut words, &mut list), Err(3), "word {at}");
            words[at] = old;
        }
        assert_eq!(list, [UNFILLED; 12]);
        assert_eq!(holdings(&mut words, &mut list), Ok(()));
        assert_ne!(list[0], UNFILLED);
    }
}

/// What a group holds when it holds all that there is.
fn all_of(group: usize, blocks: u32, held: u32) -> Holdings {
    let mut holdings = Holdings::default();
    holdings[group - 1] = Holding {
        blocks,
        held,
        greatest: held,
    };
    holdings
}

#[test]
fn the_most_that_a_group_can_hold() {
    let block = Plan::new().direct(256, 12).assemble();
    let mut pair = Pair::over(encode(&block));
    assert_eq!(pair.holdings(12), Ok(all_of(12, 1, 1_048_576)));
    let full = zones_throughout(256, &zone_with(0, &[true; 4_096]));
    let mut pair = Pair::over(encode(&full));
    assert_eq!(pair.holdings(12), Ok(all_of(1, 131_072, 1_048_576)));
    assert_eq!(pair.reset(1), Ok(131_072));
    let left = pair.holdings(12).expect("a list of twelve");
    assert_eq!(left[0].line(), "0 0 1048576");
    let pages = (0..256).fold(Plan::new(), |plan, _| plan.direct(1, 7));
    let mut pair = Pair::over(encode(&pages.assemble()));
    assert_eq!(pair.holdings(12), Ok(all_of(7, 256, 1_048_576)));
}

/// The held bytes of all groups together are never more than the arena's; the greatest ones can be,
/// since they need not be of one moment.
#[test]
fn each_group_in_turn_holds_the_whole_arena() {
    let mut pair = Pair::started(24);
    for group in 1..=12 {
        assert_eq!(pair.allocate(group, 98_304), Ok(0));
        let holdings = pair.holdings(12).expect("a list of twelve");
        let held: u32 = holdings.iter().map(|holding| holding.held).sum();
        assert_eq!(held, 98_304);
        assert_eq!(pair.reset(group), Ok(1));
    }
    let holdings = pair.holdings(12).expect("a list of twelve");
    assert_eq!(holdings.map(|holding| holding.greatest), [98_304; 12]);
}
