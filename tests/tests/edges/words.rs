//! How many words are lent: exactly enough, one too few, and more, which stay as they are.

use reference::calls::Call;
use reference::listing::LONGEST;
use tests::calls::{holdings_of, listing_of, query_of, Record, UNFILLED};
use tests::layout::{encode, used_words, CEILINGS, MAGIC};
use tests::pair::{noise, Pair};
use tests::states::{odd, reached};

/// A call of every kind but init.
const CALLS: [Call; 8] = [
    Call::Allocate {
        group: 1,
        size: 100,
    },
    Call::Free {
        group: 1,
        offset: 0,
    },
    Call::Reset { group: 1 },
    Call::Trim,
    Call::Query { offset: 0 },
    Call::Listing { capacity: LONGEST },
    Call::Holdings { records: 12 },
    Call::SetCeiling {
        group: 1,
        bytes: 4_096,
    },
];

#[test]
fn an_arena_of_n_pages_needs_1088_and_520_n_words() {
    assert_eq!(used_words(1), 1_608);
    assert_eq!(used_words(24), 13_568);
    assert_eq!(used_words(32), 17_728);
    assert_eq!(used_words(255), 133_688);
    assert_eq!(used_words(256), 134_208);
}

#[test]
fn pages_0_and_257_are_refused_by_1_even_with_too_few_words() {
    for lent in [0, 1, 64, 1_088, used_words(1), used_words(256) + 600] {
        for pages in [0, 257, 1 << 16, u32::MAX] {
            assert_eq!(Pair::zeroed(lent).init(pages), Err(1));
            assert_eq!(Pair::noisy(lent).init(pages), Err(1));
        }
    }
}

#[test]
fn init_with_exactly_enough_words_is_served() {
    for pages in 1..=256 {
        assert_eq!(Pair::noisy(used_words(pages)).init(pages), Ok(()));
    }
}

#[test]
fn init_with_one_word_too_few_is_refused_by_2() {
    for pages in 1..=256 {
        assert_eq!(Pair::noisy(used_words(pages) - 1).init(pages), Err(2));
    }
}

#[test]
fn init_with_far_too_few_words_is_refused_by_2() {
    for lent in [0, 1, 63, 64, 66, 1_087, 1_088, 1_607] {
        for pages in [1, 2, 255, 256] {
            assert_eq!(Pair::noisy(lent).init(pages), Err(2));
        }
    }
}

#[test]
fn a_state_in_exactly_enough_words_is_served() {
    for pages in [1, 32, 255, 256] {
        let mut pair = Pair::over(encode(&reached(pages, 200, 1)));
        assert!(pair.text().starts_with("runs "));
        for call in CALLS {
            assert_ne!(pair.call(call).number(), 3, "{pages} pages, {call:?}");
        }
    }
}

#[test]
fn a_state_in_one_word_too_few_is_refused_by_3() {
    for pages in [1, 32, 255, 256] {
        for state in [reached(pages, 200, 1), odd(pages, 2)] {
            let mut words = encode(&state);
            words.pop();
            let mut pair = Pair::over(words);
            for call in CALLS {
                assert_eq!(pair.call(call).number(), 3, "{pages} pages, {call:?}");
            }
        }
    }
}

/// The last word is there, behind the lent ones: it is not read.
#[test]
fn a_word_that_is_not_lent_is_not_read() {
    for pages in [1, 32, 255, 256] {
        let mut words = encode(&reached(pages, 200, 3));
        let short = words.len() - 1;
        let before = words.clone();
        for call in CALLS {
            assert_eq!(tests::calls::serve(&mut words[..short], call).number(), 3);
        }
        assert_eq!(tests::calls::init(&mut words[..short], pages), Err(2));
        assert_eq!(words, before);
    }
}

/// The comparison of every word has the later ones in it, lent or not.
#[test]
fn later_words_are_neither_read_nor_changed() {
    for pages in [1, 8, 32, 255, 256] {
        for more in [1, 519, 520, 2_000] {
            let mut words = encode(&reached(pages, 150, u64::from(pages)));
            words.extend(noise(more, more as u64));
            let mut pair = Pair::over(words);
            for call in CALLS.into_iter().chain(CALLS) {
                assert_ne!(pair.call(call).number(), 3, "{pages} pages, {call:?}");
            }
            assert_eq!(pair.init(pages), Ok(()));
        }
    }
}

/// The example of docs/LAYOUT.md, in memory that cannot be written: a store, be it of the same word,
/// would end the test's process.
static FIXED: [u32; 7_328] = fixed();

const fn fixed() -> [u32; 7_328] {
    let mut words = [0; 7_328];
    let mut at = CEILINGS.start;
    while at < CEILINGS.end {
        words[at] = 1_048_576;
        at += 1;
    }
    words[3] = 1;
    words[4] = 1;
    words[15] = 104;
    words[16] = 12_288;
    words[26] = 208;
    words[27] = 104;
    words[28] = 12_288;
    words[64] = MAGIC;
    words[65] = 12;
    words[68] = 3_073;
    words[1_088] = 3;
    words[1_089] = 12;
    words[1_090] = 3;
    words[1_091] = 2;
    words[1_152] = 13;
    words[1_153] = 131_076;
    words[1_154] = 14;
    words[5_248] = 2;
    words[5_249] = 3;
    words[5_250] = 5;
    words[6_808] = 1;
    words[6_809] = 1;
    words
}

#[test]
fn query_listing_and_holdings_take_words_that_cannot_be_written() {
    assert_eq!(query_of(&FIXED, 104), Ok((4, 104)));
    assert_eq!(query_of(&FIXED, 32_768), Ok((5, 12_288)));
    assert_eq!(query_of(&FIXED, 0), Err(7));
    assert_eq!(query_of(&FIXED[..7_327], 104), Err(3));
    let mut text = [0; LONGEST];
    let told = "runs 1\n11 1\ndirect 1\n8 3 5\nzones 1\n0 12 1\n";
    assert_eq!(listing_of(&FIXED, &mut text), Ok(told.len()));
    assert_eq!(&text[..told.len()], told.as_bytes());
    assert_eq!(listing_of(&FIXED, &mut text[..told.len() - 1]), Err(12));
    assert_eq!(listing_of(&FIXED[1..], &mut text), Err(3));
    let mut list = [UNFILLED; 13];
    assert_eq!(holdings_of(&FIXED, &mut list), Err(9));
    assert_eq!(holdings_of(&FIXED[1..], &mut list[..12]), Err(3));
    assert_eq!(list, [UNFILLED; 13]);
    assert_eq!(holdings_of(&FIXED, &mut list[..12]), Ok(()));
    let told = [(0, 0, 208), (1, 104, 104), (1, 12_288, 12_288), (0, 0, 0)];
    let told = told.map(|(blocks, held, greatest)| Record {
        blocks,
        held,
        greatest,
    });
    assert_eq!(list[2..6], told);
    assert_eq!(list[12], UNFILLED);
}

#[test]
fn an_init_forgets_what_the_words_held() {
    for pages in [32, 255, 256] {
        let mut pair = Pair::over(encode(&reached(pages, 300, 5)));
        assert_eq!(pair.init(pages), Ok(()));
        assert_eq!(
            pair.text(),
            format!("runs 1\n0 {pages}\ndirect 0\nzones 0\n")
        );
        assert_eq!(pair.query(0), Err(7));
    }
}

/// What the larger arena had behind the smaller one's words stays there.
#[test]
fn an_init_with_fewer_pages_leaves_the_words_behind_them() {
    let mut pair = Pair::over(encode(&reached(255, 300, 7)));
    for pages in [254, 32, 33, 1, 255] {
        assert_eq!(pair.init(pages), Ok(()));
        assert_eq!(
            pair.text(),
            format!("runs 1\n0 {pages}\ndirect 0\nzones 0\n")
        );
    }
    assert_eq!(pair.init(256), Err(2));
}
