//! Words that never were a state, of many lengths: every call is refused by 3 and changes nothing,
//! and a request has looked at no run; only an init is served on them, if they are enough, and then leaves the fresh state whatever
//! they held. Every call compares every word, and 600 more behind the lent ones.
//!
//!     cargo test --offline --locked -p tests --test arbitrary

use reference::calls::{Answer, Call};
use reference::histories::Xorshift;
use reference::listing::LONGEST;
use tests::layout::{used_words, MAGIC, MAGIC_AT, PAGES_AT};
use tests::pair::{noise, Pair};

/// Around each number of words that an encoding's part has, and those of a few arenas.
fn lengths() -> Vec<usize> {
    let around = [
        1, 36, 48, 64, 66, 68, 100, 1_088, 1_608, 2_128, 13_568, 17_728, 133_688, 134_208,
    ];
    let mut lengths: Vec<usize> = around
        .into_iter()
        .flat_map(|middle| [middle - 1, middle, middle + 1])
        .collect();
    lengths.push(134_208 + 10_000);
    lengths.sort_unstable();
    lengths.dedup();
    lengths
}

/// These words with the magic number and so many pages, as far as there are words enough.
fn begun(mut words: Vec<u32>, pages: u32) -> Vec<u32> {
    for (at, value) in [(MAGIC_AT, MAGIC), (PAGES_AT, pages)] {
        if let Some(word) = words.get_mut(at) {
            *word = value;
        }
    }
    words
}

/// Calls of every kind, with values right and wrong.
fn calls(random: &mut Xorshift) -> Vec<Call> {
    let group = random.pick(&[0, 1, 7, 12, 13, u32::MAX]);
    let offset = random.pick(&[0, 8, 4_096, 32_768, 1_048_575, u32::MAX]);
    let size = random.pick(&[0, 1, 8_191, 8_192, 1_048_576, 1_048_577]);
    let capacity = random.pick(&[0, 1, 29, LONGEST]);
    let records = random.pick(&[0, 1, 11, 13, 24]);
    let bytes = random.pick(&[0, 1_048_576, 1_048_577, u32::MAX]);
    vec![
        Call::Allocate {
            group: 1,
            size: 100,
        },
        Call::Allocate { group, size },
        Call::Free {
            group: 1,
            offset: 0,
        },
        Call::Free { group, offset },
        Call::Reset { group: 1 },
        Call::Reset { group },
        Call::Trim,
        Call::Query { offset },
        Call::Listing { capacity },
        Call::Holdings { records: 12 },
        Call::Holdings { records },
        Call::SetCeiling {
            group: 1,
            bytes: 4_096,
        },
        Call::SetCeiling { group, bytes },
    ]
}

/// All calls on these words are refused by 3.
fn refused(words: Vec<u32>, random: &mut Xorshift) {
    let mut pair = Pair::over(words);
    for call in calls(random) {
        assert_eq!(pair.call(call).number(), 3, "{call:?}");
    }
}

/// An init on these words is refused by 1, by 2, or served.
fn inits(words: &[u32]) {
    for pages in [0, 1, 2, 24, 32, 255, 256, 257] {
        let expected = match pages {
            0 | 257 => Err(1),
            _ if words.len() < used_words(pages) => Err(2),
            _ => Ok(()),
        };
        assert_eq!(Pair::over(words.to_vec()).init(pages), expected);
    }
}

#[test]
fn all_zero_words() {
    let mut random = Xorshift::new(1);
    for length in lengths() {
        refused(vec![0; length], &mut random);
        inits(&vec![0; length]);
    }
}

#[test]
fn words_with_every_bit_set() {
    let mut random = Xorshift::new(2);
    for length in lengths() {
        refused(vec![u32::MAX; length], &mut random);
        inits(&vec![u32::MAX; length]);
    }
}

#[test]
fn random_words() {
    let mut random = Xorshift::new(3);
    for length in lengths() {
        for seed in 0..20 {
            refused(noise(length, seed), &mut random);
        }
        inits(&noise(length, 20));
    }
}

/// The magic number and N are right, and nothing else is.
#[test]
fn random_words_around_a_right_beginning() {
    let mut random = Xorshift::new(4);
    for length in lengths() {
        for pages in [0, 1, 2, 24, 32, 255, 256, 257, u32::MAX] {
            let words = noise(length, u64::from(pages));
            refused(begun(words, pages), &mut random);
        }
    }
}

/// Small numbers, which are likely to mean something where they stand: 3 starts a zone, 1 to 12 are
/// groups, 13 to 15 returned chunks.
#[test]
fn random_small_words_around_a_right_beginning() {
    let mut random = Xorshift::new(5);
    for length in lengths() {
        for pages in [1, 8, 24, 32, 255, 256] {
            let words = (0..length).map(|_| random.below(16)).collect();
            refused(begun(words, pages), &mut random);
        }
    }
}

/// All zero but for the beginning: no segment stands in the pages.
#[test]
fn zeros_around_a_right_beginning() {
    let mut random = Xorshift::new(6);
    for length in lengths() {
        for pages in 0..=257 {
            let mut pair = Pair::over(begun(vec![0; length], pages));
            let call = random.pick(&calls(&mut Xorshift::new(u64::from(pages))));
            assert_eq!(pair.call(call).number(), 3, "{call:?}");
        }
    }
}

/// Arbitrary words are good for a start, and what follows is as on zeros.
#[test]
fn after_an_init_the_words_held_nothing() {
    for pages in [1, 8, 24, 32, 255, 256] {
        let mut told: Vec<Vec<Answer>> = Vec::new();
        for mut pair in [
            Pair::zeroed(used_words(pages)),
            Pair::noisy(used_words(pages)),
        ] {
            assert_eq!(pair.init(pages), Ok(()));
            let calls = calls(&mut Xorshift::new(7));
            told.push(calls.into_iter().map(|call| pair.call(call)).collect());
        }
        assert_eq!(told[0], told[1]);
    }
}
