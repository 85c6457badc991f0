//! NOSTRIMEL_LAYOUT in include/nostrimel.h: the number goes with the words. The calls of some scripts are made through C, and a sum
//! of all words after each call is held to the one that stands here for the header's number.

use reference::bench::WORDS;
use reference::lines::parse;
use tests::calls::serve;

const HEADER: &str = include_str!("../../include/nostrimel.h");
const LAYOUT: &str = include_str!("../../docs/LAYOUT.md");

const SCRIPTS: [&str; 4] = [
    include_str!("../../examples/session.txt"),
    include_str!("../../examples/afternoon.txt"),
    include_str!("../../examples/nine.txt"),
    include_str!("../../examples/reset.txt"),
];

/// Each layout's number, and the sum of the words that it has.
const LAYOUTS: [(u32, u64); 3] = [
    (1, 0x81e3_29ed_bdc4_4bd3),
    (2, 0x35b2_5339_3f48_702b),
    (3, 0x70f9_bc79_03c1_3d2b),
];

/// The number that the header names.
fn number() -> u32 {
    let line = HEADER
        .lines()
        .find_map(|line| line.strip_prefix("#define NOSTRIMEL_LAYOUT "));
    let number = line.expect("the header has it").trim_end_matches('u');
    number.parse().expect("a number")
}

/// One more word in a sum (FNV-1a, byte by byte, the lowest first).
fn with(sum: u64, word: u32) -> u64 {
    word.to_le_bytes().iter().fold(sum, |sum, byte| {
        (sum ^ u64::from(*byte)).wrapping_mul(0x0100_0000_01b3)
    })
}

#[test]
fn the_number_changes_with_the_words() {
    let mut sum = 0xcbf2_9ce4_8422_2325;
    let mut calls = 0;
    for script in SCRIPTS {
        let mut words = vec![0; WORDS];
        for line in script.lines() {
            // Whatever it answers: what counts here is what it leaves.
            let _ = serve(&mut words, parse(line.as_bytes()).expect("a call"));
            sum = words.iter().copied().fold(sum, with);
            calls += 1;
        }
    }
    assert!(calls >= 120, "{calls} calls");
    let (last, expected) = LAYOUTS[LAYOUTS.len() - 1];
    assert_eq!(number(), last, "the header's number has no row here");
    assert_eq!(
        sum, expected,
        "these calls leave other words than before. If their layout has changed: one more row here, with \
         {sum:#018x}, and NOSTRIMEL_LAYOUT and docs/LAYOUT.md with the next number. If only the rules have: this \
         sum in the last row"
    );
}

#[test]
fn the_document_names_the_same_number() {
    assert!(LAYOUT.contains(&format!("This is layout {}", number())));
}
