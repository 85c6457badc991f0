//! Any bytes at all: the program answers every line and ends with status 0.

use reference::histories::{Profile, Xorshift};
use tests::program::{answers, compare};
use tests::scripts::Script;

/// Lines after which calls by chance find something.
const SETTING: &[u8] = b"s 24\nq 1 100\nq 2 9000\nq 3 8191\nq 1 20000\nr 2 32768\n";

/// Gives both programs so many bytes, drawn one after another.
fn survive(name: &str, seeds: std::ops::Range<u64>, bytes: usize, draw: fn(&mut Xorshift) -> u8) {
    for seed in seeds {
        let mut random = Xorshift::new(seed);
        let mut input = match seed % 2 {
            0 => SETTING.to_vec(),
            _ => Vec::new(),
        };
        input.extend((0..bytes).map(|_| draw(&mut random)));
        let name = format!("{name}, seed {seed}");
        compare(&name, &input, &answers(&input));
    }
}

#[test]
fn bytes_of_all_kinds() {
    survive("all kinds", 0..4, 1_000_000, |random| {
        random.below(256) as u8
    });
}

#[test]
fn many_line_ends() {
    survive("line ends", 10..14, 500_000, |random| {
        match random.below(3) {
            0 => b'\n',
            _ => random.below(256) as u8,
        }
    });
}

#[test]
fn bytes_that_calls_have() {
    survive("call bytes", 20..24, 500_000, |random| {
        random.pick(b"sqrxtbp    00112345678999\n\n\n\n\n\n")
    });
}

#[test]
fn letters_and_line_ends() {
    survive("letters", 30..32, 200_000, |random| {
        random.pick(b"tpx\n\n\n")
    });
}

#[test]
fn words_that_calls_have() {
    const WORDS: [&str; 24] = [
        "s",
        "q",
        "r",
        "x",
        "t",
        "b",
        "p",
        "t",
        "b",
        "p",
        "0",
        "1",
        "2",
        "3",
        "12",
        "13",
        "24",
        "100",
        "104",
        "8191",
        "8192",
        "9000",
        "32768",
        "4294967296",
    ];
    for seed in 40..44 {
        let mut random = Xorshift::new(seed);
        let mut input = SETTING.to_vec();
        for _ in 0..200_000 {
            input.extend(random.pick(&WORDS).as_bytes());
            input.push(random.pick(b"  \n"));
        }
        compare(&format!("words, seed {seed}"), &input, &answers(&input));
    }
}

#[test]
fn many_listings_at_once() {
    // Eight blocks with a page free behind each, so that two bytes of input bring 19 lines.
    let mut input = b"s 24\n".to_vec();
    input.extend(b"q 12 9000\n".repeat(8));
    for block in (0..8).rev() {
        let offset = block * 12_288;
        input.extend(format!("r 12 {offset}\nq 11 8192\n").into_bytes());
    }
    input.extend(b"p\n".repeat(40_000));
    let answers = answers(&input);
    compare("listings", &input, &answers);
    assert!(answers.len() > 40_000 * 100);
}

#[test]
fn a_million_lines() {
    let script = Script::started(Profile::Mixed, 1_000_000, 24).calls(999_999);
    let input = script.bytes();
    let lines = input.iter().filter(|byte| **byte == b'\n').count();
    assert_eq!(lines, 1_000_000);
    compare("a million lines", &input, &answers(&input));
}
