//! Document 01's whole session, by the calls.

use reference::bench::WORDS;
use reference::calls::{Call, Refusal};
use reference::lines::{parse, render};
use tests::pair::Pair;

const INPUT: &str = include_str!("../../../examples/session.txt");
const OUTPUT: &str = include_str!("../../../examples/session.out");

fn calls() -> impl Iterator<Item = Call> {
    let lines = INPUT.lines();
    lines.map(|line| parse(line.as_bytes()).expect("a call"))
}

#[test]
fn the_session() {
    let mut pair = Pair::zeroed(WORDS);
    let output: String = calls().map(|call| render(&pair.call(call))).collect();
    assert_eq!(output, OUTPUT);
    assert_eq!(pair.query(104), Ok((2, 104)));
}

#[test]
fn the_session_on_words_of_any_kind_and_number() {
    for more in [0, 1, 520, 5_000] {
        let mut pair = Pair::noisy(WORDS + more);
        let output: String = calls().map(|call| render(&pair.call(call))).collect();
        assert_eq!(output, OUTPUT);
    }
}

#[test]
fn before_its_start_everything_is_refused_by_3() {
    let mut pair = Pair::zeroed(WORDS);
    for call in calls().skip(1) {
        assert_eq!(pair.call(call).refusal(), Some(Refusal::NoLegalState));
    }
    assert_eq!(pair.init(25), Err(2));
}
