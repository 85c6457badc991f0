//! The worked example of docs/LAYOUT.md: its calls are made, and its table holds every word that is not zero.

use reference::calls::Allocator;
use reference::lines::parse;
use reference::sizes::words_needed;
use tests::check::check;
use tests::layout::encode;

const LAYOUT: &str = include_str!("../../docs/LAYOUT.md");

/// The lines of the document's fenced block that begins with a line.
fn block(first: &str) -> Vec<&'static str> {
    let lines = LAYOUT.lines().skip_while(|line| !line.starts_with(first));
    lines.take_while(|line| !line.starts_with("```")).collect()
}

/// The words after the document's calls.
fn words_after_the_calls() -> Vec<u32> {
    let mut allocator = Allocator::zeroed(words_needed(12));
    let calls = block("s 12");
    assert_eq!(calls.len(), 7);
    for line in calls {
        allocator.serve(parse(line.as_bytes()).expect("a call"));
    }
    encode(allocator.state().expect("a legal state"))
}

/// What a row of the table tells: one word, or the same one in several places, `36–47`.
fn row(line: &str) -> Vec<(usize, u32)> {
    let number = |digits: &str| digits.parse().expect("a number");
    let mut fields = line.split_whitespace().skip(1);
    let places = fields.next().expect("a place");
    let (first, last) = places.split_once('–').unwrap_or((places, places));
    let word = fields.next().expect("a word").parse().expect("a number");
    (number(first)..=number(last))
        .map(|at| (at, word))
        .collect()
}

#[test]
fn the_table_holds_every_word_that_is_not_zero() {
    let told: Vec<(usize, u32)> = block("word     3 ").into_iter().flat_map(row).collect();
    let words = words_after_the_calls();
    let stands: Vec<(usize, u32)> = words
        .into_iter()
        .enumerate()
        .filter(|(_, word)| *word != 0)
        .collect();
    assert_eq!(told, stands);
}

#[test]
fn the_proved_check_accepts_them() {
    let mut words = words_after_the_calls();
    assert_eq!(check(&mut words), 1);
    let short = words.len() - 1;
    assert_eq!(check(&mut words[..short]), 0);
}
