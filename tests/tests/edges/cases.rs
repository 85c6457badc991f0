//! Document 01's cases and those of document 02's requests through C. Every answer is the one written
//! down, every count of runs and every fetched record too, and every word after each call that of the
//! second program's state.

use reference::cases::{all, look, Case};
use tests::pair::Pair;

/// Makes the calls of a case, and looks at the state where it does.
fn follow(case: &Case, pair: Pair) {
    let mut pair = pair.named(case.name.clone());
    for step in &case.steps {
        let answer = match step.call() {
            Some(call) => {
                let answer = pair.call(call);
                let counted = step.has_count_of(&answer);
                assert!(counted, "{}: {}: {:?}", case.name, step.asked, answer);
                Some(step.told(&answer))
            }
            None => look(pair.state(), &step.asked),
        };
        let expected = Some(step.answer.clone());
        assert_eq!(answer, expected, "{}: {}", case.name, step.asked);
    }
}

#[test]
fn every_case_on_zeros() {
    for case in all() {
        follow(&case, Pair::zeroed(case.words));
    }
}

/// The words that a script begins on picture no state, whatever they are.
#[test]
fn every_case_on_words_of_any_kind() {
    for case in all() {
        follow(&case, Pair::noisy(case.words));
    }
}
