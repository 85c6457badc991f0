//! Document 01's cases and those of document 02's requests, as far as they need no more words than
//! the program has and set no ceiling. It writes no count of runs, no line asks it for the holdings, and
//! none sets a ceiling.

use crate::check_bytes;
use reference::cases::{all, Case};
use reference::lines::parse;

/// The lines that a program is given, and those that it answers: a look at the state is no line, nor
/// is the fetching of holdings.
fn script(case: &Case) -> (String, String) {
    let calls = case.steps.iter();
    let calls = calls.filter(|step| parse(step.asked.as_bytes()).is_some());
    calls
        .map(|step| (format!("{}\n", step.asked), step.answer.as_str()))
        .unzip()
}

#[test]
fn every_case_of_its_words() {
    let cases = all();
    let cases = cases.iter().filter(|case| case.is_for_the_bench_program());
    let mut run = 0;
    for case in cases {
        let (input, answers) = script(case);
        check_bytes(input.as_bytes(), &answers, &case.name);
        run += 1;
    }
    assert!(run > 100, "only {run} cases");
}
