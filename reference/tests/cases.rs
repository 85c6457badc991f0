//! Document 01's cases and those of document 02's requests on the second
//! program.

use reference::calls::{Allocator, Answer, Call};
use reference::cases::{all, look, Case, FILES};
use reference::lines::parse;
use reference::validity::is_valid;
use std::collections::BTreeSet;
use std::fs;

/// Whether nothing may have changed with this answer.
fn is_without_effect(answer: &Answer) -> bool {
    let only_tells = matches!(
        answer,
        Answer::Held { .. } | Answer::Listed(_) | Answer::Fetched(_)
    );
    answer.refusal().is_some() || only_tells
}

/// Checks every answer and every count, that refusals, asks, listings and
/// fetched holdings change nothing, and that each state is legal.
fn follow(case: &Case) {
    let mut allocator = Allocator::zeroed(case.words);
    for step in &case.steps {
        let before = allocator.clone();
        let answer = match step.call() {
            Some(call) => {
                let answer = allocator.serve(call);
                if is_without_effect(&answer) {
                    assert_eq!(allocator, before, "{}: {}", case.name, step.asked);
                }
                let counted = step.has_count_of(&answer);
                assert!(counted, "{}: {}: {:?}", case.name, step.asked, answer);
                Some(step.told(&answer))
            }
            None => allocator.state().and_then(|state| look(state, &step.asked)),
        };
        let expected = Some(step.answer.clone());
        assert_eq!(answer, expected, "{}: {}", case.name, step.asked);
        assert!(allocator.state().map_or(true, is_valid), "{}", case.name);
    }
}

#[test]
fn every_case() {
    all().iter().for_each(follow);
}

/// Where counts are what the cases are about, no request is without its own,
/// and no other call has one.
#[test]
fn every_request_of_the_cases_of_counts_has_its_count() {
    let cases = all();
    let counts = cases
        .iter()
        .filter(|case| case.name.starts_with("counts: "));
    let steps: Vec<_> = counts.flat_map(|case| &case.steps).collect();
    for step in &steps {
        let call = parse(step.asked.as_bytes());
        let is_request = matches!(call, Some(Call::Allocate { .. }));
        assert_eq!(step.looked.is_some(), is_request, "{}", step.asked);
    }
    let most = steps.iter().filter_map(|step| step.looked).max();
    assert_eq!(most, Some(128));
}

/// What a start's ceilings refuse, the bench program is held to; it has no line
/// that sets a ceiling.
#[test]
fn cases_that_set_a_ceiling_are_not_the_bench_programs() {
    let is_refused = |case: &Case| case.steps.iter().any(|step| step.answer == "no 10\n");
    let mut bench = 0;
    let mut set = 0;
    for case in all().iter().filter(|case| is_refused(case)) {
        assert!(!case.is_for_the_bench_program() || !case.sets_a_ceiling());
        bench += u32::from(case.is_for_the_bench_program());
        set += u32::from(case.sets_a_ceiling());
    }
    assert!(bench >= 5 && set >= 10, "{bench} and {set} cases");
}

#[test]
fn every_file_is_read_and_every_case_has_a_name_of_its_own() {
    let folder = concat!(env!("CARGO_MANIFEST_DIR"), "/cases");
    let files = fs::read_dir(folder).expect("the folder is there");
    let names: BTreeSet<String> = files
        .map(|file| {
            file.expect("a file")
                .file_name()
                .into_string()
                .expect("a name")
        })
        .filter(|name| name != "README.md")
        .collect();
    let read = FILES.iter().map(|(name, _)| format!("{name}.txt"));
    assert_eq!(names, read.collect());
    let cases: Vec<String> = all().into_iter().map(|case| case.name).collect();
    let distinct: BTreeSet<&String> = cases.iter().collect();
    assert_eq!(distinct.len(), cases.len());
}
