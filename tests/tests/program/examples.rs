//! The scripts of examples/, each with what it writes beside it.

use std::fs;

use crate::check_bytes;

/// A file of examples/.
fn example(file: &str) -> String {
    let path = format!("{}/../examples/{file}", env!("CARGO_MANIFEST_DIR"));
    fs::read_to_string(&path).unwrap_or_else(|error| panic!("{path}: {error}"))
}

/// Both programs must answer this script by what stands beside it.
fn check_example(name: &str) {
    let script = example(&format!("{name}.txt"));
    check_bytes(script.as_bytes(), &example(&format!("{name}.out")), name);
}

#[test]
fn session() {
    check_example("session");
}

#[test]
fn afternoon() {
    check_example("afternoon");
}

#[test]
fn nine() {
    check_example("nine");
}

#[test]
fn reset() {
    check_example("reset");
}

#[test]
fn the_session_with_the_query_that_document_01_adds() {
    let script = example("session.txt") + "b 104\n";
    let answers = example("session.out") + "2 104\n";
    check_bytes(script.as_bytes(), &answers, "session with the query");
}
