//! Every size that gets a chunk, and two that get pages, in the bench program.

use std::fmt::Write;
use tests::program::{answers, compare};

#[test]
fn every_size_of_a_chunk() {
    let mut script = String::new();
    for size in 1..=8_193 {
        writeln!(script, "s 24\nq 5 {size}\nb 0\nq 5 {size}\np").expect("memory");
    }
    let script = script.as_bytes();
    compare("every size", script, &answers(script));
}
