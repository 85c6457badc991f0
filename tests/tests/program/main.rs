//! The bench program, run through pipes and held to the second program: document 01's cases, every
//! size of a chunk, every kind of line that is no call, generated scripts in pieces of any length, a person who
//! waits for each answer, and any bytes at all; and streams that fail.
//!
//!     cargo test --offline --locked -p tests --test program

mod any_bytes;
mod cases;
mod dialogue;
mod examples;
mod failing;
mod generated;
mod malformed;
mod sizes;

use tests::program::{answers, expected};

/// Both programs must give this answer to these bytes.
fn check_bytes(input: &[u8], answer: &str, name: &str) {
    let told = |bytes: Vec<u8>| String::from_utf8_lossy(&bytes).into_owned();
    assert_eq!(told(expected(input)), answer, "the second program: {name}");
    assert_eq!(told(answers(input)), answer, "{name}");
}
