//! A person at the program: what has been typed is answered before anything more is typed.

use reference::bench::{Bench, WORDS};
use reference::histories::Profile;
use tests::program::Program;
use tests::scripts::script;

/// Types pieces one after another, and waits for all answers that are due to each of them.
fn talk(pieces: &[&[u8]]) {
    let mut program = Program::start();
    let mut second = Bench::new(WORDS);
    for piece in pieces {
        let mut due = Vec::new();
        second.feed(piece, &mut due).expect("memory");
        program.feed(piece);
        let came = program.next(due.len());
        let shown = String::from_utf8_lossy(piece);
        assert_eq!(told(&came), told(&due), "typed: {shown:?}");
    }
    let mut due = Vec::new();
    second.finish(&mut due).expect("memory");
    assert_eq!(told(&program.end()), told(&due), "at the end");
}

fn told(bytes: &[u8]) -> String {
    String::from_utf8_lossy(bytes).into_owned()
}

#[test]
fn one_line_one_answer() {
    talk(&[
        b"s 24\n",
        b"q 1 100\n",
        b"p\n",
        b"\n",
        b"b 0\n",
        b"x 1\n",
        b"t\n",
        b"q 1 0\n",
    ]);
}

#[test]
fn whole_lines_are_answered_though_another_has_begun() {
    talk(&[
        b"s 24\nq 1 1",
        b"00\nq 1 100\nq 1 ",
        b"100",
        b"\n",
        b"\n\n",
        b"b 104\np\nx",
        b" 1\nt",
    ]);
}

#[test]
fn a_line_that_is_too_long_is_answered_at_its_end() {
    let long = [b't'; 100];
    talk(&[b"s 24\n", &long, &long, b"\n", b"t\n", &long, &long]);
}

#[test]
fn a_listing_comes_whole() {
    // As many runs and blocks as 24 pages have.
    let asked = b"q 12 8192\n".repeat(12);
    let returned: Vec<u8> = (0..6)
        .flat_map(|at| format!("r 12 {}\n", at * 16_384).into_bytes())
        .collect();
    talk(&[b"s 24\n", &asked, b"p\n", &returned, b"p\n", b"p\np\np\n"]);
}

#[test]
fn long_talks() {
    for (number, profile) in Profile::ALL.into_iter().enumerate() {
        for part in 0..4 {
            let typed = script(profile, 9_000_000 + 10 * number as u64 + part, 500);
            let lines: Vec<&[u8]> = typed.split_inclusive(|byte| *byte == b'\n').collect();
            talk(&lines);
        }
    }
}
