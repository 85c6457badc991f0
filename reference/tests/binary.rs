//! The program itself: its arguments, its exit status, its three streams.

use std::io::Write;
use std::process::{Command, Output, Stdio};

/// Runs the program with these arguments and this standard input.
fn reference(arguments: &[&str], input: &[u8]) -> Output {
    let mut child = Command::new(env!("CARGO_BIN_EXE_reference"))
        .args(arguments)
        .stdin(Stdio::piped())
        .stdout(Stdio::piped())
        .stderr(Stdio::piped())
        .spawn()
        .expect("the program starts");
    // With wrong arguments it may have ended before the input is written.
    let _ = child.stdin.take().unwrap().write_all(input);
    child.wait_with_output().expect("the program ends")
}

#[test]
fn the_session_on_standard_streams() {
    let output = reference(&[], include_bytes!("../../examples/session.txt"));
    assert_eq!(output.status.code(), Some(0));
    assert_eq!(output.stdout, include_bytes!("../../examples/session.out"));
    assert_eq!(output.stderr, b"");
}

#[test]
fn any_bytes_are_survived() {
    let input: Vec<u8> = (0..=u8::MAX).cycle().take(10_000).collect();
    let output = reference(&[], &input);
    let lines = input.split(|&byte| byte == b'\n').count();
    assert_eq!(output.status.code(), Some(0));
    assert_eq!(output.stdout, b"?\n".repeat(lines));
    assert_eq!(output.stderr, b"");
}

#[test]
fn books_are_long_enough_for_24_pages() {
    let output = reference(&[], b"s 25\ns 24\n");
    assert_eq!(output.stdout, b"no 2\nok\n");
}

#[test]
fn words_makes_the_books_longer_or_shorter() {
    let cases: [(&str, &[u8]); 4] = [
        ("134208", b"ok\nok\n"),
        ("134207", b"no 2\nok\n"),
        ("1608", b"no 2\nok\n"),
        ("0", b"no 2\nno 2\n"),
    ];
    for (words, answers) in cases {
        let output = reference(&["--words", words], b"s 256\ns 1\n");
        assert_eq!(output.status.code(), Some(0));
        assert_eq!(output.stdout, answers, "--words {words}");
    }
}

#[test]
fn wrong_arguments_are_one_line_on_standard_error() {
    let cases: [&[&str]; 9] = [
        &["--words"],
        &["--words", ""],
        &["--words", "x"],
        &["--words", "-1"],
        &["--words", "+1"],
        &["--words", "01"],
        &["--words", "1", "2"],
        &["--help"],
        &["file"],
    ];
    for arguments in cases {
        let output = reference(arguments, b"s 24\n");
        assert_eq!(output.status.code(), Some(2), "{arguments:?}");
        assert_eq!(output.stdout, b"", "{arguments:?}");
        let lines = output.stderr.iter().filter(|&&byte| byte == b'\n');
        assert_eq!(lines.count(), 1, "{arguments:?}");
    }
}
