//! An input that cannot be read, and an output that cannot be written: one line on standard error,
//! and status 0, which is all that a program of the kit's can end with (docs/DECISIONS.md).

use std::fs::{File, OpenOptions};
use std::process::{Command, Stdio};

use tests::program::PROGRAM;

const UNREAD: &str = "bench: standard input cannot be read\n";
const UNWRITTEN: &str = "bench: standard output cannot be written\n";

/// What the program writes to standard error and to standard output, if that is a pipe. It ends by itself.
fn told(input: File, output: Stdio) -> (String, String) {
    let program = Command::new(PROGRAM)
        .stdin(input)
        .stdout(output)
        .stderr(Stdio::piped())
        .spawn()
        .unwrap_or_else(|error| panic!("{PROGRAM} does not start: {error}"));
    let ended = program.wait_with_output().expect("it can be waited for");
    assert_eq!(ended.status.code(), Some(0));
    let text = |bytes| String::from_utf8(bytes).expect("ASCII");
    (text(ended.stderr), text(ended.stdout))
}

/// A script in a file of its own, which is gone with the test's folder.
fn script(name: &str, text: &[u8]) -> File {
    let path = format!("{}/failing-{name}.txt", env!("CARGO_TARGET_TMPDIR"));
    std::fs::write(&path, text).unwrap_or_else(|error| panic!("{path}: {error}"));
    File::open(&path).unwrap_or_else(|error| panic!("{path}: {error}"))
}

/// A device that is always full.
fn full() -> Stdio {
    let device = OpenOptions::new().write(true).open("/dev/full");
    device.expect("Linux has a full device").into()
}

#[test]
fn a_folder_as_input() {
    let folder = File::open(env!("CARGO_MANIFEST_DIR")).expect("a folder can be opened");
    let none = String::new();
    assert_eq!(told(folder, Stdio::piped()), (UNREAD.to_string(), none));
}

#[test]
fn a_full_disk() {
    // One answer at the end of a read; the answer to a last line without LF; and so many answers that
    // they are written before all lines are served.
    let many = b"s 24\n".repeat(60_000);
    let scripts: [(&str, &[u8]); 3] = [("one", b"s 24\n"), ("last", b"t"), ("many", &many)];
    for (name, text) in scripts {
        let (errors, _) = told(script(name, text), full());
        assert_eq!(errors, UNWRITTEN, "{name}");
    }
}

#[test]
fn nothing_to_write_is_no_failure() {
    let (errors, _) = told(script("empty", b""), full());
    assert_eq!(errors, "");
}

#[test]
fn both_are_there() {
    let (errors, answers) = told(script("both", b"s 24\nq 1 100"), Stdio::piped());
    assert_eq!((errors.as_str(), answers.as_str()), ("", "ok\nat 0\n"));
}
