//! The bench program's reading and writing: answers before the next read,
//! little memory for a long line, and inputs that fail.

use reference::bench::{run, Bench, WORDS};
use std::cell::RefCell;
use std::collections::VecDeque;
use std::io::{self, ErrorKind, Read, Write};
use std::rc::Rc;

/// What the bench program has written, and how much of it is flushed.
#[derive(Default)]
struct Screen {
    written: Vec<u8>,
    flushed: usize,
}

#[derive(Clone, Default)]
struct Output(Rc<RefCell<Screen>>);

impl Output {
    fn seen(&self) -> String {
        let screen = self.0.borrow();
        String::from_utf8(screen.written[..screen.flushed].to_vec()).unwrap()
    }
}

impl Write for Output {
    fn write(&mut self, bytes: &[u8]) -> io::Result<usize> {
        self.0.borrow_mut().written.extend(bytes);
        Ok(bytes.len())
    }

    fn flush(&mut self) -> io::Result<()> {
        let mut screen = self.0.borrow_mut();
        screen.flushed = screen.written.len();
        Ok(())
    }
}

/// A person at a terminal: types a piece, and expects to have seen everything
/// that is due before typing the next.
struct Person {
    pieces: VecDeque<(&'static str, &'static str)>,
    due: String,
    screen: Output,
}

impl Read for Person {
    fn read(&mut self, buffer: &mut [u8]) -> io::Result<usize> {
        assert_eq!(self.screen.seen(), self.due);
        match self.pieces.pop_front() {
            Some((typed, answer)) => {
                self.due.push_str(answer);
                typed.as_bytes().read(buffer)
            }
            None => Ok(0),
        }
    }
}

#[test]
fn whole_lines_are_answered_before_the_next_read() {
    let screen = Output::default();
    let mut person = Person {
        pieces: VecDeque::from([
            ("s 24\n", "ok\n"),
            ("q 1 1", ""),
            ("00\nq 1 100\nq 1 ", "at 0\nat 104\n"),
            ("100", ""),
            ("\n", "at 208\n"),
            ("\n\n", "?\n?\n"),
            ("t", ""),
        ]),
        due: String::new(),
        screen: screen.clone(),
    };
    run(WORDS, &mut person, &mut screen.clone()).unwrap();
    assert_eq!(screen.seen(), "ok\nat 0\nat 104\nat 208\n?\n?\nok 0\n");
}

#[test]
fn at_most_65_bytes_of_a_line_are_kept() {
    let mut bench = Bench::new(WORDS);
    let mut output = Vec::new();
    for _ in 0..1_000 {
        bench.feed(&[b'1'; 1_000], &mut output).unwrap();
        assert!(bench.kept_bytes() <= 65);
    }
    assert_eq!(output, b"");
    bench.feed(b"\n", &mut output).unwrap();
    assert_eq!((output.as_slice(), bench.kept_bytes()), (&b"?\n"[..], 0));
}

#[test]
fn a_line_of_many_megabytes_is_one_question_mark() {
    let line = io::repeat(b'q').take(50_000_000);
    let mut input = line.chain(&b"\ns 24\n"[..]);
    let mut output = Vec::new();
    run(WORDS, &mut input, &mut output).unwrap();
    assert_eq!(output, b"?\nok\n");
}

/// A reader that fails once after each of its pieces.
struct Failing {
    kind: ErrorKind,
    pieces: VecDeque<&'static [u8]>,
    fails_next: bool,
}

impl Read for Failing {
    fn read(&mut self, buffer: &mut [u8]) -> io::Result<usize> {
        if self.fails_next {
            self.fails_next = false;
            return Err(io::Error::from(self.kind));
        }
        self.fails_next = true;
        self.pieces.pop_front().unwrap_or(b"").read(buffer)
    }
}

fn failing(kind: ErrorKind) -> Failing {
    Failing {
        kind,
        pieces: VecDeque::from([&b"s 24\nq 1"[..], b" 100\n"]),
        fails_next: false,
    }
}

#[test]
fn an_interrupted_read_is_tried_again() {
    let mut output = Vec::new();
    run(WORDS, &mut failing(ErrorKind::Interrupted), &mut output).unwrap();
    assert_eq!(output, b"ok\nat 0\n");
}

#[test]
fn a_failed_read_ends_the_run_after_the_answers_so_far() {
    let screen = Output::default();
    let result = run(WORDS, &mut failing(ErrorKind::Other), &mut screen.clone());
    assert_eq!(result.unwrap_err().kind(), ErrorKind::Other);
    assert_eq!(screen.seen(), "ok\n");
}

#[test]
fn more_words_serve_larger_arenas() {
    for (words, answer) in [(134_207, "no 2\n"), (134_208, "ok\n")] {
        let mut output = Vec::new();
        run(words, &mut &b"s 256\n"[..], &mut output).unwrap();
        assert_eq!(output, answer.as_bytes());
    }
}
