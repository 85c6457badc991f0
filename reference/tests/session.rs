//! Document 01's whole session, answered as document 02's request a) has it,
//! byte for byte, however the input is cut.

mod common;

use common::{bench, bench_bytes};
use reference::bench::{run, Bench, WORDS};
use std::io::{self, Read};

const INPUT: &[u8] = include_bytes!("../../examples/session.txt");
const OUTPUT: &[u8] = include_bytes!("../../examples/session.out");

/// A reader that brings so many bytes with each read.
struct Pieces<'a> {
    rest: &'a [u8],
    length: usize,
}

impl Read for Pieces<'_> {
    fn read(&mut self, buffer: &mut [u8]) -> io::Result<usize> {
        let length = self.length.min(buffer.len());
        self.rest.read(&mut buffer[..length])
    }
}

#[test]
fn fixtures_are_document_01s_with_request_a() {
    let count = |bytes: &[u8]| bytes.iter().filter(|&&byte| byte == b'\n').count();
    assert_eq!((count(INPUT), INPUT.len()), (14, 88));
    assert_eq!((count(OUTPUT), OUTPUT.len()), (27, 182));
}

#[test]
fn session_whole() {
    assert_eq!(bench_bytes(INPUT), OUTPUT);
}

#[test]
fn session_in_reads_of_every_length() {
    for length in 1..=INPUT.len() {
        let mut input = Pieces {
            rest: INPUT,
            length,
        };
        let mut output = Vec::new();
        run(WORDS, &mut input, &mut output).unwrap();
        assert_eq!(output, OUTPUT, "{length} bytes with each read");
    }
}

#[test]
fn session_cut_in_two_at_every_byte() {
    for cut in 0..=INPUT.len() {
        let mut bench = Bench::new(WORDS);
        let mut output = Vec::new();
        bench.feed(&INPUT[..cut], &mut output).unwrap();
        bench.feed(&INPUT[cut..], &mut output).unwrap();
        bench.finish(&mut output).unwrap();
        assert_eq!(output, OUTPUT, "cut before byte {cut}");
    }
}

#[test]
fn session_without_its_last_line_end() {
    let cut = &INPUT[..INPUT.len() - 1];
    assert_eq!(bench_bytes(cut), OUTPUT);
}

#[test]
fn session_twice_over() {
    // The second start forgets the first round.
    let output = bench_bytes(&[INPUT, INPUT].concat());
    assert_eq!(output, [OUTPUT, OUTPUT].concat());
}

#[test]
fn ask_104_after_the_session() {
    let output = bench_bytes(&[INPUT, b"b 104\n"].concat());
    assert_eq!(output, [OUTPUT, b"2 104\n"].concat());
}

#[test]
fn ask_104_after_each_line_of_the_session() {
    let lines: Vec<&str> = std::str::from_utf8(INPUT).unwrap().lines().collect();
    for done in 0..=lines.len() {
        let script = format!("{}\nb 104\n", lines[..done].join("\n"));
        let answer = match done {
            0 => "no 3",
            1 | 2 => "no 7",
            _ => "2 104",
        };
        let output = bench(&script);
        assert_eq!(output.lines().last(), Some(answer), "after {done} lines");
    }
}
