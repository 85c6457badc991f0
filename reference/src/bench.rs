//! The bench program: bytes in, bytes out, one call a line.

use crate::calls::Allocator;
use crate::lines::{parse, render, MAX_LINE, NOT_A_CALL};
use std::io::{self, ErrorKind, Read, Write};

/// Words of the bench program's books: enough for 24 pages.
pub const WORDS: usize = 13_568;

/// Bytes asked for in one read.
const READ_BYTES: usize = 65_536;

/// An allocator that is given its calls as bytes, in pieces of any length.
pub struct Bench {
    allocator: Allocator,
    /// The unfinished line; of a line that is too long, just so many bytes
    /// that it stays too long.
    line: Vec<u8>,
}

impl Bench {
    /// A bench program whose books have this many words, all zero.
    pub fn new(words: usize) -> Bench {
        Bench {
            allocator: Allocator::zeroed(words),
            line: Vec::new(),
        }
    }

    /// The allocator as the lines up to here have left it.
    pub fn allocator(&self) -> &Allocator {
        &self.allocator
    }

    /// How many bytes of an unfinished line are kept.
    pub fn kept_bytes(&self) -> usize {
        self.line.len()
    }

    /// Takes a piece of the input and answers the lines that it ends.
    pub fn feed(&mut self, piece: &[u8], output: &mut impl Write) -> io::Result<()> {
        for part in piece.split_inclusive(|&byte| byte == b'\n') {
            match part.strip_suffix(b"\n") {
                Some(rest) => {
                    self.keep(rest);
                    self.answer(output)?;
                }
                None => self.keep(part),
            }
        }
        Ok(())
    }

    /// Ends the input: a last line without LF counts if it has a byte.
    pub fn finish(&mut self, output: &mut impl Write) -> io::Result<()> {
        if self.line.is_empty() {
            return Ok(());
        }
        self.answer(output)
    }

    fn keep(&mut self, bytes: &[u8]) {
        let wanted = MAX_LINE + 1 - self.line.len();
        self.line.extend(bytes.iter().take(wanted));
    }

    fn answer(&mut self, output: &mut impl Write) -> io::Result<()> {
        let call = parse(&self.line);
        self.line.clear();
        match call {
            Some(call) => output.write_all(render(&self.allocator.serve(call)).as_bytes()),
            None => output.write_all(NOT_A_CALL.as_bytes()),
        }
    }
}

/// Reads to the end of the input. The lines that a read has brought are all
/// answered, and the answers flushed, before the next read, so that a person
/// at a terminal sees each answer at once.
pub fn run(words: usize, input: &mut impl Read, output: &mut impl Write) -> io::Result<()> {
    let mut bench = Bench::new(words);
    let mut buffer = vec![0; READ_BYTES];
    loop {
        match input.read(&mut buffer) {
            Ok(0) => break,
            Ok(length) => bench.feed(&buffer[..length], output)?,
            Err(error) if error.kind() == ErrorKind::Interrupted => continue,
            Err(error) => return Err(error),
        }
        output.flush()?;
    }
    bench.finish(output)?;
    output.flush()
}
