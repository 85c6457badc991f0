//! The bench program, run as a process of its own with pipes, and the second program's answers
//! beside it.
//!
//! A program that stops answering fails its test after a while; none is waited for without end.

use reference::bench::{run, Bench, WORDS};
use std::io::{ErrorKind, Read, Write};
use std::os::raw::{c_int, c_ulong};
use std::os::unix::io::AsRawFd;
use std::process::{Child, ChildStdin, Command, ExitStatus, Stdio};
use std::sync::mpsc::{channel, Receiver, RecvTimeoutError, Sender};
use std::thread;
use std::time::{Duration, Instant};

/// The program under test, by its whole path.
pub const PROGRAM: &str = env!("NOSTRIMEL_PROGRAM");

/// How long a program may take with nothing to show for it.
const PATIENCE: Duration = Duration::from_secs(30);

/// Bytes asked for in one read of the program's output.
const READ_BYTES: usize = 65_536;

/// What the program under test writes for an input that is written in one go.
pub fn answers(input: &[u8]) -> Vec<u8> {
    let mut program = Program::start();
    let mut pipe = program.input.take().expect("the input is open");
    thread::scope(|scope| {
        // The input may be longer than what the pipes hold, so both ends have to be served at
        // once. A program that ends early shows in what it has written.
        scope.spawn(move || pipe.write_all(input));
        program.end()
    })
}

/// What the second program writes for an input.
pub fn expected(input: &[u8]) -> Vec<u8> {
    let mut output = Vec::new();
    run(WORDS, &mut &*input, &mut output).expect("memory takes every byte");
    output
}

/// Fails unless these answers to an input are the second program's.
pub fn compare(name: &str, input: &[u8], answers: &[u8]) {
    if answers != expected(input) {
        panic!("{name}: {}", difference(input, answers));
    }
}

/// The first line that the second program answers otherwise.
fn difference(input: &[u8], answers: &[u8]) -> String {
    let mut bench = Bench::new(WORDS);
    let mut rest = answers;
    for (at, line) in input.split_inclusive(|byte| *byte == b'\n').enumerate() {
        let mut due = Vec::new();
        let fed = bench.feed(line, &mut due);
        let ended = match line.ends_with(b"\n") {
            true => Ok(()),
            false => bench.finish(&mut due),
        };
        fed.and(ended).expect("memory takes every byte");
        if !rest.starts_with(&due) {
            let shown = &rest[..rest.len().min(due.len() + 10)];
            return format!(
                "line {}, {}: answered {}, not {}",
                at + 1,
                quoted(line),
                quoted(shown),
                quoted(&due)
            );
        }
        rest = &rest[due.len()..];
    }
    format!("{} bytes behind the last answer", rest.len())
}

fn quoted(bytes: &[u8]) -> String {
    format!("{:?}", String::from_utf8_lossy(bytes))
}

/// The program under way.
pub struct Program {
    child: Child,
    input: Option<ChildStdin>,
    /// What it writes, piece by piece as it comes; closed at the end.
    output: Receiver<Vec<u8>>,
    /// What has come and not been asked for yet.
    pending: Vec<u8>,
}

impl Program {
    pub fn start() -> Program {
        let mut child = Command::new(PROGRAM)
            .stdin(Stdio::piped())
            .stdout(Stdio::piped())
            .stderr(Stdio::piped())
            .spawn()
            .unwrap_or_else(|error| panic!("{PROGRAM} does not start: {error}"));
        let input = child.stdin.take();
        let output = child.stdout.take().expect("the output is a pipe");
        let (sender, receiver) = channel();
        thread::spawn(move || pass_on(output, sender));
        Program {
            child,
            input,
            output: receiver,
            pending: Vec::new(),
        }
    }

    /// Writes a piece of the input, and waits until the program has read it: what is written next
    /// comes to it with another read.
    pub fn feed(&mut self, piece: &[u8]) {
        let pipe = self.input.as_mut().expect("the input is open");
        pipe.write_all(piece).expect("the program reads on");
        let pipe = pipe.as_raw_fd();
        self.wait_for("it reads no more", |_| (unread(pipe) == 0).then_some(()));
    }

    /// The next bytes that the program writes, so many of them, without any more input.
    pub fn next(&mut self, length: usize) -> Vec<u8> {
        while self.pending.len() < length {
            match self.output.recv_timeout(PATIENCE) {
                Ok(bytes) => self.pending.extend(bytes),
                Err(error) => {
                    let so_far = quoted(&self.pending);
                    self.fail(&format!("{length} bytes are due, {so_far} came: {error}"))
                }
            }
        }
        let rest = self.pending.split_off(length);
        std::mem::replace(&mut self.pending, rest)
    }

    /// Ends the input; what the program has written up to its own end and not been asked for. It
    /// has to end with status 0, and with nothing on standard error.
    pub fn end(&mut self) -> Vec<u8> {
        self.input = None;
        loop {
            match self.output.recv_timeout(PATIENCE) {
                Ok(bytes) => self.pending.extend(bytes),
                Err(RecvTimeoutError::Disconnected) => break,
                Err(RecvTimeoutError::Timeout) => self.fail("it does not end"),
            }
        }
        let status = self.status();
        let mut errors = Vec::new();
        let mut pipe = self.child.stderr.take().expect("nobody else reads it");
        pipe.read_to_end(&mut errors).expect("a pipe can be read");
        let told = (status.code(), quoted(&errors));
        assert_eq!(told, (Some(0), quoted(b"")), "status, standard error");
        std::mem::take(&mut self.pending)
    }

    fn status(&mut self) -> ExitStatus {
        self.wait_for("its output has ended, it has not", |program| {
            let status = program.child.try_wait();
            status.expect("a child can be waited for")
        })
    }

    /// What happens within the time that a program has.
    fn wait_for<T>(
        &mut self,
        otherwise: &str,
        mut happens: impl FnMut(&mut Program) -> Option<T>,
    ) -> T {
        let deadline = Instant::now() + PATIENCE;
        loop {
            match happens(self) {
                Some(value) => return value,
                None if Instant::now() > deadline => self.fail(otherwise),
                None => thread::yield_now(),
            }
        }
    }

    /// Ends the program first: a thread may wait for it to read.
    fn fail(&mut self, reason: &str) -> ! {
        self.kill();
        panic!("{PROGRAM}: {reason}");
    }

    fn kill(&mut self) {
        // It may have ended by itself.
        let _ = self.child.kill();
        let _ = self.child.wait();
    }
}

impl Drop for Program {
    fn drop(&mut self) {
        self.kill();
    }
}

/// Passes the program's output on until it ends.
fn pass_on(mut output: impl Read, sender: Sender<Vec<u8>>) {
    let mut buffer = vec![0; READ_BYTES];
    loop {
        match output.read(&mut buffer) {
            Ok(0) => return,
            Ok(length) => {
                if sender.send(buffer[..length].to_vec()).is_err() {
                    return;
                }
            }
            Err(error) if error.kind() == ErrorKind::Interrupted => {}
            Err(_) => return,
        }
    }
}

extern "C" {
    fn ioctl(descriptor: c_int, request: c_ulong, ...) -> c_int;
}

/// Linux's request for the number of bytes that wait in a pipe.
const FIONREAD: c_ulong = 0x541b;

/// Bytes that have been written to a pipe and not been read yet.
fn unread(pipe: c_int) -> c_int {
    let mut count: c_int = 0;
    // SAFETY: the request writes one int, which is a local's.
    let answer = unsafe { ioctl(pipe, FIONREAD, &mut count as *mut c_int) };
    assert_eq!(answer, 0, "the pipe can be asked");
    count
}
