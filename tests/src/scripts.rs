//! Pseudo-random scripts for the bench program, the same for the same seed: histories of calls as
//! lines, with starts of other arenas and with lines that are no calls among them.

use reference::bench::WORDS;
use reference::calls::{Allocator, Call};
use reference::histories::{History, Profile, Xorshift};
use reference::lines::{line_of, parse};

/// The most pages that the bench program's words are enough for.
const PAGES: u32 = 24;

/// Every so many lines a script asks for the listing.
const LISTING: u32 = 10;

/// A script under way: its bytes, and what is known of the answers to them.
pub struct Script {
    bytes: Vec<u8>,
    random: Xorshift,
    history: History,
    /// The second program, which tells the history what is live.
    allocator: Allocator,
}

impl Script {
    /// A script that begins with a start.
    pub fn started(profile: Profile, seed: u64, pages: u32) -> Script {
        let mut script = Script::empty(profile, seed);
        script.call(Call::Init { pages });
        script
    }

    fn empty(profile: Profile, seed: u64) -> Script {
        Script {
            bytes: Vec::new(),
            random: Xorshift::new(!seed),
            // No line sets a ceiling.
            history: History::with(profile, seed).in_lines(),
            allocator: Allocator::zeroed(WORDS),
        }
    }

    /// So many calls more, as the history goes on.
    pub fn calls(mut self, calls: u32) -> Script {
        for _ in 0..calls {
            let call = self.history.next_call();
            self.call(call);
        }
        self
    }

    pub fn bytes(self) -> Vec<u8> {
        self.bytes
    }

    fn call(&mut self, call: Call) {
        self.lines(&bytes_of(&call));
    }

    /// Lines that are calls or not, the last of them without its LF, which is added.
    fn lines(&mut self, lines: &[u8]) {
        for line in lines.split(|byte| *byte == b'\n') {
            if let Some(call) = parse(line) {
                let answer = self.allocator.serve(call);
                self.history.observe(&call, &answer);
            }
        }
        self.bytes.extend(lines);
        self.bytes.push(b'\n');
    }

    fn page_count(&mut self) -> u32 {
        match self.random.below(4) {
            0 => 1 + self.random.below(PAGES),
            1 => self.random.pick(&[8, 15, 16, 17, 23]),
            _ => PAGES,
        }
    }
}

/// A script of about so many lines, one in eight of them damaged. Some begin before the first
/// start, some end without an LF; the end asks for the listing and for each block.
pub fn script(profile: Profile, seed: u64, lines: u32) -> Vec<u8> {
    let mut script = Script::empty(profile, seed);
    if script.random.below(8) == 0 {
        script = script.calls(5);
    }
    let pages = script.page_count();
    script.call(Call::Init { pages });
    for made in 1..=lines {
        if made % LISTING == 0 {
            script.lines(b"p");
        }
        let call = match script.random.below(200) {
            0 => Call::Init {
                pages: script.page_count(),
            },
            1 | 2 => Call::Init {
                pages: script.random.pick(&[0, 25, 26, 255, 256, 257]),
            },
            _ => script.history.next_call(),
        };
        let line = bytes_of(&call);
        let line = match script.random.below(8) {
            0 => damaged(line, &mut script.random),
            _ => line,
        };
        script.lines(&line);
    }
    script.lines(b"p");
    let live = script.history.live().to_vec();
    for block in live {
        let offset = block.offset;
        script.call(Call::Query { offset });
    }
    if script.random.below(3) == 0 {
        script.bytes.pop();
    }
    script.bytes
}

/// The line of a call, without its LF.
fn bytes_of(call: &Call) -> Vec<u8> {
    let line = line_of(call).expect("a history's calls have lines");
    line.into_bytes()
}

/// The line with something about it changed, mostly so that it is no call.
fn damaged(mut line: Vec<u8>, random: &mut Xorshift) -> Vec<u8> {
    let space = line.iter().position(|byte| *byte == b' ');
    // Where its first number begins, or where it ends.
    let number = space.map_or(line.len(), |at| at + 1);
    let any = random.below(line.len() as u32) as usize;
    match random.below(20) {
        0 => line.insert(number, b'0'),
        1 => line.insert(number, random.pick(b"+-")),
        2 => line.insert(number, b' '),
        3 => line.push(b' '),
        4 => line.insert(0, b' '),
        5 => line[number - 1] = b'\t',
        6 => line.push(b'\r'),
        7 => line.clear(),
        8 => line.resize(
            random.pick(&[63, 64, 65, 66, 130, 700]),
            random.pick(b"0 1t"),
        ),
        9 => {
            let largest: [&[u8]; 4] = [b"4294967295", b"4294967296", b"4294967399", b"99999999999"];
            line.splice(number.., random.pick(&largest).iter().copied());
        }
        10 => line[0] = random.pick(b"acdefghijklmnouvwyz?#"),
        11 => line[0].make_ascii_uppercase(),
        12 => line.truncate(number),
        13 => line.extend(b" 1"),
        14 => line.insert(any, 0),
        15 => line.insert(any, 128 + random.below(128) as u8),
        16 => line[any] = random.below(256) as u8,
        17 => line.insert(any, random.below(256) as u8),
        18 => line.insert(any, b'\n'),
        _ => {
            line.remove(any);
        }
    }
    line
}
