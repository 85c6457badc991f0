//! Generated scripts, each given to a program of its own: whole, byte by byte, and cut at random
//! places. A piece is written only when the one before it has been read, so that each comes with a
//! read of its own.

use reference::histories::{Profile, Xorshift};
use tests::counts::{on_all_processors, Counts};
use tests::program::{answers, compare, expected, Program};
use tests::scripts::script;

/// How a script comes to the program.
#[derive(Clone, Copy, Debug)]
enum Feeding {
    Whole,
    /// Each byte by itself.
    Bytes,
    /// In pieces of up to so many bytes.
    Cut(u32),
}

impl Feeding {
    /// Lines that are fed in this way in a reasonable time.
    fn lines(self) -> u32 {
        match self {
            Feeding::Whole => 400,
            Feeding::Bytes => 100,
            Feeding::Cut(_) => 200,
        }
    }

    /// What the program answers, and how many reads it needed at least.
    fn answers(self, input: &[u8], random: &mut Xorshift) -> (Vec<u8>, u32) {
        let longest = match self {
            Feeding::Whole => return (answers(input), 1),
            Feeding::Bytes => 1,
            Feeding::Cut(longest) => longest,
        };
        let mut program = Program::start();
        let mut rest = input;
        let mut pieces = 0;
        while !rest.is_empty() {
            let length = (1 + random.below(longest) as usize).min(rest.len());
            let (piece, behind) = rest.split_at(length);
            program.feed(piece);
            rest = behind;
            pieces += 1;
        }
        (program.end(), pieces)
    }
}

const SCRIPTS: u32 = 4_500;

/// Scripts that were given.
const GIVEN: &str = "scripts";

/// What the answers to all scripts have to have.
const ANSWERS: [&str; 16] = [
    "at",
    "ok",
    "ok with a count",
    "?",
    "no 1",
    "no 2",
    "no 3",
    "no 4",
    "no 5",
    "no 6",
    "no 7",
    "no 8",
    "no 10",
    "runs",
    "direct",
    "zones",
];

#[test]
fn scripts_in_pieces_of_any_length() {
    let counts = on_all_processors(SCRIPTS, one);
    counts.print("Generated scripts");
    assert_eq!(counts.get(GIVEN), SCRIPTS);
    counts.expect(300, &ANSWERS);
}

fn one(number: u32, counts: &mut Counts) {
    let profiles = Profile::ALL.len() as u32;
    let profile = Profile::ALL[(number % profiles) as usize];
    let round = number / profiles;
    let feeding = match round % 3 {
        0 => Feeding::Whole,
        1 => Feeding::Bytes,
        _ => Feeding::Cut([2, 7, 30, 500][round as usize / 3 % 4]),
    };
    let mut random = Xorshift::new(u64::from(number) + 3_000_000);
    let input = script(profile, u64::from(number), feeding.lines());
    let (answers, reads) = feeding.answers(&input, &mut random);
    let name = format!("script {number}, {profile:?}, {feeding:?}");
    compare(&name, &input, &answers);
    counts.count(GIVEN, 1);
    counts.count("reads at least", reads);
    counts.count("bytes", input.len() as u32);
    for line in expected(&input).split(|byte| *byte == b'\n') {
        if !line.is_empty() {
            counts.count(kind_of(&String::from_utf8_lossy(line)), 1);
        }
    }
}

/// A line of the output by its word, and a refusal by its number too.
fn kind_of(line: &str) -> &str {
    match line.split_once(' ') {
        Some(("no", _)) => line,
        Some(("ok", _)) => "ok with a count",
        Some((word, _)) if word.as_bytes()[0].is_ascii_digit() => "group and room, or of a listing",
        Some((word, _)) => word,
        None => line,
    }
}
