//! How long the proved check takes, beside a plain OR over the same words.
//!
//!     cargo run --release --offline --locked -p benches --bin check
//!
//! One line for each state: nanoseconds a call of both, their ratio, and whether the bar on the
//! ratio is met, where there is one. The exit status is 1 if one is missed. Figures are the fastest
//! of many repetitions, so that other programs on the machine disturb them little; a second run
//! shows by how much.

mod bars;
mod cases;
mod timing;

use cases::{cases, Case};
use std::process::ExitCode;
use tests::check::check;
use tests::layout::encode;
use timing::{lower, Function};

/// How often all states are gone through: a slow stretch of the machine can last for seconds, and
/// each state is to be met outside of it too.
const PASSES: u32 = 10;

/// The words that the OR takes at a time. In a loop over single words the compiler's own is so short
/// that its place in the program decides between one time and twice that.
const BLOCK: usize = 64;

/// What the check is measured by: each word read, and next to nothing done with it. It stays a
/// function of its own, so that nothing that its caller knows of the words is known inside.
#[inline(never)]
fn plain_or(words: &mut [u32]) -> u32 {
    let blocks = words.chunks_exact(BLOCK);
    let rest = blocks.remainder().iter().fold(0, |all, word| all | word);
    blocks.fold(rest, |all, block| {
        block.iter().fold(all, |all, word| all | word)
    })
}

/// A state with its words and, so far, the fastest calls of the check and of the OR on them.
struct Measured {
    case: Case,
    words: Vec<u32>,
    nanoseconds: [f64; 2],
}

const FUNCTIONS: [Function; 2] = [check, plain_or];

fn main() -> ExitCode {
    // The library is compiled for the baseline, so the OR has to be too.
    if cfg!(target_feature = "sse3") {
        println!("Built for more than the x86-64 baseline: the bars are not meant for this.");
    }
    let cases = [1, 24, 256].into_iter().flat_map(cases);
    let mut measured: Vec<Measured> = cases.map(Measured::new).collect();
    for _ in 0..PASSES {
        for one in &mut measured {
            lower(&mut one.nanoseconds, &FUNCTIONS, &mut one.words);
        }
    }
    println!(
        "{:>5}  {:<42}{:>12}{:>12}{:>8}",
        "pages", "state", "check ns", "OR ns", "ratio"
    );
    measured.iter().for_each(Measured::print);
    let missed = measured.iter().any(|one| one.case.misses(one.ratio()));
    ExitCode::from(u8::from(missed))
}

impl Measured {
    fn new(case: Case) -> Measured {
        let mut words = encode(&case.state);
        // The time of a refusal would say nothing.
        assert_eq!(check(&mut words), 1, "the check refuses: {}", case.name);
        Measured {
            case,
            words,
            nanoseconds: [f64::INFINITY; 2],
        }
    }

    fn ratio(&self) -> f64 {
        self.nanoseconds[0] / self.nanoseconds[1]
    }

    fn print(&self) {
        let (pages, name) = (self.case.state.pages, self.case.name);
        let ([check_ns, or_ns], ratio) = (self.nanoseconds, self.ratio());
        let remark = self.case.remark(ratio);
        println!("{pages:>5}  {name:<42}{check_ns:>12.1}{or_ns:>12.1}{ratio:>8.2}  {remark}");
    }
}
