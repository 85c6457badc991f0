//! How long the bench program takes for many lines, beside as many checks of its words.
//!
//!     cargo run --release --offline --locked -p benches --bin lines
//!
//! The lines are calls of the mixed profile in as many pages as the program's words are enough for.
//! The program reads them from a file and writes to /dev/null; its start and its end are part of its
//! time.
//!
//! A call reads all words before it does anything, so the checks are the least that the program can
//! take; the bar says how much more it may. They are made apart from it: the same calls are made
//! through the library for C, and before each of them `nostrimel_check` is measured alone on the
//! words that the call meets, less what the clock takes.
//!
//! The two take turns, since each takes seconds and other programs on the machine disturb whole runs
//! of both; the middle one of the ratios counts. The exit status is 1 if the bar is missed.

mod bars;
mod single;

use bars::remark;
use reference::bench::WORDS;
use reference::calls::Call;
use reference::histories::Profile;
use reference::lines::parse;
use single::{clock, time_of};
use std::env::temp_dir;
use std::fs::{remove_file, write, File};
use std::path::PathBuf;
use std::process::{id, Command, ExitCode, Stdio};
use tests::calls::serve;
use tests::check::check;
use tests::program::{answers, compare, PROGRAM};
use tests::scripts::Script;

/// The greatest ratio of the program to the checks.
const BAR: f64 = 1.3;
const LINES: u32 = 1_000_000;
const PAGES: u32 = 24;
const SEED: u64 = 7;
const RUNS: u32 = 7;

/// A file that is gone with its owner.
struct Temporary(PathBuf);

impl Drop for Temporary {
    fn drop(&mut self) {
        // It is of no more use to anybody.
        let _ = remove_file(&self.0);
    }
}

fn main() -> ExitCode {
    let history = Script::started(Profile::Mixed, SEED, PAGES);
    let script = history.calls(LINES - 1).bytes();
    // The time of wrong answers would say nothing.
    compare("the lines", &script, &answers(&script));
    let calls = calls_of(&script);
    let file = Temporary(temp_dir().join(format!("nostrimel-lines-{}", id())));
    write(&file.0, &script).expect("the script can be written");
    let clock = clock();
    println!("{LINES} lines of the mixed profile in {PAGES} pages through {PROGRAM},");
    println!("from a file to /dev/null, beside as many checks alone of the {WORDS} words that");
    println!("each call meets");
    println!("{:>12}{:>12}{:>8}", "program ms", "checks ms", "ratio");
    let ratios = (0..RUNS).map(|_| {
        let (program, checks) = (program_time(&file), checks_time(&calls, clock));
        let ratio = program / checks;
        println!("{:>12.0}{:>12.0}{ratio:>8.2}", ms(program), ms(checks));
        ratio
    });
    let ratio = middle(ratios.collect());
    let met = ratio <= BAR;
    println!("The middle ratio, {ratio:.2}: {}", remark(met, BAR));
    ExitCode::from(u8::from(!met))
}

fn middle(mut values: Vec<f64>) -> f64 {
    values.sort_by(f64::total_cmp);
    values[values.len() / 2]
}

fn ms(nanoseconds: f64) -> f64 {
    nanoseconds / 1e6
}

fn calls_of(script: &[u8]) -> Vec<Call> {
    let lines = script.split(|byte| *byte == b'\n');
    let calls: Vec<Call> = lines.filter_map(parse).collect();
    assert_eq!(calls.len(), LINES as usize);
    calls
}

/// Nanoseconds that the program takes for the script.
fn program_time(script: &Temporary) -> f64 {
    let input = File::open(&script.0).expect("the script can be read");
    let mut program = Command::new(PROGRAM);
    program.stdin(input).stdout(Stdio::null());
    let (time, status) = time_of(|| program.status());
    assert!(status.expect("the program runs").success());
    time
}

/// Nanoseconds that the check takes on the words that each of the calls meets, all together.
fn checks_time(calls: &[Call], clock: f64) -> f64 {
    let mut words = vec![0; WORDS];
    let mut legal = 0;
    let mut sum = 0.0;
    for call in calls {
        let (time, answer) = time_of(|| check(&mut words));
        sum += time - clock;
        legal += answer as usize;
        // What is answered was compared above.
        let _ = serve(&mut words, *call);
    }
    // All but the first, which the start of the arena meets.
    assert_eq!(legal, calls.len() - 1);
    sum
}
