//! `reference [--words N]`: the bench program on abstract states, from
//! standard input to standard output.

#![forbid(unsafe_code)]

use reference::bench::{run, WORDS};
use reference::lines::decimal;
use std::ffi::OsString;
use std::io::{stdin, stdout, BufWriter};
use std::process::ExitCode;

const USAGE: &str = "usage: reference [--words N]";

fn main() -> ExitCode {
    let arguments: Vec<OsString> = std::env::args_os().skip(1).collect();
    let words = match words(&arguments) {
        Some(words) => words,
        None => {
            eprintln!("{USAGE}");
            return ExitCode::from(2);
        }
    };
    let mut output = BufWriter::new(stdout().lock());
    match run(words, &mut stdin().lock(), &mut output) {
        Ok(()) => ExitCode::SUCCESS,
        Err(error) => {
            eprintln!("reference: {error}");
            ExitCode::FAILURE
        }
    }
}

/// The number of words that the arguments name, if they are right.
fn words(arguments: &[OsString]) -> Option<usize> {
    match arguments {
        [] => Some(WORDS),
        [flag, number] if flag == "--words" => {
            let number = decimal(number.to_str()?.as_bytes())?;
            usize::try_from(number).ok()
        }
        _ => None,
    }
}
