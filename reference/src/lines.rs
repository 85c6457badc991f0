//! The bench program's lines: bytes to a call, and an answer to its text.

use crate::calls::{Answer, Call};
use crate::listing;

/// The most bytes a line may have before its LF.
pub const MAX_LINE: usize = 64;

/// What is written for a line that is no call.
pub const NOT_A_CALL: &str = "?\n";

/// The call that a line is, without its LF; `None` if it is none.
///
/// One space splits the fields, so that a leading, a trailing or a second
/// space leaves an empty field, and that is neither a letter nor a number.
pub fn parse(line: &[u8]) -> Option<Call> {
    if line.len() > MAX_LINE {
        return None;
    }
    let fields: Vec<&[u8]> = line.split(|&byte| byte == b' ').collect();
    let call = match fields.as_slice() {
        [b"s", pages] => Call::Init {
            pages: decimal(pages)?,
        },
        [b"q", group, size] => Call::Allocate {
            group: decimal(group)?,
            size: decimal(size)?,
        },
        [b"r", group, offset] => Call::Free {
            group: decimal(group)?,
            offset: decimal(offset)?,
        },
        [b"x", group] => Call::Reset {
            group: decimal(group)?,
        },
        [b"t"] => Call::Trim,
        [b"b", offset] => Call::Query {
            offset: decimal(offset)?,
        },
        // The size of the bench program's buffer is named nowhere; this one
        // takes every listing.
        [b"p"] => Call::Listing {
            capacity: listing::LONGEST,
        },
        _ => return None,
    };
    Some(call)
}

/// A decimal without sign or leading zero, at most 4,294,967,295. `0` alone
/// is one.
pub fn decimal(digits: &[u8]) -> Option<u32> {
    match digits {
        [b'0'] => return Some(0),
        [] | [b'0', ..] => return None,
        _ => {}
    }
    digits.iter().try_fold(0u32, |value, byte| {
        let digit = match byte {
            b'0'..=b'9' => u32::from(byte - b'0'),
            _ => return None,
        };
        value.checked_mul(10)?.checked_add(digit)
    })
}

/// The line of a call, without its LF: what [`parse`] reads, turned round. A
/// listing's line doesn't name its capacity. No line asks for the holdings, and
/// none sets a ceiling.
pub fn line_of(call: &Call) -> Option<String> {
    let line = match call {
        Call::Init { pages } => format!("s {pages}"),
        Call::Allocate { group, size } => format!("q {group} {size}"),
        Call::Free { group, offset } => format!("r {group} {offset}"),
        Call::Reset { group } => format!("x {group}"),
        Call::Trim => "t".to_string(),
        Call::Query { offset } => format!("b {offset}"),
        Call::Listing { .. } => "p".to_string(),
        Call::Holdings { .. } | Call::SetCeiling { .. } => return None,
    };
    Some(line)
}

/// What is written for an answer; every line ends with LF. A request's count of
/// runs is not written. Holdings are a line for each record; the bench program
/// never has to write them.
pub fn render(answer: &Answer) -> String {
    match answer {
        Answer::Granted { offset, .. } => format!("at {offset}\n"),
        Answer::Done => "ok\n".to_string(),
        Answer::Counted(count) => format!("ok {count}\n"),
        Answer::Held { group, room } => format!("{group} {room}\n"),
        Answer::Listed(text) => text.clone(),
        Answer::Fetched(holdings) => {
            let lines = holdings.iter().map(|holding| holding.line() + "\n");
            lines.collect()
        }
        Answer::Denied { refusal, .. } | Answer::Refused(refusal) => {
            format!("no {}\n", refusal.number())
        }
    }
}
