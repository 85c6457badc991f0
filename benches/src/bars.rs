//! Bars on ratios, and what a line says of one.

use std::fmt::Display;

/// Whether a bar is met, and the bar itself as its constant gives it.
pub fn remark(met: bool, bar: impl Display) -> String {
    match met {
        true => format!("bar met (at most {bar})"),
        false => format!("bar MISSED (at most {bar})"),
    }
}
