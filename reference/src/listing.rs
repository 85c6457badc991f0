//! The listing's text: runs, direct blocks and zones, each after their count.

use crate::state::State;

/// Bytes of the longest listing of any legal state: 256 direct blocks of one
/// page each, all of a group with two digits.
pub const LONGEST: usize = 2_220;

/// The whole text; every line ends with LF.
pub fn text(state: &State) -> String {
    [runs(state), direct(state), zones(state)].concat()
}

fn runs(state: &State) -> String {
    let lines = state
        .runs
        .iter()
        .map(|run| format!("{} {}\n", run.start, run.pages));
    section("runs", lines.collect())
}

fn direct(state: &State) -> String {
    let lines = state
        .direct
        .iter()
        .map(|(start, block)| format!("{} {} {}\n", start, block.pages, block.group));
    section("direct", lines.collect())
}

fn zones(state: &State) -> String {
    let lines = state
        .zones
        .iter()
        .map(|(start, zone)| format!("{} {} {}\n", start, zone.class, zone.live_chunks()));
    section("zones", lines.collect())
}

fn section(name: &str, lines: Vec<String>) -> String {
    format!("{name} {}\n{}", lines.len(), lines.concat())
}
