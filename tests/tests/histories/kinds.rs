//! What histories come upon: the kinds of calls with their answers, and of states.

use reference::calls::{Answer, Call};
use reference::ceilings::MAX_CEILING;
use reference::holdings::Holding;
use reference::sizes::GROUPS;
use reference::state::{Group, State, Zone};
use std::ops::RangeInclusive;
use tests::counts::Counts;
use tests::searches;

/// Calls that were made.
pub const CALLS: &str = "calls";
/// Live blocks that were asked for at a history's end.
pub const ASKED: &str = "live blocks asked for at the end";

/// All that histories are to come upon, with the searches, and nothing else.
pub const ALL: [&str; 43] = [
    "allocate, chunk: no 10",
    "allocate, chunk: no 4",
    "allocate, chunk: no 5",
    "allocate, chunk: no 6",
    "allocate, chunk: served",
    "allocate, pages: no 10",
    "allocate, pages: no 4",
    "allocate, pages: no 5",
    "allocate, pages: no 6",
    "allocate, pages: served",
    CALLS,
    "free: no 4",
    "free: no 7",
    "free: no 8",
    "free: served",
    "groups seen: that have held more",
    "groups seen: that hold just their ceiling",
    "groups seen: that hold more than their ceiling",
    "groups seen: that hold something",
    "holdings: no 9",
    "holdings: served",
    "init: no 1",
    "init: no 2",
    "init: served",
    "listing: no 12",
    "listing: served",
    "lists seen: empty list of two",
    "lists seen: of two zones or more",
    ASKED,
    "query: no 7",
    "query: served",
    "reset: no 4",
    "reset: served",
    "set ceiling: no 4",
    "set ceiling: no 5",
    "set ceiling: served",
    "set ceiling: served, below what is held",
    "set ceiling: served, the largest",
    "states seen: two runs or more",
    "trim: served",
    "zones seen: full",
    "zones seen: idle",
    "zones seen: with a chain",
];

/// The arenas in which searches are counted, each kind by itself.
const ARENAS: [(&str, RangeInclusive<u32>); 3] = [
    ("24 pages", 24..=24),
    ("25 to 127 pages", 25..=127),
    ("128 to 256 pages", 128..=256),
];

/// The second searches of every kind in every arena.
pub fn searches() -> Vec<String> {
    in_every_arena(searches::KINDS)
}

/// The counts of runs of every kind in every arena.
pub fn looks() -> Vec<String> {
    in_every_arena(searches::COUNTS)
}

fn in_every_arena(kinds: [&str; 7]) -> Vec<String> {
    let of_arena = |(arena, _): &(&str, _)| kinds.map(|kind| in_arena(arena, kind));
    ARENAS.iter().flat_map(of_arena).collect()
}

/// All that histories are to come upon.
pub fn all_with_searches() -> Vec<String> {
    let others = ALL.iter().map(|kind| kind.to_string());
    others.chain(searches()).chain(looks()).collect()
}

fn in_arena(arena: &str, kind: &str) -> String {
    format!("{arena}, {kind}")
}

/// Counts the searches that a call on this state comes to; whether there is an idle zone that a
/// second one gives back or leaves.
pub fn count_searches(counts: &mut Counts, state: &State, call: &Call) -> bool {
    let met = searches::met(state, call);
    let mut arenas = ARENAS.iter();
    if let Some((arena, _)) = arenas.find(|(_, pages)| pages.contains(&state.pages)) {
        for name in met.names() {
            counts.count(&in_arena(arena, name), 1);
        }
    }
    !met.kinds.is_empty() && state.zones.values().any(Zone::is_idle)
}

/// Counts a setting that is served by its ceiling, too, where that is of interest.
pub fn count_setting(counts: &mut Counts, state: &State, call: &Call) {
    let (group, bytes) = match *call {
        Call::SetCeiling { group, bytes } if (1..=GROUPS).contains(&group) => (group, bytes),
        _ => return,
    };
    if bytes == MAX_CEILING {
        counts.count("set ceiling: served, the largest", 1);
    }
    if bytes < state.holding(group as Group).held {
        counts.count("set ceiling: served, below what is held", 1);
    }
}

/// A call's kind and its answer's.
pub fn of_answer(call: &Call, answer: &Answer) -> String {
    let kind = match call {
        Call::Init { .. } => "init",
        Call::Allocate { size, .. } if *size < 8_192 => "allocate, chunk",
        Call::Allocate { .. } => "allocate, pages",
        Call::Free { .. } => "free",
        Call::Reset { .. } => "reset",
        Call::Trim => "trim",
        Call::Query { .. } => "query",
        Call::Listing { .. } => "listing",
        Call::Holdings { .. } => "holdings",
        Call::SetCeiling { .. } => "set ceiling",
    };
    match answer.number() {
        0 => format!("{kind}: served"),
        number => format!("{kind}: no {number}"),
    }
}

/// Counts what a state is rich in.
pub fn count_state(counts: &mut Counts, state: &State) {
    let zones = |test: fn(&Zone) -> bool| {
        let zones = state.zones.values();
        zones.filter(|zone| test(zone)).count() as u32
    };
    let long = state.lists.iter().filter(|list| list.len() > 1).count() as u32;
    let two_empty = state.empty.len() as u32 / 2;
    let parted = u32::from(state.runs.len() > 1);
    counts.count("zones seen: full", zones(Zone::is_full));
    counts.count("zones seen: idle", zones(Zone::is_idle));
    counts.count(
        "zones seen: with a chain",
        zones(|zone| zone.chain.len() > 1),
    );
    counts.count("lists seen: of two zones or more", long);
    counts.count("lists seen: empty list of two", two_empty);
    counts.count("states seen: two runs or more", parted);
    count_groups(counts, state);
}

/// Counts the groups by what they hold, beside what they have held and what they may.
fn count_groups(counts: &mut Counts, state: &State) {
    let mut count = |name, test: fn(&Holding, u32) -> bool| {
        let groups = state.holdings.iter().zip(state.ceilings);
        let such = groups.filter(|(holding, ceiling)| test(holding, *ceiling));
        counts.count(name, such.count() as u32);
    };
    count("groups seen: that hold something", |holding, _| {
        holding.blocks > 0
    });
    count("groups seen: that have held more", |holding, _| {
        holding.held < holding.greatest
    });
    count(
        "groups seen: that hold just their ceiling",
        |holding, ceiling| holding.blocks > 0 && holding.held == ceiling,
    );
    count(
        "groups seen: that hold more than their ceiling",
        |holding, ceiling| holding.held > ceiling,
    );
}
