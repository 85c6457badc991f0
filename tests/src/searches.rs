//! The searches that requests come to (document 02, requests a and b), told by the second program
//! before a request is served: what a second search is for and what it comes to, and how many runs
//! are looked at.
//!
//! A new zone needs 8 pages, which every idle zone gives back; so a second search for a zone fails
//! only where no zone is idle. For a block it can fail with idle zones too.

use reference::calls::Call;
use reference::pages::{Search, Searches};
use reference::sizes::{need, DIRECT_FROM, GROUPS, MAX_SIZE};
use reference::state::{Group, State};

/// What a second search is for and what it comes to, and of these what is of more interest.
pub const KINDS: [&str; 7] = [
    "second search, block: fails",
    "second search, block: fails, with idle zones",
    "second search, block: finds",
    "second search, block: finds, several zones go",
    "second search, zone: fails",
    "second search, zone: finds",
    "second search, zone: finds, several zones go",
];

/// How many runs a request looks at that is not refused before any search.
pub const COUNTS: [&str; 7] = [
    "runs looked at: none, a chunk at hand",
    "runs looked at: none, in two searches",
    "runs looked at: one, in one search",
    "runs looked at: several, in one search",
    "runs looked at: fewer in the second search",
    "runs looked at: as many in the second search",
    "runs looked at: more in the second search",
];

/// The searches of a call on a state.
#[derive(Default)]
pub struct Met {
    /// The kinds of its second search; none, unless it comes to one.
    pub kinds: &'static [&'static str],
    /// Its count; `None`, unless it is a request of a legal group and size within the ceiling.
    pub count: Option<&'static str>,
}

impl Met {
    /// All that is to be counted.
    pub fn names(&self) -> impl Iterator<Item = &'static str> {
        self.kinds.iter().copied().chain(self.count)
    }
}

/// What a call on this state comes to.
pub fn met(state: &State, call: &Call) -> Met {
    let (group, size) = match *call {
        Call::Allocate { group, size } if (1..=GROUPS).contains(&group) => (group, size),
        _ => return Met::default(),
    };
    if !(1..=MAX_SIZE).contains(&size)
        || state.would_pass_ceiling(group as Group, need(size).room())
    {
        return Met::default();
    }
    let searches = state
        .pages_needed(size)
        .map(|pages| state.search_for(pages));
    let second = searches.and_then(|searches| searches.second);
    let idle = state.zones.values().filter(|zone| zone.is_idle()).count();
    Met {
        kinds: match second {
            Some(second) => kinds_of(size >= DIRECT_FROM, second, idle),
            None => &[],
        },
        count: Some(COUNTS[searches.map_or(0, count_of)]),
    }
}

/// The kinds of a second search, for a block or for a zone, where so many zones are idle.
fn kinds_of(is_block: bool, second: Search, idle: usize) -> &'static [&'static str] {
    match (second.chosen, is_block) {
        (None, true) if idle > 0 => &KINDS[0..2],
        (None, true) => &KINDS[0..1],
        (Some(_), true) if idle > 1 => &KINDS[2..4],
        (Some(_), true) => &KINDS[2..3],
        (None, false) => &KINDS[4..5],
        (Some(_), false) if idle > 1 => &KINDS[5..7],
        (Some(_), false) => &KINDS[5..6],
    }
}

/// Which of the counts searches come to.
fn count_of(searches: Searches) -> usize {
    let first = searches.first.looked;
    match searches.second.map(|second| second.looked) {
        None if first == 1 => 2,
        None => 3,
        Some(0) if first == 0 => 1,
        Some(second) if second < first => 4,
        Some(second) if second == first => 5,
        Some(_) => 6,
    }
}
