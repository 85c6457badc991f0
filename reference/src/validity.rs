//! Document 01's "A legal state is", clause by clause, and what document 02's
//! requests c) and e) say of the stored figures and ceilings.
//!
//! Legal is wider than reachable: direct blocks of one page, zones with
//! k = 0, several idle zones on a class's list and lists in any order pass,
//! although no call makes some of them.
//!
//! Every clause can be asked of any state and ends with an answer, whatever
//! the other clauses would say of it.

use crate::ceilings::MAX_CEILING;
use crate::sizes::{chunk_count, CLASSES, GROUPS, MAX_PAGES, PAGE_BYTES, ZONE_PAGES};
use crate::state::{Group, Page, Run, State, Zone};

/// Whether the state is legal: all clauses together.
pub fn is_valid(state: &State) -> bool {
    page_count_is_legal(state)
        && runs_are_apart(state)
        && direct_blocks_are_legal(state)
        && zones_have_their_form(state)
        && handed_out_chunks_are_live_or_chained(state)
        && other_chunks_are_untouched(state)
        && pages_are_covered_once(state)
        && lists_hold_their_class(state)
        && empty_list_is_legal(state)
        && zones_with_room_are_listed(state)
        && no_zone_stands_twice(state)
        && live_blocks_are_counted(state)
        && held_bytes_are_added_up(state)
        && greatest_figures_are_legal(state)
        && ceilings_are_legal(state)
}

/// "N from 1 to 256".
pub fn page_count_is_legal(state: &State) -> bool {
    (1..=MAX_PAGES).contains(&state.pages)
}

/// "Free runs in ascending order, no two overlapping or touching"; a run
/// without a page is none.
pub fn runs_are_apart(state: &State) -> bool {
    let gap = |pair: &[Run]| end(pair[0].start, pair[0].pages) < u64::from(pair[1].start);
    state.runs.iter().all(|run| run.pages > 0) && state.runs.windows(2).all(gap)
}

/// "Direct blocks: start page, page count at least 1, group 1 to 12".
pub fn direct_blocks_are_legal(state: &State) -> bool {
    let mut blocks = state.direct.values();
    blocks.all(|block| block.pages > 0 && is_group(block.group))
}

/// "A class, and a count k of chunks handed out since set-up, at most its
/// chunk count"; and an owner's place for every chunk.
pub fn zones_have_their_form(state: &State) -> bool {
    state.zones.values().all(|zone| {
        zone.class < CLASSES
            && zone.handed_out <= chunk_count(zone.class)
            && zone.owners.len() == chunk_count(zone.class) as usize
    })
}

/// "Chunks below k are each live with a group, or once on the zone's return
/// chain": one of the two, never both.
pub fn handed_out_chunks_are_live_or_chained(state: &State) -> bool {
    state.zones.values().all(|zone| {
        let split = zone.owners.len().min(zone.handed_out as usize);
        let times = times_on_chain(zone);
        let mut below = zone.owners[..split].iter().zip(&times);
        below.all(|(owner, &times)| match owner {
            Some(group) => is_group(*group) && times == 0,
            None => times == 1,
        })
    })
}

/// "Chunks from k up are untouched": neither live nor on the chain.
pub fn other_chunks_are_untouched(state: &State) -> bool {
    state.zones.values().all(|zone| {
        let split = zone.owners.len().min(zone.handed_out as usize);
        zone.owners[split..].iter().all(Option::is_none)
            && zone.chain.iter().all(|&chunk| chunk < zone.handed_out)
    })
}

/// "Free runs, direct blocks and zones cover every page once": laid side by
/// side in ascending order they go from page 0 to the last.
pub fn pages_are_covered_once(state: &State) -> bool {
    let runs = state.runs.iter().map(|run| (run.start, run.pages));
    let direct = state.direct.iter().map(|(&at, block)| (at, block.pages));
    let zones = state.zones.keys().map(|&at| (at, ZONE_PAGES));
    let mut extents: Vec<(Page, u32)> = runs.chain(direct).chain(zones).collect();
    extents.sort_unstable();
    let mut next = 0;
    for (start, pages) in extents {
        if u64::from(start) != next {
            return false;
        }
        next = end(start, pages);
    }
    next == u64::from(state.pages)
}

/// "One list per class", with no other zones on it than those of the class
/// that have a chunk not live.
pub fn lists_hold_their_class(state: &State) -> bool {
    let belongs = |class: usize, start: &Page| match state.zones.get(start) {
        Some(zone) => zone.class as usize == class && has_room(zone),
        None => false,
    };
    state.lists.len() == CLASSES as usize
        && state
            .lists
            .iter()
            .enumerate()
            .all(|(class, list)| list.iter().all(|start| belongs(class, start)))
}

/// "The empty list holds at most 2 zones, none with a live chunk."
pub fn empty_list_is_legal(state: &State) -> bool {
    let is_idle = |start: &Page| state.zones.get(start).map_or(false, Zone::is_idle);
    state.empty.len() <= 2 && state.empty.iter().all(is_idle)
}

/// "Holding each zone of that class that has a chunk not live, unless it is
/// on the empty list."
pub fn zones_with_room_are_listed(state: &State) -> bool {
    state.zones.iter().all(|(start, zone)| {
        let list = state.lists.get(zone.class as usize);
        !has_room(zone)
            || state.empty.contains(start)
            || list.map_or(false, |list| list.contains(start))
    })
}

/// "No zone stands twice", be it on one list or on two.
pub fn no_zone_stands_twice(state: &State) -> bool {
    let lists = state.lists.iter().chain(Some(&state.empty));
    let mut listed: Vec<Page> = lists.flatten().copied().collect();
    listed.sort_unstable();
    listed.windows(2).all(|pair| pair[0] != pair[1])
}

/// "Figures [that] disagree with their blocks picture no legal state": each
/// group's live blocks.
pub fn live_blocks_are_counted(state: &State) -> bool {
    let sums = state.added_up();
    let mut groups = state.holdings.iter().zip(sums);
    groups.all(|(holding, sum)| u64::from(holding.blocks) == sum.blocks)
}

/// The same of "its held bytes (the rooms of its live blocks)".
pub fn held_bytes_are_added_up(state: &State) -> bool {
    let sums = state.added_up();
    let mut groups = state.holdings.iter().zip(sums);
    groups.all(|(holding, sum)| u64::from(holding.held) == sum.bytes)
}

/// "For the greatest figure that means being below the held one or above
/// N × 4,096."
pub fn greatest_figures_are_legal(state: &State) -> bool {
    let arena = u64::from(state.pages) * u64::from(PAGE_BYTES);
    let mut groups = state.holdings.iter();
    groups.all(|holding| holding.greatest >= holding.held && u64::from(holding.greatest) <= arena)
}

/// "One above 1,048,576 there isn't legal." What a group holds has no say in
/// it, so a ceiling can be below that.
pub fn ceilings_are_legal(state: &State) -> bool {
    state.ceilings.iter().all(|bytes| *bytes <= MAX_CEILING)
}

/// Whether a chunk is not live. A zone without a class has no chunks.
fn has_room(zone: &Zone) -> bool {
    zone.class < CLASSES && !zone.is_full()
}

/// How often each chunk stands on the zone's chain.
fn times_on_chain(zone: &Zone) -> Vec<u32> {
    let mut times = vec![0; zone.owners.len()];
    for &chunk in &zone.chain {
        if let Some(count) = times.get_mut(chunk as usize) {
            *count += 1;
        }
    }
    times
}

fn is_group(group: Group) -> bool {
    (1..=GROUPS).contains(&u32::from(group))
}

/// The page after an extent's last, in 64 bits as nothing is known of it.
fn end(start: Page, pages: u32) -> u64 {
    u64::from(start) + u64::from(pages)
}
