//! From a state to its words.

use super::{
    page_at, slot_at, used_words, BLOCKS, CEILINGS, CLASS_LISTS, CLASS_STRIDE, DIRECT, EMPTY_LIST,
    ENTRY_SHIFT, GREATEST, HELD, MAGIC, MAGIC_AT, PAGES_AT, RETURNED, RUN, ZONE,
};
use reference::holdings::Holdings;
use reference::state::{Page, State, Zone};

/// The words of a state, as many as its pages use. Whether the state is legal is not looked at.
///
/// # Panics
///
/// If something of the state has no place: a page at or above N, a chunk above the zone's slots,
/// too many entries on the lists.
pub fn encode(state: &State) -> Vec<u32> {
    let mut words = vec![0; used_words(state.pages)];
    write_figures(&mut words, &state.holdings);
    write(&mut words, CEILINGS.start, &state.ceilings);
    words[MAGIC_AT] = MAGIC;
    words[PAGES_AT] = state.pages;
    write_lists(&mut words, state);
    for run in &state.runs {
        write(&mut words, page_at(run.start), &[RUN, run.pages]);
    }
    for (&start, block) in &state.direct {
        let segment = [DIRECT, block.pages, u32::from(block.group)];
        write(&mut words, page_at(start), &segment);
    }
    for (&start, zone) in &state.zones {
        write_zone(&mut words, start, zone);
    }
    words
}

fn write(words: &mut [u32], at: usize, values: &[u32]) {
    words[at..at + values.len()].copy_from_slice(values);
}

fn write_figures(words: &mut [u32], holdings: &Holdings) {
    for (group, holding) in holdings.iter().enumerate() {
        words[BLOCKS.start + group] = holding.blocks;
        words[HELD.start + group] = holding.held;
        words[GREATEST.start + group] = holding.greatest;
    }
}

fn write_lists(words: &mut [u32], state: &State) {
    let empty: Vec<u32> = state.empty.iter().map(|start| start + 1).collect();
    write(&mut words[EMPTY_LIST], 0, &empty);
    let listed = (0..)
        .zip(&state.lists)
        .flat_map(|(class, list)| list.iter().map(move |start| list_entry(class, *start)));
    let listed: Vec<u32> = listed.collect();
    write(&mut words[CLASS_LISTS], 0, &listed);
}

fn list_entry(class: u32, start: Page) -> u32 {
    1 + CLASS_STRIDE * class + start
}

fn write_zone(words: &mut [u32], start: Page, zone: &Zone) {
    let length = zone.chain.len() as u32;
    let head = [ZONE, zone.class, zone.handed_out, length];
    write(words, page_at(start), &head);
    for (chunk, owner) in (0..).zip(&zone.owners) {
        if let Some(group) = owner {
            words[slot_at(start, chunk)] = u32::from(*group);
        }
    }
    // Positions count from the chunk returned first, which is the chain's last.
    for (position, chunk) in (0..).zip(zone.chain.iter().rev()) {
        words[slot_at(start, *chunk)] |= RETURNED + position;
        words[slot_at(start, position)] |= *chunk << ENTRY_SHIFT;
    }
}
