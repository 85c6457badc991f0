//! From words to the state that they encode, if they do.
//!
//! The layout's own rules are seen to here: what stands where, which words are zero, that chunks and
//! positions name each other. Whether what is read is a legal state, whose figures agree with its blocks
//! and whose ceilings are none too large, is left to the second program's clauses.

use super::{
    used_words, BLOCKS, CEILINGS, CLASS_LISTS, CLASS_STRIDE, DIRECT, EMPTY_LIST, ENTRY_SHIFT,
    FIGURE_WORDS, FIXED_WORDS, GREATEST, HELD, MAGIC, MAGIC_AT, PAGES_AT, PAGE_WORDS, RETURNED,
    RUN, STATE, ZONE, ZONE_HEAD,
};
use reference::ceilings::Ceilings;
use reference::holdings::{Holding, Holdings};
use reference::sizes::{chunk_count, CLASSES, MAX_PAGES, ZONE_PAGES};
use reference::state::{no_lists, DirectBlock, Group, Page, Run, State, Zone};
use reference::validity::is_valid;
use std::collections::{BTreeMap, VecDeque};

/// The legal state whose encoding the words begin with; `None` if there is none. Later words are
/// not read.
pub fn decode(words: &[u32]) -> Option<State> {
    let pages = page_count(words)?;
    let used = words.get(..used_words(pages))?;
    let (fixed, body) = used.split_at(FIXED_WORDS);
    let unused = [CEILINGS.end..FIGURE_WORDS, CLASS_LISTS.end..FIXED_WORDS];
    if !unused.into_iter().all(|places| are_zero(&fixed[places])) {
        return None;
    }
    let empty = entries(&fixed[EMPTY_LIST])?;
    let lists = class_lists(&fixed[CLASS_LISTS])?;
    let Segments {
        runs,
        direct,
        zones,
    } = segments(body)?;
    let holdings = holdings(fixed);
    let state = State::from_parts(pages, runs, direct, zones, lists, empty.into(), holdings)
        .with_ceilings(ceilings(fixed));
    is_valid(&state).then_some(state)
}

/// N, which says how many words there have to be, so its range comes before everything else.
fn page_count(words: &[u32]) -> Option<u32> {
    let (magic, pages) = (*words.get(MAGIC_AT)?, *words.get(PAGES_AT)?);
    (magic == MAGIC && (1..=MAX_PAGES).contains(&pages)).then_some(pages)
}

/// Each group's three figures, as they stand.
fn holdings(fixed: &[u32]) -> Holdings {
    std::array::from_fn(|group| Holding {
        blocks: fixed[BLOCKS][group],
        held: fixed[HELD][group],
        greatest: fixed[GREATEST][group],
    })
}

/// Each group's ceiling, as it stands.
fn ceilings(fixed: &[u32]) -> Ceilings {
    std::array::from_fn(|group| fixed[CEILINGS][group])
}

/// A list's entries, each less by the one that tells it from a free place. No entry comes after a
/// free place.
fn entries(places: &[u32]) -> Option<Vec<u32>> {
    let count = places.iter().take_while(|place| **place != 0).count();
    let (taken, free) = places.split_at(count);
    are_zero(free).then(|| taken.iter().map(|place| place - 1).collect())
}

/// The list of each class; in the words they stand in class order.
fn class_lists(places: &[u32]) -> Option<Vec<VecDeque<Page>>> {
    let mut lists = no_lists();
    let mut last = 0;
    for entry in entries(places)? {
        let class = entry / CLASS_STRIDE;
        if class < last || class >= CLASSES {
            return None;
        }
        lists[class as usize].push_back(entry % CLASS_STRIDE);
        last = class;
    }
    Some(lists)
}

/// What the words of the pages have been found to hold.
#[derive(Default)]
struct Segments {
    runs: Vec<Run>,
    direct: BTreeMap<Page, DirectBlock>,
    zones: BTreeMap<Page, Zone>,
}

/// Segments from the first page on, each where the one before ends, up to the last word.
fn segments(mut rest: &[u32]) -> Option<Segments> {
    let mut found = Segments::default();
    let mut page = 0;
    while !rest.is_empty() {
        let pages = match rest[0] {
            ZONE => ZONE_PAGES,
            _ => rest[1],
        };
        let (own, behind) = split(rest, pages)?;
        found.take(page, own)?;
        page += pages;
        rest = behind;
    }
    Some(found)
}

/// The words of the next pages, of which there is at least one, and those behind them.
fn split(rest: &[u32], pages: u32) -> Option<(&[u32], &[u32])> {
    let words = PAGE_WORDS.checked_mul(pages as usize)?;
    (words > 0 && words <= rest.len()).then(|| rest.split_at(words))
}

impl Segments {
    /// Reads the segment that starts at a page and has these words.
    fn take(&mut self, start: Page, own: &[u32]) -> Option<()> {
        let pages = own[1];
        match own[0] {
            RUN if are_zero(&own[2..]) => self.runs.push(Run { start, pages }),
            DIRECT if are_zero(&own[3..]) => {
                let group = Group::try_from(own[2]).ok()?;
                self.direct.insert(start, DirectBlock { pages, group });
            }
            ZONE => {
                self.zones.insert(start, zone(own)?);
            }
            _ => return None,
        }
        Some(())
    }
}

/// A zone from its own words.
fn zone(own: &[u32]) -> Option<Zone> {
    let (head, slots) = own.split_at(ZONE_HEAD);
    let (class, handed_out, length) = (head[1], head[2], head[3]);
    if class >= CLASSES || !are_zero(&head[4..]) {
        return None;
    }
    let (slots, behind) = slots.split_at(chunk_count(class) as usize);
    if !are_zero(behind) {
        return None;
    }
    Some(Zone {
        class,
        handed_out,
        owners: slots.iter().map(|slot| owner(*slot)).collect(),
        chain: chain(slots, length)?,
    })
}

/// The group of a live chunk's slot.
fn owner(slot: u32) -> Option<Group> {
    match slot & STATE {
        group @ 1..=12 => Some(group as Group),
        _ => None,
    }
}

/// The chain from the slots' upper halves, the chunk returned last first. Each chunk on it has its
/// position in its own slot's lower half, and no returned chunk is off it.
fn chain(slots: &[u32], length: u32) -> Option<VecDeque<u32>> {
    let is_returned = |slot: &&u32| **slot & STATE >= RETURNED;
    let returned = slots.iter().filter(is_returned).count();
    if returned != length as usize {
        return None;
    }
    let (on, off) = slots.split_at(returned);
    if off.iter().any(|slot| slot >> ENTRY_SHIFT != 0) {
        return None;
    }
    let mut chain = VecDeque::with_capacity(returned);
    for (position, slot) in (0..).zip(on) {
        let chunk = slot >> ENTRY_SHIFT;
        if slots.get(chunk as usize)? & STATE != RETURNED + position {
            return None;
        }
        chain.push_front(chunk);
    }
    Some(chain)
}

/// Whether every word is zero. In parts, so that the compiler can take several words at once.
fn are_zero(words: &[u32]) -> bool {
    let part_is_zero = |part: &[u32]| part.iter().fold(0, |all, word| all | word) == 0;
    words.chunks(64).all(part_is_zero)
}
