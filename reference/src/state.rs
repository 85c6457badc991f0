//! The abstract state of an arena: free runs, direct blocks, zones and lists,
//! what each group holds, and its ceiling.
//!
//! Nothing here checks a state; [`crate::validity::is_valid`] does. Two legal
//! states are equal exactly if their values are: blocks and zones are kept by
//! start page, and lists and chains front first.

use crate::ceilings::{Ceilings, AT_START};
use crate::holdings::Holdings;
use crate::sizes::{chunk_count, chunk_size, CLASSES};
use std::collections::{BTreeMap, VecDeque};

/// A group's number, 1 to 12.
pub type Group = u8;

/// A page number, counted from the arena's start.
pub type Page = u32;

/// Free pages that follow each other.
#[derive(Clone, Copy, Debug, PartialEq, Eq)]
pub struct Run {
    pub start: Page,
    pub pages: u32,
}

/// A block of whole pages; its start page is its key in [`State::direct`].
#[derive(Clone, Copy, Debug, PartialEq, Eq)]
pub struct DirectBlock {
    pub pages: u32,
    pub group: Group,
}

/// Eight pages cut into chunks; its start page is its key in
/// [`State::zones`].
#[derive(Clone, Debug, PartialEq, Eq)]
pub struct Zone {
    pub class: u32,
    /// Document 01's k: chunks handed out since set-up.
    pub handed_out: u32,
    /// The group of each live chunk, and `None` for the other chunks; one
    /// entry for every chunk of the zone.
    pub owners: Vec<Option<Group>>,
    /// The return chain; its front is the chunk returned last.
    pub chain: VecDeque<u32>,
}

impl Zone {
    /// A zone as set-up leaves it: no chunk handed out, no chain.
    ///
    /// # Panics
    ///
    /// If `class` is not below 64.
    pub fn set_up(class: u32) -> Zone {
        Zone {
            class,
            handed_out: 0,
            owners: vec![None; chunk_count(class) as usize],
            chain: VecDeque::new(),
        }
    }

    /// Bytes of one chunk.
    pub fn chunk_size(&self) -> u32 {
        chunk_size(self.class)
    }

    /// Chunks in the zone, live or not.
    pub fn chunk_count(&self) -> u32 {
        chunk_count(self.class)
    }

    /// How many chunks are live: counted by their owners, so that neither k
    /// nor the chain has a say in it.
    pub fn live_chunks(&self) -> u32 {
        self.owners.iter().flatten().count() as u32
    }

    /// Whether every chunk is live, so that the zone belongs on no list.
    pub fn is_full(&self) -> bool {
        self.owners.iter().all(Option::is_some)
    }

    /// Whether no chunk is live.
    pub fn is_idle(&self) -> bool {
        self.owners.iter().all(Option::is_none)
    }
}

/// The whole state of an arena.
#[derive(Clone, Debug, PartialEq, Eq)]
pub struct State {
    /// Document 01's N.
    pub pages: u32,
    /// Free runs, ascending.
    pub runs: Vec<Run>,
    pub direct: BTreeMap<Page, DirectBlock>,
    pub zones: BTreeMap<Page, Zone>,
    /// One list for each class, as start pages, front first.
    pub lists: Vec<VecDeque<Page>>,
    /// The empty list, as start pages, front first.
    pub empty: VecDeque<Page>,
    /// What each group holds, group 1 first.
    pub holdings: Holdings,
    /// Each group's ceiling, group 1 first.
    pub ceilings: Ceilings,
}

impl State {
    /// The state that a start pictures: one run of all pages, nobody holds
    /// anything or has, and every ceiling is the largest.
    pub fn fresh(pages: u32) -> State {
        State {
            pages,
            runs: vec![Run { start: 0, pages }],
            direct: BTreeMap::new(),
            zones: BTreeMap::new(),
            lists: no_lists(),
            empty: VecDeque::new(),
            holdings: Holdings::default(),
            ceilings: AT_START,
        }
    }

    /// A state from its parts, whatever they are: nothing is checked. Its
    /// ceilings are a start's; [`State::with_ceilings`] gives it others.
    pub fn from_parts(
        pages: u32,
        runs: Vec<Run>,
        direct: BTreeMap<Page, DirectBlock>,
        zones: BTreeMap<Page, Zone>,
        lists: Vec<VecDeque<Page>>,
        empty: VecDeque<Page>,
        holdings: Holdings,
    ) -> State {
        State {
            pages,
            runs,
            direct,
            zones,
            lists,
            empty,
            holdings,
            ceilings: AT_START,
        }
    }

    /// The list of a class, front first.
    pub fn list(&self, class: u32) -> &VecDeque<Page> {
        &self.lists[class as usize]
    }

    pub(crate) fn list_mut(&mut self, class: u32) -> &mut VecDeque<Page> {
        &mut self.lists[class as usize]
    }

    /// A zone that a list or an offset has led to.
    pub(crate) fn zone_mut(&mut self, start: Page) -> &mut Zone {
        self.zones
            .get_mut(&start)
            .expect("lists and blocks name zones of the state")
    }
}

/// A list for each class, all without a zone.
pub fn no_lists() -> Vec<VecDeque<Page>> {
    vec![VecDeque::new(); CLASSES as usize]
}
