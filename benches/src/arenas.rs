//! The arenas on which calls are measured.

use reference::sizes::{chunk_count, ZONE_PAGES};
use reference::state::{State, Zone};
use tests::states::Plan;
use tests::zones::zone_with;

/// The class of the mixed arena's zones that have a chunk to give.
const CLASS: u32 = 12;
/// The class with the most chunks.
const DENSE_CLASS: u32 = 0;

/// An arena, and the size of a chunk that it can grant.
pub struct Arena {
    pub name: &'static str,
    pub state: State,
    pub chunk: u32,
}

/// A fresh arena, one with something of all, and one full of the smallest chunks.
pub fn arenas(pages: u32) -> [Arena; 3] {
    [
        Arena {
            name: "fresh",
            state: State::fresh(pages),
            chunk: 100,
        },
        Arena {
            name: "mixed",
            state: mixed(pages),
            chunk: 100,
        },
        Arena {
            name: "chunk-dense",
            state: dense(pages),
            chunk: 8,
        },
    ]
}

/// Blocks, runs, a zone with returned chunks and a full one, again and again every 24 pages; free
/// pages behind.
fn mixed(pages: u32) -> State {
    let plan = (0..pages / 24).fold(Plan::new(), |plan, _| {
        plan.direct(2, 1)
            .run(2)
            .zone(handed_out(CLASS, 3))
            .run(1)
            .zone(zone_with(40, &vec![true; chunk_count(40) as usize]))
            .direct(3, 2)
    });
    match pages % 24 {
        0 => plan.assemble(),
        rest => plan.run(rest).assemble(),
    }
}

/// Zones with a sixteenth of their chunks returned, and 8 free pages behind.
fn dense(pages: u32) -> State {
    let zones = pages / ZONE_PAGES - 1;
    let zone = handed_out(DENSE_CLASS, 16);
    let plan = (0..zones).fold(Plan::new(), |plan, _| plan.zone(zone.clone()));
    plan.run(pages - zones * ZONE_PAGES).assemble()
}

/// A zone of which every chunk was handed out, and one in so many is returned.
fn handed_out(class: u32, one_in: u32) -> Zone {
    let is_live: Vec<bool> = (0..chunk_count(class))
        .map(|chunk| chunk % one_in != 1)
        .collect();
    zone_with(class, &is_live)
}
