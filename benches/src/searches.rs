//! The arenas on which requests find no run, and what is asked there.

use reference::sizes::{chunk_count, PAGE_BYTES, ZONE_PAGES};
use reference::state::{State, Zone};
use tests::states::Plan;
use tests::zones::zone_with;

/// The class of the zones. It has the fewest chunks, so that the check, with which a request is
/// compared, is quick on them.
const CLASS: u32 = 63;

/// A request that is refused by 6: two searches, and nothing is written.
pub struct Refused {
    pub arena: &'static str,
    pub call: &'static str,
    pub state: State,
    pub size: u32,
    /// The runs that both searches look at together.
    pub looked: u32,
}

/// As many segments as there can be, with no zone to give back; and zones to give back of which no
/// two stand together, so that the second search would find no run either.
pub fn refused(pages: u32) -> [Refused; 3] {
    let by_turns = || (0..pages / 2).fold(Plan::new(), |plan, _| plan.run(1).direct(1, 1));
    let idle = (0..pages / (ZONE_PAGES + 1))
        .fold(Plan::new(), |plan, _| plan.zone(idle_zone()).direct(1, 1));
    let idle = match pages % (ZONE_PAGES + 1) {
        0 => idle,
        rest => idle.direct(rest, 1),
    };
    let one = |arena, call, plan: Plan, size, looked| Refused {
        arena,
        call,
        state: plan.assemble(),
        size,
        looked,
    };
    let twice_all = 2 * (pages / 2);
    let zones = pages / (ZONE_PAGES + 1);
    let nine = (ZONE_PAGES + 1) * PAGE_BYTES;
    [
        one(
            "by turns",
            "no 6, pages",
            by_turns(),
            2 * PAGE_BYTES,
            twice_all,
        ),
        one("by turns", "no 6, chunk", by_turns(), 100, twice_all),
        one("idle zones", "no 6, pages", idle, nine, zones),
    ]
}

/// The numbers of zones that a request for 8 pages gives back, each twice the one before; in a large
/// arena not the least ones, which take less than the check's own scatter.
pub fn given_back(pages: u32) -> Vec<u32> {
    let (least, most) = ((pages / 32).max(1), pages / ZONE_PAGES);
    let doubled = (0..).map(|power| least << power);
    doubled.take_while(|zones| *zones <= most).collect()
}

/// An arena of zones alone, of which the first so many have no live chunk and the others are full.
pub fn zones_to_give(pages: u32, idle: u32) -> State {
    let plan = (0..pages / ZONE_PAGES).fold(Plan::new(), |plan, zone| {
        plan.zone(if zone < idle {
            idle_zone()
        } else {
            full_zone()
        })
    });
    plan.assemble()
}

fn idle_zone() -> Zone {
    zone_with(CLASS, &[false])
}

fn full_zone() -> Zone {
    zone_with(CLASS, &vec![true; chunk_count(CLASS) as usize])
}
