//! The states whose words are damaged.

use crate::subject::Subject;
use reference::histories::Xorshift;
use reference::sizes::chunk_count;
use reference::state::{State, Zone};
use tests::states::{odd, reached, zones_throughout, Plan};
use tests::zones::{by_turns, shuffle, zone_with};

/// Words behind each subject's own, so that an arena can seem to be a page or two longer.
const SPARE: usize = 1_100;

/// Arenas in which each word is damaged in turn: every kind of segment next to every other, zones
/// in each of their states, and zones on each list.
pub fn tiny() -> Vec<Subject> {
    let zone = |class, is_live: &[bool]| zone_with(class, is_live);
    let plans = vec![
        Plan::new().run(1),
        Plan::new().direct(1, 12),
        Plan::new().run(1).direct(1, 3).run(1),
        Plan::new().direct(2, 1).direct(1, 9).run(2),
        Plan::new().zone(Zone::set_up(63)),
        Plan::new().zone(zone(63, &[true, false, true])),
        Plan::new().zone(zone(63, &[true; 4])),
        Plan::new().zone(zone(63, &[false; 4])),
        Plan::new().empty_zone(zone(55, &[false, false])),
        Plan::new().run(1).zone(zone(12, &[true; 315])).direct(1, 2),
        Plan::new().direct(1, 1).zone(mixed(16)),
        Plan::new().zone(mixed(0)),
        Plan::new().zone(by_turns(mixed(30))).direct(1, 12),
        Plan::new().zone(mixed(40)).zone(zone(40, &[true])),
        Plan::new()
            .empty_zone(zone(63, &[false]))
            .empty_zone(zone(2, &[false; 2])),
    ];
    let states = plans.into_iter().map(Plan::assemble);
    states.map(|state| Subject::new(state, 0)).collect()
}

/// A zone in which live and returned chunks take turns, the chain being in no order, and some are
/// untouched.
fn mixed(class: u32) -> Zone {
    let handed_out = chunk_count(class) - 3;
    let is_live: Vec<bool> = (0..handed_out).map(|chunk| chunk % 3 != 1).collect();
    let mut zone = zone_with(class, &is_live);
    shuffle(
        zone.chain.make_contiguous(),
        &mut Xorshift::new(u64::from(class)),
    );
    zone
}

/// Arenas of one zone: full, with one chunk untouched, and with all chunks returned.
pub fn one_zone(class: u32) -> Vec<Subject> {
    let count = chunk_count(class) as usize;
    let zones = [
        zone_with(class, &vec![true; count]),
        zone_with(class, &vec![true; count - 1]),
        zone_with(class, &vec![false; count]),
    ];
    let states = zones.map(|zone| Plan::new().zone(zone).assemble());
    states.map(|state| Subject::new(state, SPARE)).into()
}

/// Arenas of 1 to 40 pages, reached and odd ones.
pub fn small() -> Vec<Subject> {
    let odd_ones = (0..180).map(|seed| odd(1 + seed as u32 % 40, 1_000 + seed));
    let reached_ones =
        (0..60).map(|seed| reached(1 + seed as u32 % 40, 40 + 3 * seed as u32, seed));
    let states = odd_ones.chain(reached_ones);
    states.map(|state| Subject::new(state, SPARE)).collect()
}

/// Arenas up to 256 pages.
pub fn large() -> Vec<Subject> {
    let sizes = [64, 100, 128, 200, 255, 256, 256, 256];
    let states = (0..)
        .zip(sizes)
        .flat_map(|(seed, pages)| [odd(pages, 2_000 + seed), reached(pages, 300, 2_000 + seed)]);
    let several_classes = (0..32).fold(Plan::new(), |plan, at| plan.zone(mixed(at % 4 * 20)));
    let zones_alone = [
        several_classes.assemble(),
        zones_throughout(256, &zone_with(0, &[true; 4_096])),
        zones_throughout(256, &by_turns(zone_with(0, &[true; 4_096]))),
        zones_throughout(256, &zone_with(0, &[false; 4_096])),
    ];
    let states = states.chain(zones_alone);
    states.map(|state| Subject::new(state, SPARE)).collect()
}

/// A fresh arena whose words are to be overwritten.
pub fn fresh(pages: u32) -> Subject {
    Subject::new(State::fresh(pages), 0)
}
