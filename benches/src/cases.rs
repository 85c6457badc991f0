//! The states measured, with their bars.

use crate::bars::remark;
use reference::histories::Xorshift;
use reference::sizes::{chunk_count, ZONE_PAGES};
use reference::state::{State, Zone};
use tests::states::{zones_throughout, Plan};
use tests::zones::{by_turns, shuffle, zone_with};

/// The greatest ratio with nothing but runs and direct blocks.
const PAGES_BAR: f64 = 1.5;
/// What counting each group's chunks may add, where every chunk that a zone can have was handed out:
/// it is in the bars of zones with live chunks, whoever holds them.
const COUNTING: f64 = 8.0;
/// The greatest ratio with zones of which every chunk is live.
const FULL_BAR: f64 = 4.0 + COUNTING;
/// The greatest ratio with zones of which one half is live, and the other untouched or returned.
const HALF_BAR: f64 = 2.5 + COUNTING / 2.0;
const HALF_RETURNED_BAR: f64 = 7.0 + COUNTING;
/// The greatest ratio with zones of which every chunk was returned, in whatever order: there is none
/// to count for a group.
const RETURNED_BAR: f64 = 10.0;
/// The smallest arena that has bars: in a smaller one the header is most of the words.
const BARS_FROM: u32 = 24;

/// The class with the most chunks, whose zones take longest.
const CLASS: u32 = 0;

pub struct Case {
    pub name: &'static str,
    pub state: State,
    /// The greatest ratio allowed, if one is.
    bar: Option<f64>,
}

impl Case {
    pub fn misses(&self, ratio: f64) -> bool {
        self.bar.map_or(false, |bar| ratio > bar)
    }

    /// What the line says behind the figures.
    pub fn remark(&self, ratio: f64) -> String {
        match self.bar {
            None => "no bar".to_string(),
            Some(bar) => remark(!self.misses(ratio), bar),
        }
    }
}

/// All states for an arena of so many pages.
pub fn cases(pages: u32) -> Vec<Case> {
    let barred = |bar: f64| (pages >= BARS_FROM).then_some(bar);
    let mut cases = vec![
        case("fresh", State::fresh(pages), barred(PAGES_BAR)),
        case("large blocks only", large_blocks(pages), barred(PAGES_BAR)),
    ];
    if pages >= ZONE_PAGES {
        let zones = |name, zone: Zone, bar| case(name, zones_throughout(pages, &zone), barred(bar));
        cases.extend([
            zones("zones, half live, half untouched", half_live(), HALF_BAR),
            zones(
                "zones, half live, half returned",
                half_returned(),
                HALF_RETURNED_BAR,
            ),
            zones("zones, full, of one group", full(), FULL_BAR),
            zones(
                "zones, full, of twelve by turns",
                by_turns(full()),
                FULL_BAR,
            ),
            zones(
                "zones, all returned in ascending order",
                returned(),
                RETURNED_BAR,
            ),
            zones(
                "zones, all returned in no order",
                returned_in_no_order(),
                RETURNED_BAR,
            ),
        ]);
    }
    cases
}

fn case(name: &'static str, state: State, bar: Option<f64>) -> Case {
    Case { name, state, bar }
}

/// Direct blocks of two pages, the fewest that a request gets; in an arena of one page, of one.
fn large_blocks(pages: u32) -> State {
    let length = 2.min(pages);
    let blocks = (0..pages / length).fold(Plan::new(), |plan, _| plan.direct(length, 1));
    blocks.assemble()
}

fn half_live() -> Zone {
    zone_with(CLASS, &vec![true; chunk_count(CLASS) as usize / 2])
}

fn half_returned() -> Zone {
    let is_live: Vec<bool> = (0..chunk_count(CLASS))
        .map(|chunk| chunk % 2 == 0)
        .collect();
    zone_with(CLASS, &is_live)
}

fn full() -> Zone {
    zone_with(CLASS, &vec![true; chunk_count(CLASS) as usize])
}

fn returned() -> Zone {
    zone_with(CLASS, &vec![false; chunk_count(CLASS) as usize])
}

/// Which slot a position leads to cannot be guessed by the processor here.
fn returned_in_no_order() -> Zone {
    let mut zone = returned();
    shuffle(zone.chain.make_contiguous(), &mut Xorshift::new(1));
    zone
}
