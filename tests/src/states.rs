//! Legal states to try things on, the same for the same seed: those that calls reach, and odd ones
//! that no call makes.

use crate::zones::{any_class, any_group, any_zone, shuffle};
use reference::calls::Allocator;
use reference::ceilings::{Ceilings, MAX_CEILING};
use reference::histories::{History, Xorshift};
use reference::holdings::Holdings;
use reference::sizes::{words_needed, GROUPS, PAGE_BYTES, ZONE_PAGES};
use reference::state::{no_lists, DirectBlock, Page, Run, State, Zone};
use std::collections::{BTreeMap, VecDeque};

/// The state that a start and so many calls of a pseudo-random history reach.
pub fn reached(pages: u32, calls: u32, seed: u64) -> State {
    let mut allocator = Allocator::zeroed(words_needed(pages));
    allocator
        .init(pages)
        .expect("1 to 256 pages and their words");
    let mut history = History::new(seed);
    for _ in 0..calls {
        let call = history.next_call();
        let answer = allocator.serve(call);
        history.observe(&call, &answer);
    }
    allocator
        .state()
        .expect("calls leave a legal state")
        .clone()
}

/// A state drawn by the conditions alone: direct blocks of one page, zones with k = 0, several
/// zones without a live chunk on a list, lists in any order, greatest figures that are anything
/// from the held bytes to those of the arena, and ceilings of any size are all likely.
pub fn odd(pages: u32, seed: u64) -> State {
    let mut random = Xorshift::new(seed);
    let mut state = Plan::draw(pages, &mut random).assemble();
    let lists = state.lists.iter_mut().chain(Some(&mut state.empty));
    for list in lists {
        shuffle(list.make_contiguous(), &mut random);
    }
    let arena = pages * PAGE_BYTES;
    for holding in &mut state.holdings {
        holding.greatest += match random.below(4) {
            0 => 0,
            1 => arena - holding.held,
            _ => random.below(arena - holding.held + 1),
        };
    }
    let ceilings = any_ceilings(&state.holdings, &mut random);
    state.with_ceilings(ceilings)
}

/// Ceilings for groups that hold so much. Most are the largest, so that requests are granted as well;
/// of some states none is.
fn any_ceilings(holdings: &Holdings, random: &mut Xorshift) -> Ceilings {
    let lowered = random.pick(&[0, 1, 3, GROUPS]);
    holdings.map(|holding| match random.below(GROUPS) < lowered {
        true => any_ceiling(holding.held, random),
        false => MAX_CEILING,
    })
}

/// A ceiling for a group that holds so many bytes.
fn any_ceiling(held: u32, random: &mut Xorshift) -> u32 {
    match random.below(5) {
        0 => 0,
        1 => held,
        2 => random.below(held.max(1)),
        3 => MAX_CEILING.min(held + 1 + random.below(20_000)),
        _ => random.below(MAX_CEILING),
    }
}

/// Arenas of many sizes: a fresh one of each, one that calls reach, and an odd one.
pub fn of_all_kinds() -> Vec<State> {
    let sizes = [1, 8, 24, 32, 100, 255, 256];
    sizes
        .into_iter()
        .flat_map(|pages| {
            [
                State::fresh(pages),
                reached(pages, 300, u64::from(pages)),
                odd(pages, u64::from(pages)),
            ]
        })
        .collect()
}

/// An arena with one zone again and again, and a run where no further one fits.
pub fn zones_throughout(pages: u32, zone: &Zone) -> State {
    let zones = pages / ZONE_PAGES;
    let plan = (0..zones).fold(Plan::new(), |plan, _| plan.zone(zone.clone()));
    match pages % ZONE_PAGES {
        0 => plan.assemble(),
        rest => plan.run(rest).assemble(),
    }
}

/// What covers an arena's pages, in ascending order, before the lists are made.
#[derive(Default)]
pub struct Plan {
    pages: u32,
    runs: Vec<Run>,
    direct: BTreeMap<Page, DirectBlock>,
    zones: BTreeMap<Page, Zone>,
    empty: VecDeque<Page>,
}

impl Plan {
    pub fn new() -> Plan {
        Plan::default()
    }

    /// Free pages next; after a run they would touch it, which no legal state has.
    pub fn run(mut self, pages: u32) -> Plan {
        let start = self.cover(pages);
        self.runs.push(Run { start, pages });
        self
    }

    /// A direct block next.
    pub fn direct(mut self, pages: u32, group: u8) -> Plan {
        let start = self.cover(pages);
        self.direct.insert(start, DirectBlock { pages, group });
        self
    }

    /// A zone next; if it isn't full it will be on its class's list.
    pub fn zone(mut self, zone: Zone) -> Plan {
        let start = self.cover(ZONE_PAGES);
        self.zones.insert(start, zone);
        self
    }

    /// A zone without a live chunk next, the last on the empty list.
    pub fn empty_zone(mut self, zone: Zone) -> Plan {
        self.empty.push_back(self.pages);
        self.zone(zone)
    }

    /// The state, with each class's list in ascending order. Nobody has held more than now.
    pub fn assemble(self) -> State {
        let mut lists = no_lists();
        for (start, zone) in &self.zones {
            if !zone.is_full() && !self.empty.contains(start) {
                lists[zone.class as usize].push_back(*start);
            }
        }
        let Plan {
            pages,
            runs,
            direct,
            zones,
            empty,
        } = self;
        let holdings = Holdings::default();
        State::from_parts(pages, runs, direct, zones, lists, empty, holdings).recounted()
    }

    /// The page at which the next of so many pages starts.
    fn cover(&mut self, pages: u32) -> Page {
        self.pages += pages;
        self.pages - pages
    }

    fn draw(pages: u32, random: &mut Xorshift) -> Plan {
        // One class more likely than the others, so that its list gets long.
        let favourite = any_class(random);
        let zone_share = random.pick(&[0, 3, 6, 9]);
        let mut plan = Plan::new();
        while plan.pages < pages {
            let left = pages - plan.pages;
            plan = if left >= ZONE_PAGES && random.below(10) < zone_share {
                plan.draw_zone(favourite, random)
            } else {
                plan.draw_pages(left, random)
            };
        }
        plan
    }

    fn draw_zone(self, favourite: u32, random: &mut Xorshift) -> Plan {
        let class = match random.below(3) {
            0 => any_class(random),
            _ => favourite,
        };
        let zone = any_zone(class, random);
        if zone.is_idle() && self.empty.len() < 2 && random.below(3) == 0 {
            self.empty_zone(zone)
        } else {
            self.zone(zone)
        }
    }

    fn draw_pages(self, left: u32, random: &mut Xorshift) -> Plan {
        let longest = random.pick(&[1, 3, 12, 40]);
        let pages = left.min(1 + random.below(longest));
        let run_before = self.runs.last().map(|run| run.start + run.pages);
        if run_before != Some(self.pages) && random.below(2) == 0 {
            self.run(pages)
        } else {
            self.direct(pages, any_group(random))
        }
    }
}
