//! Document 02's request b): the count of runs that a request looked at, told
//! a second time by the lines of two listings, one of them after a tidy; its
//! bounds, in histories and in states of any kind; the states that meet them,
//! and how near calls come to them.

mod common;

use common::{grant, runs, started, state, text};
use reference::calls::{Allocator, Answer, Call, Refusal};
use reference::histories::{History, Profile, Xorshift};
use reference::sizes::{need, words_needed, GROUPS, MAX_SIZE, PAGE_BYTES, ZONE_PAGES};
use reference::state::{DirectBlock, Run, State, Zone};
use reference::validity::is_valid;
use std::collections::BTreeSet;

/// The most runs that so many pages can have.
fn most_runs(pages: u32) -> u32 {
    (pages + 1) / 2
}

/// The page counts of the listing's runs.
fn listed(allocator: &Allocator) -> Vec<u32> {
    let text = text(allocator);
    let lines = text.lines().skip(1);
    let runs = lines.take_while(|line| !line.starts_with("direct"));
    runs.map(|line| line.split(' ').nth(1).unwrap().parse().unwrap())
        .collect()
}

/// The runs looked at in one search of these, and whether one was chosen.
fn looked_in(runs: &[u32], pages: u32) -> (u32, bool) {
    match runs.iter().position(|run| *run >= pages) {
        Some(before) => (before as u32 + 1, true),
        None => (runs.len() as u32, false),
    }
}

/// Whether a request is refused by 10: what its group holds is added up anew.
fn passes_its_ceiling(state: &State, group: u32, size: u32) -> bool {
    let blocks = state.live_blocks().into_iter();
    let own = blocks.filter(|block| u32::from(block.group) == group);
    let held: u32 = own.map(|block| block.room).sum();
    held + need(size).room() > state.ceilings[group as usize - 1]
}

/// The pages in a row that a request has to look for; `None` if it is refused
/// by 4, 5 or 10, or needs none.
fn pages_due(state: &State, group: u32, size: u32) -> Option<u32> {
    let is_legal = (1..=GROUPS).contains(&group) && (1..=MAX_SIZE).contains(&size);
    if !is_legal || passes_its_ceiling(state, group, size) {
        return None;
    }
    state.pages_needed(size)
}

/// The runs that a request has to look at in its first search and in its
/// second one; `None` for a search that isn't made.
fn due(before: &Allocator, group: u32, size: u32) -> [Option<u32>; 2] {
    let pages = match pages_due(state(before), group, size) {
        Some(pages) => pages,
        None => return [None, None],
    };
    let (first, chosen) = looked_in(&listed(before), pages);
    if chosen {
        return [Some(first), None];
    }
    let mut tidied = before.clone();
    tidied.trim().expect("a legal state");
    let (second, _) = looked_in(&listed(&tidied), pages);
    [Some(first), Some(second)]
}

/// How often a request has looked at so many runs.
#[derive(Debug, Default)]
struct Met {
    none: u32,
    one: u32,
    several: u32,
    fewer_again: u32,
    as_many_again: u32,
    more_again: u32,
    refused_by_4_or_5: u32,
    refused_by_10: u32,
}

impl Met {
    /// Makes a request, checks its count and its bounds, and notes it.
    fn request(&mut self, allocator: &mut Allocator, group: u32, size: u32) -> Answer {
        let due = due(allocator, group, size);
        let most = most_runs(state(allocator).pages);
        let answer = allocator.serve(Call::Allocate { group, size });
        let sum: u32 = due.iter().flatten().sum();
        assert_eq!(
            answer.looked(),
            Some(sum),
            "{size}: {:?}",
            allocator.state()
        );
        assert!(due.iter().flatten().all(|looked| *looked <= most));
        match (due, answer.refusal()) {
            ([None, _], Some(Refusal::OverCeiling)) => self.refused_by_10 += 1,
            ([None, _], Some(_)) => self.refused_by_4_or_5 += 1,
            ([None, _], None) => self.none += 1,
            ([Some(1), None], _) => self.one += 1,
            ([Some(_), None], _) => self.several += 1,
            ([Some(first), Some(second)], _) if second < first => self.fewer_again += 1,
            ([Some(first), Some(second)], _) if second > first => self.more_again += 1,
            ([Some(_), Some(_)], _) => self.as_many_again += 1,
        }
        answer
    }

    /// Checks that everything was met so often or more.
    fn expect(&self, least: u32) {
        let Met {
            none,
            one,
            several,
            fewer_again,
            as_many_again,
            more_again,
            refused_by_4_or_5,
            refused_by_10,
        } = *self;
        let searched = [none, one, several, fewer_again, as_many_again, more_again];
        let all = searched.iter().chain([&refused_by_4_or_5, &refused_by_10]);
        assert!(all.into_iter().all(|times| *times >= least), "{self:?}");
    }
}

#[test]
fn in_histories_the_count_is_the_one_that_listings_show() {
    let mut met = Met::default();
    for (profile, seed) in Profile::ALL
        .into_iter()
        .flat_map(|one| (0..8).map(move |n| (one, n)))
    {
        let pages = [24, 32, 64, 128, 255, 256, 1, 9][seed as usize];
        let mut allocator = started(pages);
        let mut history = History::with(profile, seed);
        for _ in 0..400 {
            let call = history.next_call();
            let answer = match call {
                Call::Allocate { group, size } => met.request(&mut allocator, group, size),
                _ => allocator.serve(call),
            };
            history.observe(&call, &answer);
        }
    }
    met.expect(100);
}

/// Runs, direct blocks of one page and more, zones with and without a live
/// chunk, in any order.
fn any_state(pages: u32, random: &mut Xorshift) -> State {
    let mut state = State::fresh(pages);
    state.runs.clear();
    let (mut start, mut behind_run) = (0, false);
    let longest = random.pick(&[1, 1, 3, 9]);
    while start < pages {
        let left = pages - start;
        let length = left.min(1 + random.below(longest));
        let kind = random.below(8);
        start += if kind < 4 && !behind_run {
            state.runs.push(Run {
                start,
                pages: length,
            });
            length
        } else if kind == 7 && left >= ZONE_PAGES {
            add_zone(&mut state, start, random.below(3) == 0);
            ZONE_PAGES
        } else {
            let block = DirectBlock {
                pages: length,
                group: 1,
            };
            state.direct.insert(start, block);
            length
        };
        behind_run = state
            .runs
            .last()
            .map_or(false, |run| run.start + run.pages == start);
    }
    state.recounted()
}

/// A zone of class 63, on its class's list, with a live chunk or without.
fn add_zone(state: &mut State, start: u32, live: bool) {
    let mut zone = Zone::set_up(63);
    if live {
        zone.handed_out = 1;
        zone.owners[0] = Some(1);
    }
    state.zones.insert(start, zone);
    state.lists[63].push_back(start);
}

#[test]
fn in_states_of_any_kind_the_count_is_the_one_that_listings_show() {
    let mut met = Met::default();
    let mut random = Xorshift::new(1);
    for round in 0..2_000 {
        let pages = match round % 4 {
            0 => random.pick(&[1, 2, 3, 24, 255, 256]),
            _ => 1 + random.below(256),
        };
        let state = any_state(pages, &mut random);
        assert!(is_valid(&state), "{state:?}");
        let before = Allocator::picturing(words_needed(pages), state);
        let of_pages = [2, 3, 8, 9, 10, 11 + random.below(245)].map(|pages| pages * PAGE_BYTES);
        for size in of_pages.into_iter().chain([100, 8_191, 0, MAX_SIZE + 1]) {
            met.request(&mut before.clone(), 2, size);
        }
        met.request(&mut before.clone(), 13, 100);
        // The blocks are all group 1's.
        met.request(&mut before.clone(), 1, MAX_SIZE);
    }
    met.expect(100);
}

/// Runs and direct blocks of one page each by turns. No call makes such blocks,
/// but the state is legal.
fn by_turns(pages: u32) -> State {
    let mut state = State::fresh(pages);
    let free = (0..pages).step_by(2);
    state.runs = free.map(|start| Run { start, pages: 1 }).collect();
    for start in (1..pages).step_by(2) {
        let block = DirectBlock { pages: 1, group: 1 };
        state.direct.insert(start, block);
    }
    state.recounted()
}

#[test]
fn a_legal_state_meets_the_bounds_in_every_arena() {
    for pages in 1..=256 {
        let state = by_turns(pages);
        assert!(is_valid(&state), "{pages} pages");
        let mut allocator = Allocator::picturing(words_needed(pages), state);
        for size in [1, 8_191, 8_192, MAX_SIZE] {
            let answer = allocator.allocate(2, size);
            assert_eq!(answer.outcome, Err(Refusal::NoRun));
            assert_eq!(answer.looked, 2 * most_runs(pages), "{pages} pages");
        }
    }
    assert_eq!([24, 25, 255, 256].map(most_runs), [12, 13, 128, 128]);
}

/// The most runs that calls make of so many pages. A block or a zone has two
/// pages or more, and begins where a run began; so none begins at page 1, and
/// each further run comes with two pages before it.
fn most_runs_by_calls(pages: u32) -> u32 {
    1.max((pages + 1) / 3)
}

/// An arena with that many runs. From the last block down, three pages come
/// back, and two of them are taken again.
fn parted(pages: u32) -> Allocator {
    let mut allocator = started(pages);
    let front = grant(&mut allocator, 1, 8_192, usize::from(pages % 3 == 2));
    let blocks = grant(&mut allocator, 1, 12_288, pages as usize / 3);
    for offset in blocks.into_iter().rev() {
        assert_eq!(allocator.free(1, offset), Ok(()));
        assert_eq!(grant(&mut allocator, 2, 8_192, 1), [offset]);
    }
    for offset in front {
        assert_eq!(allocator.free(1, offset), Ok(()));
    }
    allocator
}

#[test]
fn calls_come_so_near_to_the_bounds_in_every_arena() {
    for pages in 2..=256 {
        let mut allocator = parted(pages);
        assert_eq!(runs(&allocator).len() as u32, most_runs_by_calls(pages));
        let answer = allocator.allocate(3, 12_288);
        assert_eq!(answer.looked, 2 * most_runs_by_calls(pages), "{pages}");
        assert_eq!(answer.outcome, Err(Refusal::NoRun), "{pages} pages");
    }
    assert_eq!([24, 25, 255, 256].map(most_runs_by_calls), [8, 8, 85, 85]);
}

/// All calls that can make another state in a small arena: requests of every
/// number of pages and of a chunk, returns of every block, a trim.
fn next_states(allocator: &Allocator) -> Vec<Allocator> {
    let pages = state(allocator).pages;
    let blocks = (2..=pages).map(|pages| pages * PAGE_BYTES);
    let requests = blocks
        .chain([8_191])
        .map(|size| Call::Allocate { group: 1, size });
    let live = state(allocator).live_blocks();
    let returns = live.iter().map(|block| Call::Free {
        group: 1,
        offset: block.offset,
    });
    let calls = requests.chain(returns).chain([Call::Trim]);
    calls
        .map(|call| {
            let mut next = allocator.clone();
            next.serve(call);
            next
        })
        .collect()
}

/// Every state that these calls reach, one after another.
#[test]
fn no_call_makes_more_runs_in_a_small_arena() {
    for pages in 1..=11 {
        let mut seen = BTreeSet::new();
        let mut most = 0;
        let mut open = vec![started(pages)];
        while let Some(allocator) = open.pop() {
            if seen.insert(format!("{allocator:?}")) {
                most = most.max(runs(&allocator).len() as u32);
                open.extend(next_states(&allocator));
            }
        }
        assert_eq!(most, most_runs_by_calls(pages), "{pages} pages");
        assert!(seen.len() as u32 >= pages, "{} states", seen.len());
    }
}
