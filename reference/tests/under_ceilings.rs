//! Document 02's request e) on histories, told by calls and answers alone: 10
//! is answered exactly where the block would pass the ceiling, and no group
//! comes to hold more than its ceiling but by a setting below what it holds.

mod common;

use common::{started, state};
use reference::calls::{Answer, Call, Refusal};
use reference::ceilings::{Ceilings, MAX_CEILING};
use reference::histories::{History, Profile};
use reference::sizes::{need, GROUPS, MAX_SIZE};

const CALLS: u32 = 400;

/// What each group holds and its ceiling, by the answers shown to a history.
#[derive(Clone)]
struct Books {
    held: [u32; 12],
    ceilings: Ceilings,
}

impl Books {
    fn of(history: &History) -> Books {
        let mut held = [0; 12];
        for block in history.live() {
            held[block.group as usize - 1] += block.room;
        }
        let ceilings = *history.ceilings();
        Books { held, ceilings }
    }

    /// Whether a call would set a ceiling below what its group holds.
    fn is_set_below(&self, call: Call) -> bool {
        match call {
            Call::SetCeiling { group, bytes } if (1..=GROUPS).contains(&group) => {
                bytes < self.held[group as usize - 1]
            }
            _ => false,
        }
    }

    /// By how many bytes a request of a legal group and size would pass its
    /// ceiling; `None` if it would not.
    fn passed_by(&self, group: u32, size: u32) -> Option<u32> {
        let at = group as usize - 1;
        let held = self.held[at] + need(size).room();
        let over = held.checked_sub(self.ceilings[at]);
        over.filter(|bytes| *bytes > 0)
    }

    /// The groups that hold more than their ceiling, by their places.
    fn over(&self) -> Vec<usize> {
        let is_over = |at: &usize| self.held[*at] > self.ceilings[*at];
        (0..12).filter(is_over).collect()
    }
}

/// How often the ceilings have done what they are for.
#[derive(Debug, Default)]
struct Seen {
    /// Grants to a group with a lower ceiling than the largest.
    granted: u32,
    /// And of these, such that the group then holds as much as its ceiling.
    granted_exactly: u32,
    refused: u32,
    /// And of these, by one byte, and by the largest ceiling.
    refused_by_a_byte: u32,
    refused_by_the_largest: u32,
    /// Groups that hold something under a lower ceiling, after each call.
    within: u32,
    /// Settings below what is held, and groups that hold more after each call.
    set_below: u32,
    over: u32,
    /// Returns and resets of groups that held more, and hold no more than
    /// their ceiling afterwards.
    back_within: u32,
}

impl Seen {
    /// Checks that a request was refused by 10 exactly where that is due, and
    /// without a look at the runs.
    fn request(&mut self, before: &Books, group: u32, size: u32, answer: &Answer) {
        let is_legal = (1..=GROUPS).contains(&group) && (1..=MAX_SIZE).contains(&size);
        let refused = answer.refusal() == Some(Refusal::OverCeiling);
        if !is_legal {
            assert!(!refused, "group {group}, {size} bytes");
            return;
        }
        let passed_by = before.passed_by(group, size);
        assert_eq!(refused, passed_by.is_some(), "group {group}, {size} bytes");
        let at = group as usize - 1;
        let is_lower = before.ceilings[at] < MAX_CEILING;
        if refused {
            assert_eq!(answer.looked(), Some(0));
            self.refused += 1;
            self.refused_by_a_byte += u32::from(passed_by == Some(1));
            self.refused_by_the_largest += u32::from(!is_lower);
        } else if is_lower && answer.refusal().is_none() {
            let held = before.held[at] + need(size).room();
            self.granted += 1;
            self.granted_exactly += u32::from(held == before.ceilings[at]);
        }
    }

    /// Checks that a group that holds more than its ceiling did so before and
    /// has not come to hold still more, or has its ceiling from this call.
    fn look(&mut self, call: Call, before: &Books, after: &Books) {
        let was_over = before.over();
        let set_below = before.is_set_below(call);
        for at in after.over() {
            let is_set = matches!(call, Call::SetCeiling { group, .. } if group as usize == at + 1);
            assert!(was_over.contains(&at) || (is_set && set_below), "{call:?}");
            assert!(after.held[at] <= before.held[at], "{call:?}");
            self.over += 1;
        }
        let is_over = |at: &usize| after.held[*at] > after.ceilings[*at];
        let is_within =
            |at: &usize| after.held[*at] > 0 && after.ceilings[*at] < MAX_CEILING && !is_over(at);
        self.set_below += u32::from(set_below);
        self.within += (0..12).filter(is_within).count() as u32;
        if matches!(call, Call::Free { .. } | Call::Reset { .. }) {
            let back = was_over.iter().filter(|at| !is_over(at));
            self.back_within += back.count() as u32;
        }
    }
}

/// Makes the calls of a history, with a start in the middle; those that set a
/// ceiling below what is held are left out if they are not wanted.
fn follow(pages: u32, profile: Profile, seed: u64, below: bool, seen: &mut Seen) {
    let mut allocator = started(pages);
    let mut history = History::with(profile, seed);
    for made in 0..CALLS {
        let call = match made == CALLS / 2 {
            true => Call::Init { pages },
            false => history.next_call(),
        };
        let before = Books::of(&history);
        if before.is_set_below(call) && !below {
            continue;
        }
        let answer = allocator.serve(call);
        history.observe(&call, &answer);
        if let Call::Allocate { group, size } = call {
            seen.request(&before, group, size, &answer);
        }
        let after = Books::of(&history);
        seen.look(call, &before, &after);
        assert!(below || after.over().is_empty(), "{call:?}");
        assert_eq!(state(&allocator).ceilings, after.ceilings, "{call:?}");
    }
}

fn follow_all(below: bool) -> Seen {
    let mut seen = Seen::default();
    for profile in Profile::ALL {
        let arenas = [24, 32, 64, 128, 255, 256, 1, 9].into_iter().cycle();
        for (seed, pages) in (0..80).zip(arenas) {
            follow(pages, profile, seed, below, &mut seen);
        }
    }
    seen
}

#[test]
fn while_no_ceiling_is_set_below_what_is_held_nobody_holds_more_than_the_ceiling() {
    let seen = follow_all(false);
    let often = [seen.granted, seen.refused, seen.within];
    assert!(often.iter().all(|times| *times >= 1_000), "{seen:?}");
    let exactly = [seen.granted_exactly, seen.refused_by_a_byte];
    assert!(exactly.iter().all(|times| *times >= 500), "{seen:?}");
    assert!(seen.refused_by_the_largest >= 50, "{seen:?}");
    assert_eq!([seen.set_below, seen.over, seen.back_within], [0; 3]);
}

#[test]
fn only_a_setting_below_what_is_held_brings_a_group_above_its_ceiling() {
    let seen = follow_all(true);
    assert!(seen.set_below >= 200 && seen.over >= 1_000, "{seen:?}");
    assert!(seen.back_within >= 80, "{seen:?}");
    let often = [seen.granted, seen.refused, seen.within];
    assert!(often.iter().all(|times| *times >= 1_000), "{seen:?}");
}

/// A history in lines is one of the bench program: it sets no ceiling, and 10
/// is the largest ceiling's answer alone.
#[test]
fn histories_in_lines_set_no_ceiling() {
    let mut refused = 0;
    for seed in 0..60 {
        let mut allocator = started(24);
        let profile = Profile::ALL[seed as usize % 6];
        let mut history = History::with(profile, seed).in_lines();
        for _ in 0..1_000 {
            let call = history.next_call();
            assert!(!matches!(call, Call::SetCeiling { .. }));
            let answer = allocator.serve(call);
            history.observe(&call, &answer);
            refused += u32::from(answer.refusal() == Some(Refusal::OverCeiling));
        }
        assert_eq!(*history.ceilings(), [MAX_CEILING; 12]);
    }
    assert!(refused >= 10, "{refused} times");
}
