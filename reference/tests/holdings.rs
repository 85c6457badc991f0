//! Document 02's request c) on histories: after every call the holdings are
//! those of a ledger that is kept from calls and answers alone, and no other
//! call changes a figure than those that grant a block or take one back.

mod common;

use common::started;
use reference::calls::{Allocator, Answer, Call};
use reference::histories::{History, Profile};
use reference::holdings::{Holding, Holdings};
use reference::sizes::GROUPS;
use std::collections::BTreeMap;

const CALLS: u32 = 400;

/// What the calls and their answers tell: the live blocks by their offsets,
/// each with its group and its room, and the most that each group has held.
#[derive(Default)]
struct Ledger {
    live: BTreeMap<u32, (u32, u32)>,
    greatest: BTreeMap<u32, u32>,
}

impl Ledger {
    /// Notes an answer. The room of a block is what an ask answers.
    fn note(&mut self, call: Call, answer: &Answer, allocator: &Allocator) {
        match (call, answer) {
            (Call::Init { .. }, Answer::Done) => *self = Ledger::default(),
            (Call::Allocate { group, .. }, Answer::Granted { offset, .. }) => {
                let (owner, room) = allocator.query(*offset).expect("a live block");
                assert_eq!(owner, group);
                self.live.insert(*offset, (group, room));
            }
            (Call::Free { offset, .. }, Answer::Done) => {
                self.live.remove(&offset).expect("a block that was granted");
            }
            (Call::Reset { group }, Answer::Counted(_)) => {
                self.live.retain(|_, (owner, _)| *owner != group);
            }
            _ => {}
        }
        for group in 1..=GROUPS {
            let held: u32 = self.held(group).iter().sum();
            let greatest = self.greatest.entry(group).or_default();
            *greatest = held.max(*greatest);
        }
    }

    /// The rooms of a group's live blocks.
    fn held(&self, group: u32) -> Vec<u32> {
        let own = self.live.values().filter(|(owner, _)| *owner == group);
        own.map(|(_, room)| *room).collect()
    }

    fn holdings(&self) -> Vec<Holding> {
        let record = |group| {
            let rooms = self.held(group);
            Holding {
                blocks: rooms.len() as u32,
                held: rooms.iter().sum(),
                greatest: self.greatest.get(&group).copied().unwrap_or(0),
            }
        };
        (1..=GROUPS).map(record).collect()
    }
}

/// How often the figures have done what they are for.
#[derive(Debug, Default)]
struct Seen {
    raised: u32,
    granted_below_the_greatest: u32,
    lowered: u32,
    cleared: u32,
    kept: u32,
}

impl Seen {
    /// Checks which figures a call has changed, and notes it.
    fn note(&mut self, call: Call, answer: &Answer, before: &Holdings, after: &Holdings) {
        let owner = match (call, answer) {
            (Call::Init { .. }, Answer::Done) => {
                assert_eq!(*after, Holdings::default());
                self.cleared += 1;
                return;
            }
            (Call::Allocate { group, .. }, Answer::Granted { .. }) => Some(group),
            (Call::Free { group, .. }, Answer::Done) => Some(group),
            (Call::Reset { group }, Answer::Counted(_)) => Some(group),
            _ => None,
        };
        for (group, (old, new)) in (1..).zip(before.iter().zip(after)) {
            if Some(group) != owner {
                assert_eq!(old, new, "{call:?}, group {group}");
                continue;
            }
            match call {
                Call::Allocate { .. } if new.greatest > old.greatest => {
                    assert_eq!(new.greatest, new.held);
                    self.raised += 1;
                }
                Call::Allocate { .. } => self.granted_below_the_greatest += 1,
                _ => {
                    assert_eq!(new.greatest, old.greatest, "{call:?}");
                    self.lowered += u32::from(new.held < old.held);
                }
            }
        }
        self.kept += u32::from(owner.is_none());
    }
}

/// Makes the calls of a history, with a start in the middle, and compares
/// after each of them.
fn follow(pages: u32, profile: Profile, seed: u64, seen: &mut Seen) {
    let mut allocator = started(pages);
    let mut history = History::with(profile, seed);
    let mut ledger = Ledger::default();
    for made in 0..CALLS {
        let call = match made == CALLS / 2 {
            true => Call::Init { pages },
            false => history.next_call(),
        };
        let before = allocator.holdings(12).expect("a legal state");
        let answer = allocator.serve(call);
        history.observe(&call, &answer);
        ledger.note(call, &answer, &allocator);
        let after = allocator.holdings(12).expect("a legal state");
        assert_eq!(after[..], ledger.holdings(), "{call:?}, {answer:?}");
        seen.note(call, &answer, &before, &after);
    }
}

#[test]
fn after_every_call_the_holdings_are_those_of_the_ledger() {
    let mut seen = Seen::default();
    for profile in Profile::ALL {
        for (seed, pages) in (0..).zip([24, 32, 64, 128, 255, 256, 1, 9]) {
            follow(pages, profile, seed, &mut seen);
        }
    }
    let Seen {
        raised,
        granted_below_the_greatest,
        lowered,
        cleared,
        kept,
    } = seen;
    let all = [raised, granted_below_the_greatest, lowered, kept];
    assert!(all.iter().all(|times| *times >= 1_000), "{seen:?}");
    assert_eq!(cleared, 6 * 8);
}

/// Calls that only tell, a trim, and settings of a ceiling, also of one below
/// what is held, between two fetchings of the holdings.
#[test]
fn what_neither_grants_nor_takes_back_changes_no_figure() {
    let mut allocator = started(32);
    common::grant(&mut allocator, 1, 100, 3);
    common::grant(&mut allocator, 2, 9_000, 1);
    common::grant(&mut allocator, 3, 8_191, 1);
    assert_eq!(allocator.reset(3), Ok(1));
    let before = allocator.holdings(12);
    for call in [
        Call::Trim,
        Call::Query { offset: 0 },
        Call::Listing { capacity: 2_220 },
        Call::Listing { capacity: 0 },
        Call::Holdings { records: 12 },
        Call::Holdings { records: 11 },
        Call::SetCeiling { group: 2, bytes: 0 },
        Call::SetCeiling {
            group: 3,
            bytes: 8_192,
        },
    ] {
        allocator.serve(call);
        assert_eq!(allocator.holdings(12), before, "{call:?}");
    }
    assert_eq!(
        before.map(|records| records[2].line()),
        Ok("0 0 8192".into())
    );
}
