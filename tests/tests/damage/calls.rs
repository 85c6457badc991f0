//! Calls on damaged words. Where the second reading finds no state in them, a call is refused by 3
//! and nothing changes; only an init is served on any words. Where it finds one, the call answers
//! as the second program does on that state, and leaves the words of the state that it makes.

use crate::edits;
use crate::pool;
use crate::subject::Subject;
use crate::surgery;
use crate::{damage, Edit};
use reference::calls::{Allocator, Call};
use reference::ceilings::MAX_CEILING;
use reference::histories::Xorshift;
use reference::listing::LONGEST;
use reference::sizes::chunk_size;
use reference::state::State;
use tests::calls::serve;
use tests::counts::{on_all_processors, Counts};
use tests::layout::{decode, encode};
use tests::searches;

/// Cases of each kind in each part, in arenas of 1 to 40 pages.
const CASES: [(&str, u32, Edit); 4] = [
    ("one word", 40_000, edits::one_word),
    ("any edit", 20_000, edits::any_edit),
    ("zone slots", 15_000, edits::zone_slots),
    ("surgery", 60_000, surgery::operate),
];

/// Cases of each kind in each part, in arenas of up to 256 pages.
const LARGE_CASES: u32 = 1_500;

/// Parts with seeds of their own, which run beside each other.
const PARTS: u32 = 2;

/// All calls that were made, those refused by 3 and by 10, those not refused at all, and the
/// settings of a ceiling among these.
const MADE: &str = "calls";
const STATELESS: &str = "calls: no 3";
const OVER: &str = "calls: no 10";
const SERVED: &str = "calls: served";
const SET: &str = "calls: served, a ceiling set";

#[test]
fn calls_on_damaged_words_do_what_the_second_program_does() {
    let counts = on_all_processors(PARTS, part);
    counts.print("Calls on damaged words");
    counts.expect_no_fault();
    counts.expect(280_000, &[MADE]);
    counts.expect(80_000, &[STATELESS]);
    counts.expect(25_000, &[SERVED]);
    counts.expect(1_000, &[OVER, SET]);
    counts.expect(50, &searches::KINDS);
    counts.expect(50, &searches::COUNTS);
}

/// All kinds once, from one seed.
fn part(seed: u32, counts: &mut Counts) {
    let mut random = Xorshift::new(u64::from(seed) + 4_000);
    let mut small = pool::small();
    let mut large = pool::large();
    for (name, cases, edit) in CASES {
        for (pool, cases) in [(&mut small, cases), (&mut large, LARGE_CASES)] {
            damage(pool, cases, &mut random, edit, |subject, count, random| {
                judge(counts, name, subject, count, random)
            });
        }
    }
}

/// Makes one call on the first `count` words, and takes back what it did to them.
fn judge(
    counts: &mut Counts,
    name: &str,
    subject: &mut Subject,
    count: usize,
    random: &mut Xorshift,
) {
    let found = decode(&subject.twin()[..count]);
    let call = any_call(found.as_ref().unwrap_or(&subject.state), random);
    if let Some(state) = &found {
        for name in searches::met(state, &call).names() {
            counts.count(name, 1);
        }
    }
    let mut second = match found {
        Some(state) => Allocator::picturing(count, state),
        None => Allocator::zeroed(count),
    };
    let ours = serve(subject.lend(count), call);
    let theirs = second.serve(call);
    let (words, twin) = (subject.words(), subject.twin());
    let as_expected = match second.state() {
        Some(state) if theirs.number() == 0 => {
            let own = encode(state);
            words.starts_with(&own) && words[own.len()..] == twin[own.len()..]
        }
        _ => words == twin,
    };
    if ours != theirs || !as_expected {
        counts.fault(|| {
            format!(
                "{name}: {call:?} on {count} words: {ours:?}, not {theirs:?}, words as expected \
                 {as_expected}; {}",
                subject.describe()
            )
        });
    }
    subject.undo();
    count_made(counts, &call, theirs.number());
}

/// Counts a call by the number of its refusal.
fn count_made(counts: &mut Counts, call: &Call, number: u32) {
    let is_setting = matches!(call, Call::SetCeiling { .. });
    counts.count(MADE, 1);
    counts.count(STATELESS, u32::from(number == 3));
    counts.count(OVER, u32::from(number == 10));
    counts.count(SERVED, u32::from(number == 0));
    counts.count(SET, u32::from(number == 0 && is_setting));
}

/// A call that a state is likely to serve: about its blocks, its classes, its groups.
fn any_call(state: &State, random: &mut Xorshift) -> Call {
    let (owner, offset) = any_block(state, random);
    let group = match random.below(8) {
        0 => random.pick(&[0, 1, 12, 13]),
        _ => owner,
    };
    match random.below(18) {
        0 => Call::Init {
            pages: random.pick(&[0, 1, state.pages - 1, state.pages, state.pages + 1, 257]),
        },
        1..=6 => Call::Allocate {
            group: group.max(1),
            size: any_size(state, random),
        },
        7..=10 => Call::Free { group, offset },
        11 | 12 => Call::Reset { group },
        13 => Call::Trim,
        14 => Call::Query { offset },
        15 => Call::Holdings {
            records: random.pick(&[12, 12, 11, 13]),
        },
        16 => Call::SetCeiling {
            group,
            bytes: any_ceiling(state, group, random),
        },
        _ => Call::Listing {
            capacity: random.pick(&[LONGEST, 100, 29, 10]),
        },
    }
}

/// A group and an offset: of a live block, of a chunk that isn't live, or of nothing.
fn any_block(state: &State, random: &mut Xorshift) -> (u32, u32) {
    let anything = (1 + random.below(12), random.below(state.pages * 4_096));
    let starts: Vec<u32> = state.zones.keys().copied().collect();
    let blocks: Vec<u32> = state.direct.keys().copied().collect();
    match random.below(8) {
        0 => anything,
        1..=5 if !starts.is_empty() => {
            let start = random.pick(&starts);
            let zone = &state.zones[&start];
            let chunk = random.below(zone.handed_out + 1);
            let owner = zone.owners.get(chunk as usize).copied().flatten();
            let group = owner.map_or(anything.0, u32::from);
            (group, start * 4_096 + chunk * zone.chunk_size())
        }
        _ if !blocks.is_empty() => {
            let start = random.pick(&blocks);
            (u32::from(state.direct[&start].group), start * 4_096)
        }
        _ => anything,
    }
}

/// A ceiling: about what the group holds, the largest, or above that.
fn any_ceiling(state: &State, group: u32, random: &mut Xorshift) -> u32 {
    let holding = state.holdings.get((group as usize).wrapping_sub(1));
    let held = holding.map_or(0, |holding| holding.held);
    let below = held.saturating_sub(1);
    random.pick(&[0, below, held, MAX_CEILING, MAX_CEILING + 1, u32::MAX])
}

/// A size: of a class that has a zone more often than of another, or of a few pages.
fn any_size(state: &State, random: &mut Xorshift) -> u32 {
    let classes: Vec<u32> = state.zones.values().map(|zone| zone.class).collect();
    match random.below(8) {
        0 => 1 + random.below(8_191),
        1 => random.pick(&[0, 1, 1_048_576, 1_048_577]),
        2..=5 if !classes.is_empty() => chunk_size(random.pick(&classes)).min(8_191),
        _ => 8_192 + random.below(30_000),
    }
}
