//! The groups' figures: made to agree with damaged words, and damaged themselves, every word of them
//! and of the ceilings behind them.
//!
//! Which figures are right is told here by the layout's rule alone, and not by the second reading: the
//! live blocks and the held bytes are those of the state, a greatest figure is anything from the held
//! bytes to those of the arena, a ceiling is anything up to the largest, and all words behind them are
//! zero.

use crate::edits;
use crate::pool;
use crate::subject::Subject;
use crate::surgery;
use reference::calls::Call;
use reference::ceilings::{AT_START, MAX_CEILING};
use reference::histories::Xorshift;
use reference::sizes::{
    chunk_count, chunk_size, CLASSES, GROUPS, MAX_PAGES, PAGE_BYTES, ZONE_PAGES,
};
use reference::state::State;
use tests::check::check;
use tests::layout::{
    encode, page_at, slot_at, BLOCKS, CEILINGS, DIRECT, FIGURE_WORDS, GREATEST, HELD, PAGES_AT,
    STATE, ZONE,
};
use tests::pair::Pair;
use tests::states::{odd, reached};

/// Makes the figures agree with what the words of the pages hold, as far as these can be read. A
/// greatest figure stays unless it is out of its bounds.
pub fn settle(subject: &mut Subject) {
    let arena = subject.get(PAGES_AT).min(MAX_PAGES) * PAGE_BYTES;
    let found = Found::by(subject);
    subject.set_all(BLOCKS.start, &found.blocks);
    subject.set_all(HELD.start, &found.held);
    for (at, held) in GREATEST.zip(found.held) {
        let greatest = subject.get(at);
        subject.set(at, greatest.min(arena).max(held));
    }
}

/// Blocks and bytes by group, as words tell them that need not be a state's.
#[derive(Default)]
struct Found {
    blocks: [u32; GROUPS as usize],
    held: [u32; GROUPS as usize],
}

impl Found {
    /// One segment behind another, until one has no pages, or too many, or the words end.
    fn by(subject: &Subject) -> Found {
        let mut found = Found::default();
        let words = subject.twin();
        let pages = words[PAGES_AT];
        let mut page = 0;
        while page < pages {
            let (kind, second, third) = match words.get(page_at(page)..page_at(page) + 3) {
                Some(head) => (head[0], head[1], head[2]),
                None => break,
            };
            let length = match kind {
                ZONE => ZONE_PAGES,
                _ => second,
            };
            match kind {
                DIRECT => found.add(third, second.wrapping_mul(PAGE_BYTES)),
                ZONE if second < CLASSES => found.add_zone(words, page, second),
                _ => {}
            }
            if !(1..=MAX_PAGES).contains(&length) {
                break;
            }
            page += length;
        }
        found
    }

    fn add_zone(&mut self, words: &[u32], start: u32, class: u32) {
        let count = chunk_count(class) as usize;
        let slots = words.iter().skip(slot_at(start, 0)).take(count);
        for slot in slots {
            self.add(slot & STATE, chunk_size(class));
        }
    }

    /// A block of this group, if it is one.
    fn add(&mut self, group: u32, room: u32) {
        let place = (group as usize).wrapping_sub(1);
        if let (Some(blocks), Some(held)) = (self.blocks.get_mut(place), self.held.get_mut(place)) {
            *blocks += 1;
            *held = held.wrapping_add(room);
        }
    }
}

/// Whether these figures and ceilings are right for a state whose words were made with right ones.
fn are_right(figures: &[u32], made: &[u32], pages: u32) -> bool {
    let counted = BLOCKS.start..HELD.end;
    let in_bounds = |group: usize| {
        let greatest = figures[GREATEST.start + group];
        (made[HELD.start + group]..=pages * PAGE_BYTES).contains(&greatest)
    };
    let all_up_to = |most: u32, words: &[u32]| words.iter().all(|word| *word <= most);
    figures[counted.clone()] == made[counted]
        && (0..GREATEST.len()).all(in_bounds)
        && all_up_to(MAX_CEILING, &figures[CEILINGS])
        && all_up_to(0, &figures[CEILINGS.end..FIGURE_WORDS])
}

/// States in which groups hold nothing, something and everything.
pub fn states() -> Vec<State> {
    let mut states = vec![State::fresh(1), State::fresh(24), State::fresh(256)];
    states.extend(pool::tiny().into_iter().map(|subject| subject.state));
    states.extend((0..12).map(|seed| odd(1 + 3 * seed as u32, 3_000 + seed)));
    states.extend([8, 24, 40].map(|pages| reached(pages, 200, u64::from(pages))));
    states.extend([odd(256, 5), reached(256, 300, 6)]);
    states
}

/// What to put in the place of a figure or a ceiling: near it, at the bounds and beyond them, and
/// anything.
fn values(at: usize, made: &[u32], pages: u32, random: &mut Xorshift) -> Vec<u32> {
    let arena = pages * PAGE_BYTES;
    let held = made[HELD.start + at % BLOCKS.len()];
    let mut values = edits::values_in_turn(made[at], random).to_vec();
    values.extend([held, held.wrapping_sub(1), held + 1, held + 8]);
    values.extend([arena, arena - 1, arena + 1, arena / 2, u32::MAX, 1 << 31]);
    values.extend([made[at] ^ 1 << 16, made[at].wrapping_add(8), arena - held]);
    values.extend([MAX_CEILING - 1, MAX_CEILING, MAX_CEILING + 1]);
    values.push(random.below(arena + 1));
    values
}

/// Calls of every kind but an init, each with values that would be served.
fn calls(state: &State) -> Vec<Call> {
    let live = state.live_blocks();
    let (group, offset) = match live.last() {
        Some(block) => (u32::from(block.group), block.offset),
        None => (1, 0),
    };
    vec![
        Call::Holdings { records: 12 },
        Call::Query { offset },
        Call::Listing { capacity: 2_220 },
        Call::Allocate { group, size: 100 },
        Call::Allocate { group, size: 8_192 },
        Call::Free { group, offset },
        Call::Reset { group },
        Call::Trim,
        Call::Holdings { records: 11 },
        Call::SetCeiling { group, bytes: 104 },
    ]
}

/// All calls on these words: each is refused by 3, and an init alone is served.
pub fn refuse(words: Vec<u32>, state: &State, told: &str) {
    assert_eq!(check(&mut words.clone()), 0, "{told}");
    let mut pair = Pair::over(words).named(told.to_string());
    for call in calls(state) {
        assert_eq!(pair.call(call).number(), 3, "{told}: {call:?}");
    }
    assert_eq!(pair.init(state.pages), Ok(()));
}

/// All calls on these words, one after another: none is refused by 3. A greatest figure stays unless
/// its group holds more, and a ceiling unless it is set.
pub fn serve(words: Vec<u32>, state: &State, told: &str) {
    assert_eq!(check(&mut words.clone()), 1, "{told}");
    let mut greatest = words[GREATEST].to_vec();
    let mut ceilings = words[CEILINGS].to_vec();
    let mut pair = Pair::over(words).named(told.to_string());
    for call in calls(state) {
        assert_ne!(pair.call(call).number(), 3, "{told}: {call:?}");
        if let Call::SetCeiling { group, bytes } = call {
            ceilings[group as usize - 1] = bytes;
        }
        assert_eq!(pair.state().ceilings[..], ceilings, "{told}: {call:?}");
        let holdings = pair.holdings(12).expect("a list of twelve");
        for (greatest, holding) in greatest.iter_mut().zip(&holdings) {
            *greatest = holding.held.max(*greatest);
            assert_eq!(holding.greatest, *greatest, "{told}: {call:?}");
        }
    }
    assert_eq!(pair.init(state.pages), Ok(()));
    let holdings = pair.holdings(12).expect("a list of twelve");
    assert!(holdings.iter().all(|holding| holding.greatest == 0));
    assert_eq!(pair.state().ceilings, AT_START);
}

#[test]
fn every_word_changed_is_refused_unless_it_is_a_greatest_figure_or_a_ceiling_in_its_bounds() {
    let mut random = Xorshift::new(31);
    let (mut refused, mut served) = (0, 0);
    for state in states() {
        let made = encode(&state);
        for at in 0..FIGURE_WORDS {
            for value in values(at, &made, state.pages, &mut random) {
                let mut words = made.clone();
                words[at] = value;
                let told = format!("{} pages, word {at}: {value}", state.pages);
                if are_right(&words[..FIGURE_WORDS], &made, state.pages) {
                    let free = (GREATEST.start..CEILINGS.end).contains(&at) || value == made[at];
                    assert!(free, "{told}");
                    serve(words, &state, &told);
                    served += 1;
                } else {
                    refuse(words, &state, &told);
                    refused += 1;
                }
            }
        }
    }
    assert!(refused > 15_000 && served > 2_000, "{refused}, {served}");
}

#[test]
fn figures_changed_together_are_right_only_if_each_is() {
    let mut random = Xorshift::new(32);
    let mut pool: Vec<Subject> = states()
        .into_iter()
        .map(|state| Subject::new(state, 0))
        .collect();
    let (mut refused, mut served) = (0, 0);
    for round in 0..60_000 {
        let at = round % pool.len();
        let subject = &mut pool[at];
        let made = encode(&subject.state)[..FIGURE_WORDS].to_vec();
        for _ in 0..1 + random.below(3) {
            match random.below(2) {
                0 => edits::figures(subject, &mut random),
                _ => surgery::any_of_figures(subject, &mut random),
            }
        }
        let figures = &subject.twin()[..FIGURE_WORDS];
        let right = are_right(figures, &made, subject.state.pages);
        let verdict = subject.judge(subject.used());
        let told = subject.describe();
        assert_eq!(verdict.answer, u32::from(right), "{told}");
        assert!(verdict.is_right(), "{told}");
        subject.restore();
        refused += u32::from(!right);
        served += u32::from(right);
    }
    assert!(refused > 30_000 && served > 3_000, "{refused}, {served}");
}
