//! Operations on a zone's count, chain and slots.
//!
//! They go by the words as they stand, not by the state: another operation may have come before.

use crate::edits::any_zone;
use crate::subject::Subject;
use reference::histories::Xorshift;
use reference::sizes::{chunk_count, CLASSES};
use reference::state::Page;
use tests::layout::{
    page_at, slot_at, CLASS_LISTS, ENTRY_SHIFT, RETURNED, STATE, ZONE, ZONE_SLOTS,
};

/// A zone's words, as far as they can be taken for a zone.
struct Head {
    start: Page,
    class: u32,
    handed_out: u32,
    length: u32,
    /// The chunks that the slots name as the chain's, the one at position 0 first: as many as the
    /// length says, and no more than there are slots.
    chain: Vec<u32>,
}

fn any_head(subject: &Subject, random: &mut Xorshift) -> Option<Head> {
    let start = any_zone(subject, random)?;
    let word = |place: usize| subject.get(page_at(start) + place);
    let in_range = word(0) == ZONE && word(1) < CLASSES && word(2) <= chunk_count(word(1));
    let positions = 0..word(3).min(ZONE_SLOTS as u32);
    in_range.then(|| Head {
        start,
        class: word(1),
        handed_out: word(2),
        length: word(3),
        chain: positions
            .map(|position| subject.get(slot_at(start, position)) >> ENTRY_SHIFT)
            .filter(|chunk| (*chunk as usize) < ZONE_SLOTS)
            .collect(),
    })
}

impl Head {
    fn set(&self, subject: &mut Subject) {
        let words = [ZONE, self.class, self.handed_out, self.length];
        subject.set_all(page_at(self.start), &words);
    }

    fn slot(&self, chunk: u32) -> usize {
        slot_at(self.start, chunk)
    }

    fn state(&self, subject: &Subject, chunk: u32) -> u32 {
        subject.get(self.slot(chunk)) & STATE
    }

    /// Writes a chunk's state; the other half of its slot stays.
    fn set_state(&self, subject: &mut Subject, chunk: u32, state: u32) {
        let at = self.slot(chunk);
        subject.set(at, subject.get(at) & !STATE | state & STATE);
    }

    /// Writes the chunk at a position; the other half of that slot stays.
    fn set_entry(&self, subject: &mut Subject, position: u32, chunk: u32) {
        let at = self.slot(position);
        subject.set(at, subject.get(at) & STATE | chunk << ENTRY_SHIFT);
    }

    /// Writes a chain of these chunks, position 0 first, with its length and both halves. A chunk
    /// that was on it before keeps its state.
    fn set_chain(&mut self, subject: &mut Subject, chain: &[u32]) {
        for position in 0..self.length.min(ZONE_SLOTS as u32) {
            self.set_entry(subject, position, 0);
        }
        for (position, chunk) in (0..).zip(chain) {
            self.set_entry(subject, position, *chunk);
            self.set_state(subject, *chunk, RETURNED + position);
        }
        self.length = chain.len() as u32;
        self.set(subject);
    }

    /// A live chunk at or above a place below k, if there is one.
    fn live_chunk(&self, subject: &Subject, random: &mut Xorshift) -> Option<u32> {
        let from = random.below(self.handed_out + 1);
        let is_live = |chunk: &u32| (1..RETURNED).contains(&self.state(subject, *chunk));
        (from..self.handed_out).chain(0..from).find(is_live)
    }

    /// A position of the chain, if it has one.
    fn position(&self, random: &mut Xorshift) -> Option<u32> {
        let length = self.chain.len() as u32;
        (length > 0).then(|| random.below(length))
    }
}

/// The next untouched chunk handed out: legal unless the zone is on the empty list, or full by it.
pub fn hand_out_next(subject: &mut Subject, random: &mut Xorshift) {
    if let Some(mut head) = any_head(subject, random) {
        if head.handed_out < chunk_count(head.class) {
            head.set_state(subject, head.handed_out, 1 + random.below(12));
            head.handed_out += 1;
            head.set(subject);
        }
    }
}

/// A live chunk put on the chain, as the one returned last or elsewhere: legal unless the zone was
/// full.
pub fn return_chunk(subject: &mut Subject, random: &mut Xorshift) {
    if let Some(mut head) = any_head(subject, random) {
        if let Some(chunk) = head.live_chunk(subject, random) {
            let mut chain = head.chain.clone();
            let at = random.below(chain.len() as u32 + 1) as usize;
            chain.insert(random.pick(&[chain.len(), at]), chunk);
            head.set_chain(subject, &chain);
        }
    }
}

/// The chunk returned last granted.
pub fn grant_last(subject: &mut Subject, random: &mut Xorshift) {
    take_from_chain(subject, random, |length, _| length - 1);
}

/// A chunk inside the chain granted, and those above it moved down: as legal as the last one.
pub fn grant_inside_chain(subject: &mut Subject, random: &mut Xorshift) {
    take_from_chain(subject, random, |length, random| random.below(length));
}

fn take_from_chain(
    subject: &mut Subject,
    random: &mut Xorshift,
    place: fn(u32, &mut Xorshift) -> u32,
) {
    if let Some(mut head) = any_head(subject, random) {
        if !head.chain.is_empty() {
            let mut chain = head.chain.clone();
            let chunk = chain.remove(place(chain.len() as u32, random) as usize);
            head.set_chain(subject, &chain);
            head.set_state(subject, chunk, 1 + random.below(12));
        }
    }
}

/// A chunk taken off the chain that keeps its state, or is cleared: it is neither live nor
/// returned. The length says what it said, or what is left.
pub fn lose_chunk(subject: &mut Subject, random: &mut Xorshift) {
    if let Some(mut head) = any_head(subject, random) {
        if !head.chain.is_empty() {
            let mut chain = head.chain.clone();
            let chunk = chain.remove(random.below(chain.len() as u32) as usize);
            let length = head.length;
            head.set_chain(subject, &chain);
            match random.below(3) {
                0 => subject.set(page_at(head.start) + 3, length),
                1 => head.set_state(subject, chunk, 0),
                _ => {}
            }
        }
    }
}

/// A chunk at two positions: it takes another one's place and keeps its own. The chunk that stood
/// there keeps its state, or is live, or untouched.
pub fn position_twice(subject: &mut Subject, random: &mut Xorshift) {
    if let Some(head) = any_head(subject, random) {
        if let (Some(one), Some(other)) = (head.position(random), head.position(random)) {
            head.set_entry(subject, one, head.chain[other as usize]);
            let group = 1 + random.below(12);
            let state = random.pick(&[RETURNED + one, group, 0]);
            head.set_state(subject, head.chain[one as usize], state);
        }
    }
}

/// Two chunks with one position: a chunk of the chain, or a live one, gets the state of another.
/// The length says what it said, or one more.
pub fn same_position(subject: &mut Subject, random: &mut Xorshift) {
    if let Some(head) = any_head(subject, random) {
        if let (Some(one), Some(other)) = (head.position(random), head.position(random)) {
            let live = head.live_chunk(subject, random);
            let chunk = match random.below(2) {
                0 => head.chain[one as usize],
                _ => live.unwrap_or(head.chain[one as usize]),
            };
            head.set_state(subject, chunk, RETURNED + other);
            if random.below(4) == 0 {
                subject.set(page_at(head.start) + 3, head.length.wrapping_add(1));
            }
        }
    }
}

/// A chunk named at or above the chain's length, be it above k or behind the zone's last chunk. With
/// a greater length the same words are legal if the chunk has that position.
pub fn entry_past_chain(subject: &mut Subject, random: &mut Xorshift) {
    if let Some(head) = any_head(subject, random) {
        let last = ZONE_SLOTS as u32 - 1;
        let above = random.pick(&[
            head.length,
            head.length.saturating_add(1),
            head.handed_out,
            last,
        ]);
        let position = above.min(last);
        let chunk = match random.below(3) {
            0 => random.below(head.handed_out + 1),
            1 => head.live_chunk(subject, random).unwrap_or(1),
            _ => random.below(STATE + 1),
        };
        head.set_entry(subject, position, chunk);
        if random.below(2) == 0 && (chunk as usize) < ZONE_SLOTS {
            head.set_state(subject, chunk, RETURNED + position);
            subject.set(page_at(head.start) + 3, head.length.wrapping_add(1));
        }
    }
}

/// A position that names a live chunk, an untouched one, one that no zone has, or any number.
pub fn entry_of_another(subject: &mut Subject, random: &mut Xorshift) {
    if let Some(head) = any_head(subject, random) {
        if let Some(position) = head.position(random) {
            let chunk = match random.below(4) {
                0 => head.live_chunk(subject, random).unwrap_or(0),
                1 => head.handed_out + random.below(3),
                2 => random.pick(&[4_095, 4_096, 4_097, 8_192, STATE]),
                _ => random.below(STATE + 1),
            };
            head.set_entry(subject, position, chunk);
        }
    }
}

/// Two chunks of the chain in each other's place, which is legal; or only the positions' chunks, or
/// only the chunks' positions, which is not.
pub fn cross_positions(subject: &mut Subject, random: &mut Xorshift) {
    if let Some(mut head) = any_head(subject, random) {
        if head.chain.len() >= 2 {
            let mut chain = head.chain.clone();
            let last = chain.len() - 1;
            let one = random.below(last as u32) as usize;
            let other = random.pick(&[one + 1, last]);
            chain.swap(one, other);
            match random.below(4) {
                0 => {
                    head.set_entry(subject, one as u32, chain[one]);
                    head.set_entry(subject, other as u32, chain[other]);
                }
                1 => {
                    head.set_state(subject, chain[one], RETURNED + one as u32);
                    head.set_state(subject, chain[other], RETURNED + other as u32);
                }
                _ => head.set_chain(subject, &chain),
            }
        }
    }
}

/// A chunk at k or above put on the chain, be it behind the zone's last chunk.
pub fn chain_untouched(subject: &mut Subject, random: &mut Xorshift) {
    if let Some(mut head) = any_head(subject, random) {
        let count = chunk_count(head.class);
        let chunk = random.pick(&[head.handed_out, count - 1, count, ZONE_SLOTS as u32 - 1]);
        let has_room = head.chain.len() < ZONE_SLOTS;
        if chunk >= head.handed_out && (chunk as usize) < ZONE_SLOTS && has_room {
            let mut chain = head.chain.clone();
            let at = random.below(chain.len() as u32 + 1) as usize;
            chain.insert(at, chunk);
            head.set_chain(subject, &chain);
            // With a greater k the same words are legal, if no other chunk is between.
            if random.below(2) == 0 {
                head.handed_out += 1;
                head.set(subject);
            }
        }
    }
}

/// A zone with a chain said to have none, or a shorter one; what it says above that stays, or goes.
pub fn forget_chain(subject: &mut Subject, random: &mut Xorshift) {
    if let Some(mut head) = any_head(subject, random) {
        let kept = random.below(head.chain.len() as u32 + 1);
        if random.below(2) == 0 {
            for position in kept..head.chain.len() as u32 {
                head.set_entry(subject, position, 0);
            }
        }
        head.length = random.pick(&[kept, head.length]);
        head.set(subject);
    }
}

/// The class changed, with the zone's entry on its class's list or without: legal if k is small
/// enough and the lists stay in order.
pub fn change_class(subject: &mut Subject, random: &mut Xorshift) {
    if let Some(mut head) = any_head(subject, random) {
        let before = 1 + 256 * head.class + head.start;
        head.class = match random.below(3) {
            0 => random.below(CLASSES + 1),
            1 => head.class + 1,
            _ => head.class.saturating_sub(1),
        };
        head.set(subject);
        let mut places = CLASS_LISTS;
        let place = places.find(|at| subject.get(*at) == before);
        if let Some(at) = place {
            if random.below(4) > 0 {
                subject.set(at, 1 + 256 * head.class + head.start);
            }
        }
    }
}
