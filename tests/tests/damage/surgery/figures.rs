//! Operations on the groups' figures and ceilings: what their sums would not show.

use crate::subject::Subject;
use reference::ceilings::MAX_CEILING;
use reference::histories::Xorshift;
use tests::layout::{BLOCKS, CEILINGS, GREATEST, HELD};

/// Bytes of rooms.
const ROOMS: [u32; 6] = [8, 104, 320, 4_096, 8_192, 12_288];

fn any_group(random: &mut Xorshift) -> usize {
    random.below(BLOCKS.len() as u32) as usize
}

/// Adds to a word, by modulo.
fn add(subject: &mut Subject, at: usize, more: u32) {
    let old = subject.get(at);
    subject.set(at, old.wrapping_add(more));
}

/// A block counted with another group than its own: the sums over all groups stay.
pub fn move_block(subject: &mut Subject, random: &mut Xorshift) {
    let (from, to) = (any_group(random), any_group(random));
    let room = random.pick(&ROOMS);
    if from != to && subject.get(BLOCKS.start + from) > 0 {
        add(subject, BLOCKS.start + from, u32::MAX);
        add(subject, BLOCKS.start + to, 1);
        add(subject, HELD.start + from, room.wrapping_neg());
        add(subject, HELD.start + to, room);
        if random.below(2) == 0 {
            add(subject, GREATEST.start + to, room);
        }
    }
}

/// Two groups with each other's figures and ceilings, all of them or one kind: legal where both hold
/// the same, or where it is the greatest ones and both are enough, or where it is the ceilings.
pub fn swap_groups(subject: &mut Subject, random: &mut Xorshift) {
    let (one, other) = (any_group(random), any_group(random));
    let kinds = [BLOCKS, HELD, GREATEST, CEILINGS];
    let only = random.below(kinds.len() as u32 + 1) as usize;
    for (kind, places) in kinds.iter().enumerate() {
        if only == kind || only == kinds.len() {
            let (a, b) = (places.start + one, places.start + other);
            let (first, second) = (subject.get(a), subject.get(b));
            subject.set(a, second);
            subject.set(b, first);
        }
    }
}

/// A greatest figure at or beside one of its bounds, or between them.
pub fn set_greatest(subject: &mut Subject, random: &mut Xorshift) {
    let group = any_group(random);
    let (held, arena) = (subject.get(HELD.start + group), subject.state.pages * 4_096);
    let between = held.saturating_add(random.below(arena + 1));
    let value = match random.below(6) {
        0 => held,
        1 => held.wrapping_sub(1),
        2 => arena,
        3 => arena + 1,
        _ => between.min(arena),
    };
    subject.set(GREATEST.start + group, value);
}

/// A ceiling at or beside the largest, about what its group holds, or anything.
pub fn set_ceiling(subject: &mut Subject, random: &mut Xorshift) {
    let group = any_group(random);
    let held = subject.get(HELD.start + group);
    let value = match random.below(8) {
        0 => 0,
        1 => held,
        2 => held.wrapping_sub(1),
        3 => MAX_CEILING,
        4 => MAX_CEILING + 1,
        5 => MAX_CEILING | 1 << random.below(32),
        6 => random.below(MAX_CEILING),
        _ => random.draw() as u32,
    };
    subject.set(CEILINGS.start + group, value);
}

/// A group's held bytes without a few that rounding adds, or with some more; its blocks stay.
pub fn forget_room(subject: &mut Subject, random: &mut Xorshift) {
    let group = any_group(random);
    if subject.get(BLOCKS.start + group) > 0 {
        let (few, room) = (1 + random.below(8), random.pick(&ROOMS));
        let more = random.pick(&[few, few.wrapping_neg(), room]);
        add(subject, HELD.start + group, more);
    }
}
