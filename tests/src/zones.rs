//! Zones to try things on: any legal one, and those that a benchmark wants.

use reference::histories::Xorshift;
use reference::sizes::{chunk_count, CLASSES, GROUPS};
use reference::state::{Group, Zone};

/// Classes with the most chunks, with the fewest, and with words behind the last chunk.
const CLASSES_OF_INTEREST: [u32; 6] = [0, 1, 12, 16, 40, 63];

/// A group, any of the twelve.
pub fn any_group(random: &mut Xorshift) -> Group {
    1 + random.below(GROUPS) as Group
}

/// A class: one of interest more often than another.
pub fn any_class(random: &mut Xorshift) -> u32 {
    match random.below(3) {
        0 => random.below(CLASSES),
        _ => random.pick(&CLASSES_OF_INTEREST),
    }
}

/// A zone of a class in any legal state, be it one that no call makes.
pub fn any_zone(class: u32, random: &mut Xorshift) -> Zone {
    let count = chunk_count(class);
    let handed_out = match random.below(5) {
        0 => 0,
        1 | 2 => count,
        3 => random.below(4.min(count) + 1),
        _ => random.below(count + 1),
    };
    // Of 4 chunks so many are live: none, some or all of them.
    let share = random.pick(&[0, 0, 1, 2, 3, 4, 4]);
    let is_live: Vec<bool> = (0..handed_out).map(|_| random.below(4) < share).collect();
    let mut zone = zone_with(class, &is_live);
    for owner in zone.owners.iter_mut().flatten() {
        *owner = any_group(random);
    }
    shuffle(zone.chain.make_contiguous(), random);
    zone
}

/// A zone in which the chunks handed out are live, all with group 1, or returned in ascending
/// order.
pub fn zone_with(class: u32, is_live: &[bool]) -> Zone {
    let mut zone = Zone::set_up(class);
    zone.handed_out = is_live.len() as u32;
    for (chunk, live) in (0..).zip(is_live) {
        if *live {
            zone.owners[chunk as usize] = Some(1);
        } else {
            zone.chain.push_front(chunk);
        }
    }
    zone
}

/// The zone with its live chunks given to all groups in turn, group 1 first.
pub fn by_turns(mut zone: Zone) -> Zone {
    let groups = (1..=GROUPS as Group).cycle();
    for (owner, group) in zone.owners.iter_mut().flatten().zip(groups) {
        *owner = group;
    }
    zone
}

/// Puts values in any order, each as likely as another.
pub fn shuffle<T>(values: &mut [T], random: &mut Xorshift) {
    for last in (1..values.len()).rev() {
        values.swap(last, random.below(last as u32 + 1) as usize);
    }
}
