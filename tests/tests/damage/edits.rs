//! Damage without an aim of its own: a few words changed, here or there.

use crate::subject::Subject;
use reference::ceilings::MAX_CEILING;
use reference::histories::Xorshift;
use reference::sizes::chunk_count;
use reference::state::Page;
use tests::layout::{
    page_at, slot_at, CEILINGS, CLASS_LISTS, EMPTY_LIST, ENTRY_SHIFT, FIGURE_WORDS, FIXED_WORDS,
    MAGIC, RETURNED, STATE, ZONE_HEAD, ZONE_SLOTS,
};

/// Numbers that mean something in one place or another, the last three as both halves of a slot.
const MEANINGFUL: [u32; 15] = [
    1, 2, 3, 4, 8, 12, 13, 14, 256, 257, 4_096, 4_109, 65_536, 65_549, 131_086,
];

/// Values to try in one place after the other; some are what stands there already.
pub fn values_in_turn(old: u32, random: &mut Xorshift) -> [u32; 6] {
    let (up, down) = (old.wrapping_add(1), old.wrapping_sub(1));
    let any = random.draw() as u32;
    let small = 1 + random.below(15);
    [0, up, down, any, small, random.pick(&MEANINGFUL)]
}

/// One word changed, anywhere.
pub fn one_word(subject: &mut Subject, random: &mut Xorshift) {
    let at = any_place(subject, random);
    let value = any_value(subject, at, random);
    subject.set(at, value);
}

/// 1 to 8 words changed, anywhere.
pub fn random_edits(subject: &mut Subject, random: &mut Xorshift) {
    for _ in 0..1 + random.below(8) {
        one_word(subject, random);
    }
}

/// Two words in each other's place.
pub fn swap(subject: &mut Subject, random: &mut Xorshift) {
    let one = any_place(subject, random);
    let other = match random.below(3) {
        0 => any_place(subject, random),
        1 => one + 1,
        _ => any_slot(subject, random).unwrap_or(one + 520),
    };
    if other < subject.used() {
        let (a, b) = (subject.get(one), subject.get(other));
        subject.set(one, b);
        subject.set(other, a);
    }
}

/// 1 to 3 slots of one zone changed.
pub fn zone_slots(subject: &mut Subject, random: &mut Xorshift) {
    if let Some(zone) = any_zone(subject, random) {
        for _ in 0..1 + random.below(3) {
            let at = slot_of(subject, zone, random);
            let value = slot_value(subject, zone, at, random);
            subject.set(at, value);
        }
    }
}

/// 1 or 2 words of a zone's head changed.
pub fn zone_heads(subject: &mut Subject, random: &mut Xorshift) {
    if let Some(zone) = any_zone(subject, random) {
        for _ in 0..1 + random.below(2) {
            let at = page_at(zone) + random.pick(&[0, 1, 2, 3, 1, 2, 3, 4, 5, 6, 63]);
            let value = head_value(subject, zone, at, random);
            subject.set(at, value);
        }
    }
}

/// 1 or 2 words of the header changed.
pub fn header(subject: &mut Subject, random: &mut Xorshift) {
    for _ in 0..1 + random.below(2) {
        let at = header_place(random);
        let old = subject.get(at);
        let listed = 1 + random.below(256) + 256 * random.below(64);
        let value = match random.below(7) {
            0 => 0,
            1 => old.wrapping_add(random.pick(&[1, 256, u32::MAX, u32::MAX - 255])),
            2 => subject.get(header_place(random)),
            3 => 1 + any_zone(subject, random).unwrap_or(0),
            4 => any_zone(subject, random).map_or(listed, |zone| entry_of(subject, zone)),
            5 => listed,
            _ => any_value(subject, at, random),
        };
        subject.set(at, value);
    }
}

/// 1 or 2 of the groups' figures and ceilings changed, or of the zeros behind them.
pub fn figures(subject: &mut Subject, random: &mut Xorshift) {
    for _ in 0..1 + random.below(2) {
        let at = figure_place(random);
        let old = subject.get(at);
        let room = random.pick(&[8, 104, 4_096, 8_192]);
        let value = match random.below(9) {
            0 => 0,
            1 => old.wrapping_add(random.pick(&[1, u32::MAX])),
            2 => old.wrapping_add(room),
            3 => old.wrapping_sub(room),
            4 => subject.get(figure_place(random)),
            5 => random.below(subject.state.pages * 4_096 + 2),
            6 => subject.state.pages * 4_096 + random.below(2),
            7 => MAX_CEILING + random.below(2),
            _ => any_value(subject, at, random),
        };
        subject.set(at, value);
    }
}

/// 1 or 2 of the words with which a segment begins, or could begin, changed.
pub fn segment_heads(subject: &mut Subject, random: &mut Xorshift) {
    for _ in 0..1 + random.below(2) {
        let page = random.below(subject.state.pages);
        let at = page_at(page) + random.below(4) as usize;
        let old = subject.get(at);
        let value = match random.below(5) {
            0 => random.below(5),
            1 => old.wrapping_add(random.pick(&[1, u32::MAX])),
            2 => 1 + random.below(16),
            3 => subject.state.pages - page,
            _ => any_value(subject, at, random),
        };
        subject.set(at, value);
    }
}

/// Any damage of this file.
pub fn any_edit(subject: &mut Subject, random: &mut Xorshift) {
    let edits: [fn(&mut Subject, &mut Xorshift); 7] = [
        random_edits,
        swap,
        zone_slots,
        zone_heads,
        header,
        figures,
        segment_heads,
    ];
    random.pick(&edits)(subject, random);
}

/// A zone of the subject, if it has one.
pub fn any_zone(subject: &Subject, random: &mut Xorshift) -> Option<Page> {
    let starts: Vec<Page> = subject.state.zones.keys().copied().collect();
    (!starts.is_empty()).then(|| random.pick(&starts))
}

/// A zone's entry on its class's list, be it there or not.
pub fn entry_of(subject: &Subject, zone: Page) -> u32 {
    1 + 256 * subject.state.zones[&zone].class + zone
}

/// A place of the words in use; those that mean something are more likely.
fn any_place(subject: &Subject, random: &mut Xorshift) -> usize {
    let page = random.below(subject.state.pages);
    match random.below(9) {
        0 | 1 => random.below(subject.used() as u32) as usize,
        2 | 3 => header_place(random),
        4 => figure_place(random),
        5 | 6 => page_at(page) + random.below(6) as usize,
        _ => any_slot(subject, random).unwrap_or(page_at(page)),
    }
}

/// A place behind the figures and before the pages: those of the first entries are more likely.
fn header_place(random: &mut Xorshift) -> usize {
    let beyond = match random.below(12) {
        0 => FIXED_WORDS,
        1 => return CLASS_LISTS.end,
        2 => CLASS_LISTS.end,
        _ => EMPTY_LIST.end + 6,
    };
    FIGURE_WORDS + random.below((beyond - FIGURE_WORDS) as u32) as usize
}

/// A group's figure or ceiling, or now and then a word behind them.
fn figure_place(random: &mut Xorshift) -> usize {
    match random.below(12) {
        0 => random.below(FIGURE_WORDS as u32) as usize,
        1 => CEILINGS.end,
        _ => random.below(CEILINGS.end as u32) as usize,
    }
}

fn any_slot(subject: &Subject, random: &mut Xorshift) -> Option<usize> {
    any_zone(subject, random).map(|zone| slot_of(subject, zone, random))
}

/// A slot of a zone: those at k, at the last chunk and on the chain are more likely.
fn slot_of(subject: &Subject, start: Page, random: &mut Xorshift) -> usize {
    let zone = &subject.state.zones[&start];
    let (count, handed_out) = (zone.chunk_count(), zone.handed_out);
    let last = ZONE_SLOTS as u32 - 1;
    let chunk = match random.below(8) {
        0 => random.below(count),
        1 => handed_out.saturating_sub(1),
        2 => handed_out,
        3 => random.pick(&[count - 1, count, last, 0]),
        4 => random.below(last),
        5 => zone.chain.front().copied().unwrap_or(0),
        6 => zone.chain.back().copied().unwrap_or(handed_out),
        _ => random.below(handed_out + 1),
    };
    slot_at(start, chunk.min(last))
}

fn slot_value(subject: &Subject, start: Page, at: usize, random: &mut Xorshift) -> u32 {
    let zone = &subject.state.zones[&start];
    let old = subject.get(at);
    // One half changed, the other kept.
    let with_state = |state: u32| old & !STATE | state & STATE;
    let with_entry = |chunk: u32| old & STATE | chunk << ENTRY_SHIFT;
    match random.below(12) {
        0 => 0,
        1 | 2 => with_state(1 + random.below(13)),
        3 => with_state(RETURNED + random.below(chunk_count(zone.class) + 2)),
        4 => with_state(RETURNED + subject.get(page_at(start) + 3)),
        5 => with_entry(random.below(chunk_count(zone.class) + 2)),
        6 => with_entry((at - slot_at(start, 0)) as u32),
        7 => with_entry(subject.get(slot_of(subject, start, random)) >> ENTRY_SHIFT),
        8 => old.wrapping_add(random.pick(&[1, u32::MAX, 1 << 16, u32::MAX << 16])),
        9 => old.rotate_left(16),
        10 => subject.get(slot_of(subject, start, random)),
        _ => any_value(subject, at, random),
    }
}

fn head_value(subject: &Subject, start: Page, at: usize, random: &mut Xorshift) -> u32 {
    let zone = &subject.state.zones[&start];
    let old = subject.get(at);
    match random.below(7) {
        0 => 0,
        1 | 2 => old.wrapping_add(random.pick(&[1, u32::MAX])),
        3 => zone.chunk_count() + random.below(2),
        4 => random.below(65),
        5 => 1 + random.below(zone.handed_out + 1),
        _ => any_value(subject, at, random),
    }
}

fn any_value(subject: &Subject, at: usize, random: &mut Xorshift) -> u32 {
    let old = subject.get(at);
    match random.below(8) {
        0 => 0,
        1 => old.wrapping_add(1),
        2 => old.wrapping_sub(1),
        3 => random.draw() as u32,
        4 => random.below(16),
        5 => random.pick(&[MAGIC, ZONE_HEAD as u32, 256, 4_096, u32::MAX, 1 << 31]),
        6 => old ^ 1 << random.below(32),
        _ => subject.get(random.below(subject.used() as u32) as usize),
    }
}
