//! Operations on the lists.

use crate::edits::{any_zone, entry_of};
use crate::subject::Subject;
use reference::histories::Xorshift;
use tests::layout::{CLASS_LISTS, EMPTY_LIST};

/// The entries of the class lists, as they stand.
fn entries(subject: &Subject) -> Vec<u32> {
    let places = CLASS_LISTS.map(|at| subject.get(at));
    places.take_while(|entry| *entry != 0).collect()
}

/// Writes the class lists anew: these entries, then zeros.
fn set_entries(subject: &mut Subject, entries: &[u32]) {
    for (turn, at) in CLASS_LISTS.enumerate() {
        subject.set(at, entries.get(turn).copied().unwrap_or(0));
    }
}

/// The first free place of the class lists, or their last place.
pub fn first_free(subject: &Subject) -> usize {
    (CLASS_LISTS.start + entries(subject).len()).min(CLASS_LISTS.end - 1)
}

/// Two entries in each other's place: legal where they are of one class.
pub fn reorder(subject: &mut Subject, random: &mut Xorshift) {
    let mut entries = entries(subject);
    if entries.len() >= 2 {
        let at = random.below(entries.len() as u32 - 1) as usize;
        let other = match random.below(2) {
            0 => at + 1,
            _ => random.below(entries.len() as u32) as usize,
        };
        entries.swap(at, other);
        set_entries(subject, &entries);
    }
    // The empty list's two have no order of their own.
    if entries.len() < 2 || random.below(3) == 0 {
        let (front, back) = (
            subject.get(EMPTY_LIST.start),
            subject.get(EMPTY_LIST.start + 1),
        );
        subject.set_all(EMPTY_LIST.start, &[back, front]);
    }
}

/// An entry taken out, the others moved up.
pub fn drop_entry(subject: &mut Subject, random: &mut Xorshift) {
    let mut entries = entries(subject);
    if !entries.is_empty() {
        entries.remove(random.below(entries.len() as u32) as usize);
        set_entries(subject, &entries);
    }
}

/// An entry there twice, side by side or the second time at the end; or the second time in the
/// empty list.
pub fn repeat_entry(subject: &mut Subject, random: &mut Xorshift) {
    let mut entries = entries(subject);
    if entries.is_empty() || entries.len() == CLASS_LISTS.len() {
        return;
    }
    let at = random.below(entries.len() as u32) as usize;
    let entry = entries[at];
    match random.below(3) {
        0 => entries.insert(at, entry),
        1 => entries.push(entry),
        _ => {
            let place = EMPTY_LIST.start + usize::from(subject.get(EMPTY_LIST.start) != 0);
            subject.set(place, 1 + (entry - 1) % 256);
        }
    }
    set_entries(subject, &entries);
}

/// An entry moved down by one free place.
pub fn leave_gap(subject: &mut Subject, random: &mut Xorshift) {
    let mut entries = entries(subject);
    if !entries.is_empty() && entries.len() < CLASS_LISTS.len() && random.below(3) > 0 {
        entries.insert(random.below(entries.len() as u32) as usize, 0);
        set_entries(subject, &entries);
    } else {
        let front = subject.get(EMPTY_LIST.start);
        subject.set_all(EMPTY_LIST.start, &[0, front]);
    }
}

/// A zone, perhaps a full one, put on its class's list, where it may stand already.
pub fn list_zone(subject: &mut Subject, random: &mut Xorshift) {
    if let Some(zone) = any_zone(subject, random) {
        let mut entries = entries(subject);
        let entry = entry_of(subject, zone);
        let at = entries.partition_point(|other| (other - 1) / 256 < (entry - 1) / 256);
        if entries.len() < CLASS_LISTS.len() {
            entries.insert(at, entry);
            set_entries(subject, &entries);
        }
    }
}

/// A zone moved from its class's list to the empty list: legal where it has no live chunk and
/// the empty list has a place. A full empty list loses its front one.
pub fn move_to_empty(subject: &mut Subject, random: &mut Xorshift) {
    let mut entries = entries(subject);
    if !entries.is_empty() {
        let at = random.below(entries.len() as u32) as usize;
        let start = (entries.remove(at) - 1) % 256;
        set_entries(subject, &entries);
        let (front, back) = (
            subject.get(EMPTY_LIST.start),
            subject.get(EMPTY_LIST.start + 1),
        );
        let after = match (front, back, random.below(2)) {
            (0, _, _) => [1 + start, 0],
            (_, 0, 0) => [1 + start, front],
            (_, 0, _) => [front, 1 + start],
            _ => [1 + start, back],
        };
        subject.set_all(EMPTY_LIST.start, &after);
    }
}
