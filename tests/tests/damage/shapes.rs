//! Words of a wrong number, and words that never were an encoding.

use crate::figures::settle;
use crate::pool;
use crate::subject::Subject;
use crate::tally::Tally;
use reference::histories::Xorshift;
use std::ops::Range;
use tests::layout::{page_at, DIRECT, MAGIC, MAGIC_AT, PAGES_AT, RUN};

/// Too few words, with the missing ones behind the slice; and more than enough, whatever the later
/// ones are.
pub fn lengths(tally: &mut Tally, pool: &mut [Subject], cases: u32, random: &mut Xorshift) {
    tally.begin("lengths");
    for case in 0..cases as usize {
        let at = case / 64 % pool.len();
        let subject = &mut pool[at];
        let count = any_count(subject, random);
        scribble_behind(subject, random);
        if random.below(4) == 0 {
            let pages = subject.get(PAGES_AT);
            let other = pages.wrapping_add(random.pick(&[1, 2, u32::MAX]));
            subject.set(PAGES_AT, other);
        }
        tally.judge(subject, count);
    }
}

fn any_count(subject: &Subject, random: &mut Xorshift) -> usize {
    let (used, all) = (subject.used(), subject.len());
    match random.below(8) {
        0 => used - 1,
        1 => random.below(used as u32) as usize,
        2 => random.below(110) as usize,
        3 => random.pick(&[0, 1, 63, 64, 65, 66, 1_087, 1_088, 1_089, used - 520]),
        _ => used + random.below((all - used) as u32 + 1) as usize,
    }
}

/// Writes to some of the words that are not the state's.
fn scribble_behind(subject: &mut Subject, random: &mut Xorshift) {
    let (used, all) = (subject.used(), subject.len());
    for _ in 0..random.below(20) {
        let at = used + random.below((all - used) as u32) as usize;
        subject.set(at, random.draw() as u32 >> random.below(32));
    }
}

/// Words at random: all of them, a few of them, or only numbers that can stand where they stand.
pub fn random_words(tally: &mut Tally, cases: u32, random: &mut Xorshift) {
    tally.begin("random words");
    let mut subjects: Vec<Subject> = (1..=6).map(pool::fresh).collect();
    for case in 0..cases as usize {
        let subject = &mut subjects[case % 6];
        let used = subject.used();
        match case / 6 % 8 {
            0 => fill(subject, 0..used, random),
            1 => {
                fill(subject, 0..MAGIC_AT, random);
                fill(subject, PAGES_AT + 1..used, random);
            }
            2 => fill_some(subject, random),
            _ => likely_words(subject, random),
        }
        tally.judge(subject, used);
    }
}

fn fill(subject: &mut Subject, places: Range<usize>, random: &mut Xorshift) {
    for at in places {
        subject.set(at, random.draw() as u32);
    }
}

fn fill_some(subject: &mut Subject, random: &mut Xorshift) {
    for _ in 0..1 + random.below(9) {
        let at = random.below(subject.used() as u32) as usize;
        subject.set(at, random.draw() as u32);
    }
}

/// Segments of a few pages at random, mostly one behind the other, and mostly with figures that agree
/// with them.
fn likely_words(subject: &mut Subject, random: &mut Xorshift) {
    let pages = subject.state.pages;
    let magic = MAGIC + random.below(40) / 39;
    subject.set_all(MAGIC_AT, &[magic, 1 + random.below(pages + 1)]);
    let mut page = 0;
    while page < pages {
        let length = 1 + random.below(3);
        let group = 1 + random.below(13);
        let segment = match random.below(4) {
            0 => [RUN, length, 0],
            _ => [DIRECT, length, group],
        };
        subject.set_all(page_at(page), &segment);
        page += match random.below(16) {
            0 => 1,
            _ => length,
        };
    }
    if random.below(8) > 0 {
        settle(subject);
    }
}
