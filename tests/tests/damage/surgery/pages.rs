//! Operations on runs and direct blocks.

use super::lists::first_free;
use crate::subject::Subject;
use reference::histories::Xorshift;
use reference::state::Run;
use tests::layout::{page_at, DIRECT, EMPTY_LIST, PAGES_AT, RUN, ZONE};

/// A run, if there is one.
fn any_run(subject: &Subject, random: &mut Xorshift) -> Option<Run> {
    let runs = &subject.state.runs;
    (!runs.is_empty()).then(|| random.pick(runs))
}

/// A direct block's start, pages and group, if there is one.
fn any_block(subject: &Subject, random: &mut Xorshift) -> Option<(Run, u32)> {
    let blocks = subject.state.direct.iter();
    let blocks: Vec<(Run, u32)> = blocks
        .map(|(&start, block)| {
            let pages = block.pages;
            (Run { start, pages }, u32::from(block.group))
        })
        .collect();
    (!blocks.is_empty()).then(|| random.pick(&blocks))
}

fn set_run(subject: &mut Subject, run: Run) {
    subject.set_all(page_at(run.start), &[RUN, run.pages, 0]);
}

fn set_block(subject: &mut Subject, at: Run, group: u32) {
    subject.set_all(page_at(at.start), &[DIRECT, at.pages, group]);
}

/// A legal group, or now and then one that is none.
fn group(random: &mut Xorshift) -> u32 {
    match random.below(8) {
        0 => random.pick(&[0, 13, 14, 257, u32::MAX]),
        _ => 1 + random.below(12),
    }
}

/// Two parts of some pages, or now and then one part that is all and one of no page.
fn cut(pages: Run, random: &mut Xorshift) -> (Run, Run) {
    let first = match random.below(8) {
        0 => pages.pages,
        _ => 1.max(random.below(pages.pages)),
    };
    let start = pages.start + first;
    let low = Run {
        start: pages.start,
        pages: first,
    };
    let high = Run {
        start,
        pages: pages.pages - first,
    };
    (low, high)
}

/// A run made two that touch.
pub fn cut_run(subject: &mut Subject, random: &mut Xorshift) {
    if let Some(run) = any_run(subject, random) {
        let (low, high) = cut(run, random);
        set_run(subject, low);
        if high.pages > 0 {
            set_run(subject, high);
        }
    }
}

/// A direct block made two, of one group or of two.
pub fn cut_block(subject: &mut Subject, random: &mut Xorshift) {
    if let Some((pages, own)) = any_block(subject, random) {
        let (low, high) = cut(pages, random);
        set_block(subject, low, own);
        if high.pages > 0 {
            set_block(subject, high, group(random));
        }
    }
}

/// The low or the high pages of a run handed out.
pub fn cut_run_for_block(subject: &mut Subject, random: &mut Xorshift) {
    if let Some(run) = any_run(subject, random) {
        let (low, high) = cut(run, random);
        if high.pages == 0 {
            set_block(subject, low, group(random));
        } else if random.below(2) == 0 {
            set_block(subject, low, group(random));
            set_run(subject, high);
        } else {
            set_run(subject, low);
            set_block(subject, high, group(random));
        }
    }
}

/// A whole run handed out.
pub fn give_run_out(subject: &mut Subject, random: &mut Xorshift) {
    if let Some(run) = any_run(subject, random) {
        set_block(subject, run, group(random));
    }
}

/// A direct block made a run, whatever stands beside it.
pub fn give_block_back(subject: &mut Subject, random: &mut Xorshift) {
    if let Some((pages, _)) = any_block(subject, random) {
        set_run(subject, pages);
    }
}

/// N and the last segment each one more. With words enough this is legal unless that is a zone.
pub fn lengthen_arena(subject: &mut Subject, _: &mut Xorshift) {
    if let Some(last) = last_pages(subject) {
        subject.set(PAGES_AT, subject.state.pages + 1);
        subject.set(page_at(last.start) + 1, last.pages + 1);
    }
}

/// N and the last segment each one less: legal while a page is left of both.
pub fn shorten_arena(subject: &mut Subject, _: &mut Xorshift) {
    if let Some(last) = last_pages(subject) {
        subject.set(PAGES_AT, subject.state.pages - 1);
        subject.set(page_at(last.start) + 1, last.pages - 1);
    }
}

/// The last run or direct block, if the arena ends with one.
fn last_pages(subject: &Subject) -> Option<Run> {
    let state = &subject.state;
    let block = state.direct.iter().next_back();
    let block = block.map(|(&start, block)| Run {
        start,
        pages: block.pages,
    });
    let last = [state.runs.last().copied(), block];
    let ends = |pages: &Run| pages.start + pages.pages == state.pages;
    last.into_iter().flatten().find(ends)
}

/// The first eight pages of a run or a direct block made a zone as set-up leaves it, last on the
/// class lists, on the empty list or on none. Of fewer than eight pages it reaches over the next.
pub fn turn_pages_to_zone(subject: &mut Subject, random: &mut Xorshift) {
    let run = any_run(subject, random);
    let block = any_block(subject, random).map(|(pages, _)| pages);
    let class = random.below(64);
    if let Some(pages) = run.or(block) {
        subject.set_all(page_at(pages.start), &[ZONE, class, 0]);
        if pages.pages > 8 {
            let rest = Run {
                start: pages.start + 8,
                pages: pages.pages - 8,
            };
            set_run(subject, rest);
        }
        let list = first_free(subject);
        if random.below(2) == 0 {
            subject.set(list, 1 + 256 * class + pages.start);
        } else if subject.get(EMPTY_LIST.start) == 0 {
            subject.set(EMPTY_LIST.start, 1 + pages.start);
        }
    }
}
