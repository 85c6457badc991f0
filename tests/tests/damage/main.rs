//! The damage tests: words are damaged in every way that came to mind. On each the proved check
//! must answer what the second reading of the words says, and change no word; and a call must be
//! refused, or be answered and leave what the second program says of the state that the second
//! reading finds.
//!
//!     cargo test --offline --locked -p tests --test damage
//!
//! They print their cases by kind. The damage is the same in every run.

mod calls;
mod ceilings;
mod edits;
mod figures;
mod pool;
mod shapes;
mod subject;
mod surgery;
mod tally;

use figures::settle;
use reference::histories::Xorshift;
use subject::Subject;
use tally::Tally;
use tests::layout::FIGURE_WORDS;

/// All cases of the check together.
const CASES: u32 = 1_100_000;

/// A damage to a subject; where it does not apply it changes nothing.
type Edit = fn(&mut Subject, &mut Xorshift);

/// Kinds of damage in arenas of 1 to 40 pages, with their cases.
const SMALL: [(&str, u32, Edit); 7] = [
    ("figures", 50_000, edits::figures),
    ("zone slots", 80_000, edits::zone_slots),
    ("zone heads", 50_000, edits::zone_heads),
    ("header", 60_000, edits::header),
    ("segment heads", 50_000, edits::segment_heads),
    ("swaps", 50_000, edits::swap),
    ("surgery", 140_000, surgery::operate),
];

/// The kinds of damage that the check has to have met.
const KINDS: [&str; 15] = [
    "as made",
    "each class",
    "each word",
    "each word, figures settled",
    "figures",
    "header",
    "large arenas",
    "lengths",
    "random edits",
    "random words",
    "segment heads",
    "surgery",
    "swaps",
    "zone heads",
    "zone slots",
];

#[test]
fn the_check_and_the_second_reading_agree() {
    let mut random = Xorshift::new(3);
    let mut tally = Tally::default();
    each_word(&mut tally, &mut random);
    each_class(&mut tally, &mut random);
    let mut small = pool::small();
    tally.begin("as made");
    as_made(&mut tally, &mut small);
    for (name, cases, edit) in SMALL {
        tally.begin(name);
        check_damaged(&mut tally, &mut small, cases, &mut random, edit);
    }
    shapes::lengths(&mut tally, &mut small, 40_000, &mut random);
    shapes::random_words(&mut tally, 30_000, &mut random);
    large(&mut tally, &mut random);
    tally.begin("random edits");
    let rest = CASES.saturating_sub(tally.counts().get(tally::CASES));
    let edit = edits::random_edits;
    check_damaged(&mut tally, &mut small, rest, &mut random, edit);
    let counts = tally.counts();
    counts.print("The check on damaged words");
    counts.expect_no_fault();
    assert_eq!(counts.get(tally::CASES), CASES);
    counts.expect(700, &KINDS);
    counts.expect(50_000, &["random edits", tally::LEGAL]);
    // A check that refuses all, or accepts all, must not come near to passing.
    assert!(counts.get(tally::LEGAL) < CASES - 500_000);
}

/// Each word of the smallest arenas changed in turn; where that changes what a group holds, once more
/// with figures that agree with it.
fn each_word(tally: &mut Tally, random: &mut Xorshift) {
    for mut subject in pool::tiny() {
        let count = subject.used();
        for at in 0..count {
            for value in edits::values_in_turn(subject.get(at), random) {
                subject.set(at, value);
                if subject.is_changed() {
                    tally.begin("each word");
                    tally.judge(&mut subject, count);
                }
                if at >= FIGURE_WORDS {
                    subject.set(at, value);
                    settle(&mut subject);
                    if subject.is_changed_in_figures() {
                        tally.begin("each word, figures settled");
                        tally.judge(&mut subject, count);
                    }
                    subject.restore();
                }
            }
        }
    }
}

/// Zones of every class: a wrong chunk count of one class would show in no other.
fn each_class(tally: &mut Tally, random: &mut Xorshift) {
    tally.begin("each class");
    for class in 0..64 {
        let mut zones = pool::one_zone(class);
        as_made(tally, &mut zones);
        check_damaged(tally, &mut zones, 200, random, edits::zone_slots);
        check_damaged(tally, &mut zones, 200, random, edits::zone_heads);
        check_damaged(tally, &mut zones, 100, random, surgery::operate);
    }
}

/// All damage to small arenas, in arenas of up to 256 pages.
fn large(tally: &mut Tally, random: &mut Xorshift) {
    tally.begin("large arenas");
    let mut pool = pool::large();
    as_made(tally, &mut pool);
    check_damaged(tally, &mut pool, 14_000, random, edits::any_edit);
    check_damaged(tally, &mut pool, 14_000, random, edits::random_edits);
    check_damaged(tally, &mut pool, 12_000, random, surgery::operate);
}

/// Words with no damage: exactly as many as are used, one more, and all there are.
fn as_made(tally: &mut Tally, pool: &mut [Subject]) {
    for subject in pool {
        for count in [subject.used(), subject.used() + 1, subject.len()] {
            tally.judge(subject, count);
        }
    }
}

/// So many cases by an edit, for the check.
fn check_damaged(
    tally: &mut Tally,
    pool: &mut [Subject],
    cases: u32,
    random: &mut Xorshift,
    edit: Edit,
) {
    damage(pool, cases, random, edit, |subject, count, _| {
        tally.judge(subject, count)
    });
}

/// So many cases by an edit that changes something, on one subject after the other. Each is judged
/// with a number of its words, and put right again.
///
/// An edit of a chunk or of a segment changes what a group holds, and would be told by the figures
/// alone. So in three of four cases these are made to agree with it, unless the edit is of them.
fn damage(
    pool: &mut [Subject],
    cases: u32,
    random: &mut Xorshift,
    edit: Edit,
    mut judge: impl FnMut(&mut Subject, usize, &mut Xorshift),
) {
    let mut left = cases;
    while left > 0 {
        let at = random.below(pool.len() as u32) as usize;
        let subject = &mut pool[at];
        // Several on one subject, while its words are near.
        for _ in 0..32 {
            edit(subject, random);
            if random.below(4) > 0 && !subject.is_changed_in_figures() {
                settle(subject);
            }
            if subject.is_changed() && left > 0 {
                let count = match random.below(8) {
                    0 => subject.len(),
                    _ => subject.used(),
                };
                judge(subject, count, random);
                left -= 1;
            }
            subject.restore();
        }
    }
}
