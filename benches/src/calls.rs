//! How long the calls take, beside the bare check of the same words; requests that find no run at
//! first; and a reset beside single returns.
//!
//!     cargo run --release --offline --locked -p benches --bin calls
//!
//! A call reads all of its state's words before it does anything, so what the check takes is the
//! least that it can take; the bar says how much more it may. The fetching of holdings and the setting
//! of a ceiling have bars of their own, since the one copies 36 words and the other writes one, and
//! neither does anything else. The check is `nostrimel_check`, and is measured in the state that the
//! call meets, in the same round.
//!
//! Each call is measured by itself. What brings the words to its state and what puts them right
//! again is outside of the measured part, and after each round the words are again those of the
//! first. The figures are the fastest of many rounds, less what the clock takes. The exit status is
//! 1 if a bar is missed.

mod arenas;
mod bars;
mod resets;
mod searches;
mod single;

use arenas::{arenas, Arena};
use bars::remark;
use reference::ceilings::MAX_CEILING;
use reference::listing::LONGEST;
use reference::sizes::{GROUPS, PAGE_BYTES};
use reference::state::State;
use resets::{reset_of, returns_of, PAGES, SIZE};
use searches::{given_back, refused, zones_to_give, Refused};
use single::{clock, time_of};
use std::cell::RefCell;
use std::process::ExitCode;
use tests::calls::{
    allocate, free, holdings, init, listing, query, reset, set_ceiling, trim, Requested, UNFILLED,
};
use tests::check::check;
use tests::layout::encode;

/// The greatest ratio of a call to the check, for the calls that have a bar.
const CALL_BAR: f64 = 1.5;
/// The same for the fetching of holdings.
const HOLDINGS_BAR: f64 = 1.05;
/// The same for the setting of a ceiling.
const SETTING_BAR: f64 = 1.05;
/// A reset takes at most one part in so many of what single returns take.
const RESET_PARTS: f64 = 50.0;
/// The greatest ratio of a reset of twice the blocks, and of what a request takes beyond the check
/// if it gives back twice the zones.
const TWICE_BAR: f64 = 2.5;
/// The chunks of the reset.
const CHUNKS: u32 = 100_000;

/// The group that asks. Before a call it holds nothing but what is granted for that call, and it has
/// once held the whole arena: no round raises its greatest figure, so that each can begin with the
/// same words.
const GROUP: u32 = 12;
/// Bytes of a request that takes pages.
const LARGE: u32 = 8_192;
/// Bytes of a request that takes the pages of a zone.
const ZONE: u32 = 32_768;
/// The number of a refusal for want of pages.
const NO_ROOM: u32 = 6;

/// How often all calls are gone through: a slow stretch of the machine can last for seconds.
const PASSES: u32 = 5;
/// Rounds of one call in one go.
const ROUNDS: u32 = 300;

/// A call with what comes before and behind it.
struct Measured {
    pages: u32,
    arena: &'static str,
    call: &'static str,
    words: Vec<u32>,
    before: Step,
    step: Step,
    behind: Step,
    /// The greatest ratio to the check, if there is a bar.
    bar: Option<f64>,
    /// The runs that a request looks at, where that is what is measured.
    looked: Option<u32>,
    /// The fastest check and the fastest call.
    nanoseconds: [f64; 2],
}

/// A step of a round: what it does, and whether it was answered as it should be.
type Step = Box<dyn Fn(&mut [u32]) -> bool>;

fn step(does: impl Fn(&mut [u32]) -> bool + 'static) -> Step {
    Box::new(does)
}

/// The words of a state, which the check must take.
fn words_of(state: &State, name: &str) -> Vec<u32> {
    let mut words = encode(state);
    assert_eq!(check(&mut words), 1, "the check refuses: {name}");
    words
}

/// The words as they were before the call.
fn put_right(words: &[u32]) -> Step {
    let held = words.to_vec();
    step(move |words| {
        words.copy_from_slice(&held);
        true
    })
}

/// A request that no run suffices for, even after a trim.
fn measured_refused(one: Refused) -> Measured {
    let Refused {
        arena,
        call,
        state,
        size,
        looked,
    } = one;
    let refusal = Requested {
        outcome: Err(NO_ROOM),
        looked,
    };
    Measured {
        pages: state.pages,
        arena,
        call,
        words: words_of(&state, arena),
        before: step(|_| true),
        step: step(move |words| allocate(words, GROUP, size) == refusal),
        behind: step(|_| true),
        bar: Some(CALL_BAR),
        looked: Some(looked),
        nanoseconds: [f64::INFINITY; 2],
    }
}

/// A request that no run suffices for before so many zones have been given back.
fn measured_trimming(pages: u32, zones: u32) -> Measured {
    let words = words_of(&zones_to_give(pages, zones), "zones");
    Measured {
        pages,
        arena: "zones",
        call: "allocate, trims",
        before: step(|_| true),
        step: step(|words| allocate(words, GROUP, ZONE).outcome == Ok(0)),
        behind: put_right(&words),
        words,
        bar: None,
        looked: None,
        nanoseconds: [f64::INFINITY; 2],
    }
}

/// All that is measured on one arena.
fn measured(arena: Arena) -> Vec<Measured> {
    let Arena {
        name,
        mut state,
        chunk,
    } = arena;
    state.holdings[GROUP as usize - 1].greatest = state.pages * PAGE_BYTES;
    let words = words_of(&state, name);
    let nothing = || step(|_| true);
    let one = |call, before, step, behind| Measured {
        pages: state.pages,
        arena: name,
        call,
        words: words.clone(),
        before,
        step,
        behind,
        bar: Some(CALL_BAR),
        looked: None,
        nanoseconds: [f64::INFINITY; 2],
    };
    let with_bar = |bar, call, step, behind| Measured {
        bar,
        ..one(call, nothing(), step, behind)
    };
    // Where a block of this size will be each time.
    let place = |size| {
        let outcome = allocate(&mut words.clone(), GROUP, size).outcome;
        outcome.expect("room")
    };
    let (small, large) = (place(chunk), place(LARGE));
    let grant =
        |size, offset| step(move |words| allocate(words, GROUP, size).outcome == Ok(offset));
    let give = |offset| step(move |words| free(words, GROUP, offset) == Ok(()));
    // Without the trim a fresh arena would keep the chunk's zone; in the others it finds nothing.
    let give_and_trim =
        |offset| step(move |words| free(words, GROUP, offset) == Ok(()) && trim(words).is_ok());
    let trimmed = || step(|words| trim(words).is_ok());
    let set = |bytes| step(move |words| set_ceiling(words, GROUP, bytes) == Ok(()));
    // The list is there before the call, as a display's is.
    let list = RefCell::new([UNFILLED; GROUPS as usize]);
    let asked = last_block(&state);
    let pages = state.pages;
    vec![
        one(
            "allocate, chunk",
            nothing(),
            grant(chunk, small),
            give_and_trim(small),
        ),
        one(
            "allocate, pages",
            nothing(),
            grant(LARGE, large),
            give(large),
        ),
        one("free, chunk", grant(chunk, small), give(small), trimmed()),
        one("free, pages", grant(LARGE, large), give(large), nothing()),
        one(
            "query",
            nothing(),
            step(move |words| query(words, asked.unwrap_or(0)).is_ok() == asked.is_some()),
            nothing(),
        ),
        one(
            "trim of none",
            nothing(),
            step(|words| trim(words) == Ok(0)),
            nothing(),
        ),
        with_bar(
            Some(HOLDINGS_BAR),
            "holdings",
            step(move |words| holdings(words, &mut *list.borrow_mut()) == Ok(())),
            nothing(),
        ),
        with_bar(
            Some(SETTING_BAR),
            "set ceiling",
            set(LARGE),
            set(MAX_CEILING),
        ),
        with_bar(
            None,
            "reset of none",
            step(|words| reset(words, GROUP) == Ok(0)),
            nothing(),
        ),
        with_bar(
            None,
            "listing",
            step(|words| listing(words, &mut [0; LONGEST]).is_ok()),
            nothing(),
        ),
        with_bar(
            None,
            "init",
            step(move |words| init(words, pages) == Ok(())),
            put_right(&words),
        ),
    ]
}

/// The offset of the last live block; the fresh arena has none, and there 0 is asked for, in vain.
fn last_block(state: &State) -> Option<u32> {
    state.live_blocks().last().map(|block| block.offset)
}

impl Measured {
    /// Lowers the nanoseconds to those of the fastest round here, if that was faster.
    fn lower(&mut self, clock: f64) {
        let first = self.words.clone();
        for _ in 0..ROUNDS {
            assert!((self.before)(&mut self.words), "{}", self.title());
            // Once more than is measured, so that both find the words near.
            check(&mut self.words);
            let (check_time, _) = time_of(|| check(&mut self.words));
            let (time, as_expected) = time_of(|| (self.step)(&mut self.words));
            assert!(as_expected, "{}", self.title());
            assert!((self.behind)(&mut self.words), "{}", self.title());
            for (best, time) in self.nanoseconds.iter_mut().zip([check_time, time]) {
                *best = best.min(time - clock);
            }
        }
        assert!(self.words == first, "{}: the words changed", self.title());
    }

    fn title(&self) -> String {
        format!("{} pages, {}, {}", self.pages, self.arena, self.call)
    }

    /// Prints a line, and says whether the bar is met.
    fn print(&self) -> bool {
        let [check_ns, call_ns] = self.nanoseconds;
        let ratio = call_ns / check_ns;
        let Measured {
            pages, arena, call, ..
        } = self;
        let met = self.bar.map_or(true, |bar| ratio <= bar);
        let said = match (self.bar, self.looked) {
            (Some(bar), None) => remark(met, bar),
            (Some(bar), Some(runs)) => format!("{}, {runs} runs looked at", remark(met, bar)),
            (None, _) => String::new(),
        };
        println!(
            "{pages:>5}  {arena:<12}{call:<16}{call_ns:>12.0}{check_ns:>12.0}{ratio:>8.2}  {said}"
        );
        met
    }
}

fn main() -> ExitCode {
    let clock = clock();
    let sizes = [24, 256];
    let arenas = sizes.into_iter().flat_map(arenas);
    let refused = sizes.into_iter().flat_map(refused);
    let mut all: Vec<Measured> = arenas
        .flat_map(measured)
        .chain(refused.map(measured_refused))
        .collect();
    let mut trimming: Vec<(u32, Measured)> = sizes
        .into_iter()
        .flat_map(|pages| {
            let counts = given_back(pages).into_iter();
            counts.map(move |zones| (zones, measured_trimming(pages, zones)))
        })
        .collect();
    for _ in 0..PASSES {
        all.iter_mut().for_each(|one| one.lower(clock));
        trimming.iter_mut().for_each(|(_, one)| one.lower(clock));
    }
    println!(
        "{:>5}  {:<12}{:<16}{:>12}{:>12}{:>8}",
        "pages", "arena", "call", "call ns", "check ns", "ratio"
    );
    let calls_met = all.iter().filter(|one| !one.print()).count() == 0;
    let zones_met = zones_given_back(&trimming);
    let resets_met = resets();
    ExitCode::from(u8::from(!(calls_met && zones_met && resets_met)))
}

/// Prints a line for each number of zones that a request gives back, and says whether twice the
/// zones never take more than the bar allows.
fn zones_given_back(trimming: &[(u32, Measured)]) -> bool {
    println!("\nA request for 8 pages that gives back zones, in ns beyond the check");
    println!(
        "{:>5}{:>7}{:>12}{:>12}{:>12}{:>8}",
        "pages", "zones", "call ns", "check ns", "beyond", "ratio"
    );
    let mut all_met = true;
    let mut last: Option<(u32, f64)> = None;
    for (zones, one) in trimming {
        let [check_ns, call_ns] = one.nanoseconds;
        let beyond = call_ns - check_ns;
        let half = last.filter(|(pages, _)| *pages == one.pages);
        last = Some((one.pages, beyond));
        print!(
            "{:>5}{zones:>7}{call_ns:>12.0}{check_ns:>12.0}{beyond:>12.0}",
            one.pages
        );
        match half {
            None => println!(),
            Some((_, half)) => {
                let met = beyond / half <= TWICE_BAR;
                all_met &= met;
                println!("{:>8.2}  {}", beyond / half, remark(met, TWICE_BAR));
            }
        }
    }
    all_met
}

/// Prints two lines about resets, and says whether both bars are met.
fn resets() -> bool {
    let (whole, half) = (reset_of(CHUNKS), reset_of(CHUNKS / 2));
    let singly = returns_of(CHUNKS);
    let (parts, growth) = (singly / whole, whole / half);
    let (parts_met, growth_met) = (parts >= RESET_PARTS, growth <= TWICE_BAR);
    println!(
        "\nA reset of chunks of {SIZE} bytes in {PAGES} pages, in ms; single returns: a sample \
         scaled up"
    );
    println!(
        "{CHUNKS} chunks {:.2}, by single returns {:.0}, ratio 1/{parts:.0}: {}",
        whole / 1e6,
        singly / 1e6,
        remark(parts_met, format_args!("1/{RESET_PARTS}"))
    );
    println!(
        "{CHUNKS} chunks {:.2}, {} chunks {:.2}, ratio {growth:.2}: {}",
        whole / 1e6,
        CHUNKS / 2,
        half / 1e6,
        remark(growth_met, TWICE_BAR)
    );
    parts_met && growth_met
}
