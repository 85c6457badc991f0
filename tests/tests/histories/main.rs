//! Pseudo-random histories of calls, made through C and on the second program: 2,000 of 500 calls
//! or more that begin with an init, and 400 that begin with a valid state of any kind, be it one
//! that no call makes.
//!
//!     cargo test --offline --locked -p tests --test histories
//!
//! Both programs give the same answer to every call, a request's count of runs among it, the same
//! holdings after every call, and after every tenth the same listing and the same refusal of a list
//! of another length than twelve. Their words are the same after every fiftieth call, after every
//! second search where a zone is idle, and at the end; to compare them after every call would take
//! minutes in the large arenas. At the end the ceilings are those that the answers told, and both
//! answer the same to a query of every live offset and of the byte behind it; of a beginning with
//! any number of blocks, to 100 of them.
//!
//! The tests print what their histories came upon: among it the second searches, by what they are
//! for and what they come to, and how many runs the requests looked at, both by the arena's pages.
//! They are the same in every run.

mod kinds;

use reference::calls::{Answer, Call};
use reference::histories::{Granted, History, Profile, Xorshift};
use reference::listing::LONGEST;
use reference::sizes::GROUPS;
use tests::counts::{on_all_processors, Counts};
use tests::layout::{encode, used_words};
use tests::pair::{noise, Pair};
use tests::states::odd;

const CALLS: u32 = 500;
/// Every so many calls the listing is compared.
const LISTING: u32 = 10;
/// Every so many calls the words are compared.
const WORDS: u32 = 50;
/// Records of lists that are refused.
const WRONG: [usize; 6] = [0, 1, 6, 11, 13, 24];
/// The most live offsets asked for at the end where the beginning had any number of them.
const ASKED: usize = 100;

/// Arenas of more interest than others; half of the histories are in one of these.
const SIZES: [u32; 10] = [1, 8, 16, 24, 24, 32, 32, 40, 255, 256];

#[test]
fn histories_that_begin_with_an_init() {
    let counts = on_all_processors(2_000, from_init);
    counts.print("From an init");
    counts.expect(2_000 * CALLS, &[kinds::CALLS]);
    counts.expect(300, &kinds::ALL);
    counts.expect(200, &kinds::searches());
    counts.expect(200, &kinds::looks());
    counts.expect_nothing_but(&kinds::all_with_searches());
}

#[test]
fn histories_that_begin_with_any_valid_state() {
    let counts = on_all_processors(400, from_any_state);
    counts.print("From any valid state");
    counts.expect(400 * CALLS, &[kinds::CALLS]);
    counts.expect(50, &kinds::ALL);
    counts.expect(20, &kinds::searches());
    // The least: none, in two searches of a large arena, whose pages are seldom all taken.
    counts.expect(10, &kinds::looks());
    counts.expect_nothing_but(&kinds::all_with_searches());
}

fn from_init(number: u32, counts: &mut Counts) {
    let mut random = Xorshift::new(u64::from(number) + 1_000_000);
    let (pages, profile) = draw(number, &mut random);
    let more = random.pick(&[0, 0, 1, 520, 700]);
    let name = format!("history {number}, {profile:?}, {pages} pages");
    let mut pair = Pair::noisy(used_words(pages) + more).named(name);
    assert_eq!(pair.init(pages), Ok(()));
    let history = History::with(profile, u64::from(number));
    follow(&mut pair, history, &mut random, counts, usize::MAX);
}

fn from_any_state(number: u32, counts: &mut Counts) {
    let mut random = Xorshift::new(u64::from(number) + 2_000_000);
    let (pages, profile) = draw(number, &mut random);
    let state = odd(pages, u64::from(number));
    let name = format!("history {number} from a state, {profile:?}, {pages} pages");
    let mut words = encode(&state);
    words.extend(noise(random.below(700) as usize, u64::from(number)));
    let live = state.live_blocks().into_iter().map(|block| Granted {
        group: u32::from(block.group),
        offset: block.offset,
        room: block.room,
    });
    let history = History::with(profile, u64::from(number))
        .knowing(live.collect())
        .under(state.ceilings);
    let mut pair = Pair::over(words).named(name);
    follow(&mut pair, history, &mut random, counts, ASKED);
}

/// An arena's pages and a profile; each profile has as many arenas of either kind.
fn draw(number: u32, random: &mut Xorshift) -> (u32, Profile) {
    let profiles = Profile::ALL.len() as u32;
    let pages = match number / profiles % 2 {
        0 => random.pick(&SIZES),
        _ => 1 + random.below(256),
    };
    (pages, Profile::ALL[(number % profiles) as usize])
}

/// Fetches the holdings into a list of so many records.
fn fetch(pair: &mut Pair, counts: &mut Counts, records: usize) {
    let call = Call::Holdings { records };
    let answer = pair.serve(call);
    counts.count(&kinds::of_answer(&call, &answer), 1);
}

/// Makes the calls of a history, and compares as said above.
fn follow(
    pair: &mut Pair,
    mut history: History,
    random: &mut Xorshift,
    counts: &mut Counts,
    asked: usize,
) {
    let calls = CALLS * random.pick(&[1, 1, 1, 1, 1, 1, 1, 3]);
    // Half of them have an init in the middle, which is refused or begins a smaller arena.
    let anew = (random.below(2) == 0).then(|| 1 + random.below(calls));
    for made in 1..=calls {
        let call = match anew {
            Some(here) if here == made => Call::Init {
                pages: 1 + random.below(256),
            },
            _ => history.next_call(),
        };
        let searched = kinds::count_searches(counts, pair.state(), &call);
        kinds::count_setting(counts, pair.state(), &call);
        let answer = pair.serve(call);
        counts.count(&kinds::of_answer(&call, &answer), 1);
        history.observe(&call, &answer);
        fetch(pair, counts, GROUPS as usize);
        if made % LISTING == 0 {
            let capacity = LONGEST;
            assert_eq!(pair.serve(Call::Listing { capacity }).number(), 0);
            fetch(pair, counts, WRONG[(made / LISTING) as usize % WRONG.len()]);
        }
        if made % WORDS == 0 {
            pair.compare();
            kinds::count_state(counts, pair.state());
        } else if searched {
            pair.compare();
        }
    }
    counts.count(kinds::CALLS, calls);
    finish(pair, &history, counts, asked);
}

/// At the end the history knows the ceilings and the live blocks, and so many of these are asked for.
fn finish(pair: &mut Pair, history: &History, counts: &mut Counts, asked: usize) {
    assert_eq!(pair.state().ceilings, *history.ceilings());
    let live = history.live();
    assert_eq!(live.len(), pair.state().live_blocks().len());
    for block in live.iter().take(asked) {
        for offset in [block.offset, block.offset + 1] {
            let answer = pair.serve(Call::Query { offset });
            let begins = matches!(answer, Answer::Held { group, .. } if group == block.group);
            assert_eq!(begins, offset == block.offset);
        }
        counts.count(kinds::ASKED, 1);
    }
    pair.compare();
}
