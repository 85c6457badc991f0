//! The allocator's calls, through C. include/nostrimel.h says what each of them does.
//!
//! What only this file can see is looked at here: that a refused call writes no result but for a
//! request's count, that a request writes that always, a listing no byte behind its text, and the
//! fetching of holdings no record beside the list. Who lends the words looks at those.

use reference::calls::{Answer, Call, Refusal};
use reference::holdings::{Holding, Holdings};

extern "C" {
    fn nostrimel_init(meta: *mut u32, words: usize, pages: u32) -> u32;
    fn nostrimel_allocate(
        meta: *mut u32,
        words: usize,
        group: u32,
        size: u32,
        offset: *mut u32,
        looked: *mut u32,
    ) -> u32;
    fn nostrimel_free(meta: *mut u32, words: usize, group: u32, offset: u32) -> u32;
    fn nostrimel_reset(meta: *mut u32, words: usize, group: u32, count: *mut u32) -> u32;
    fn nostrimel_trim(meta: *mut u32, words: usize, count: *mut u32) -> u32;
    fn nostrimel_query(
        meta: *const u32,
        words: usize,
        offset: u32,
        group: *mut u32,
        room: *mut u32,
    ) -> u32;
    fn nostrimel_listing(
        meta: *const u32,
        words: usize,
        text: *mut u8,
        capacity: usize,
        length: *mut usize,
    ) -> u32;
    fn nostrimel_holdings(meta: *const u32, words: usize, list: *mut Record, count: usize) -> u32;
    fn nostrimel_set_ceiling(meta: *mut u32, words: usize, group: u32, bytes: u32) -> u32;
}

/// What a group holds, as it lies in C's memory: `struct nostrimel_holding`.
#[repr(C)]
#[derive(Clone, Copy, Debug, PartialEq, Eq)]
pub struct Record {
    pub blocks: u32,
    pub held: u32,
    pub greatest: u32,
}

/// Document 01's number of a refusal.
pub type Number = u32;

/// What stands in the place of a result before the call; no result is as large.
const UNWRITTEN: u32 = 0xa5a5_a5a5;

/// What stands in a listing's buffer before the call; no listing has this byte.
const BLANK: u8 = 0xa5;

/// Bytes behind the ones lent for a listing.
const BEHIND: usize = 16;

/// What stands in a list of records before the call; no record is so.
pub const UNFILLED: Record = Record {
    blocks: UNWRITTEN,
    held: UNWRITTEN,
    greatest: UNWRITTEN,
};

/// Records before the ones lent for the holdings, and as many behind them.
const BESIDE: usize = 3;

pub fn init(words: &mut [u32], pages: u32) -> Result<(), Number> {
    // SAFETY: pointer and count are those of one slice, which nothing else reaches meanwhile.
    let number = unsafe { nostrimel_init(words.as_mut_ptr(), words.len(), pages) };
    done(number)
}

/// What comes of a request: the block's offset or the number of a refusal, and in either case the
/// count of free runs that were looked at.
#[derive(Clone, Copy, Debug, PartialEq, Eq)]
pub struct Requested {
    pub outcome: Result<u32, Number>,
    pub looked: u32,
}

pub fn allocate(words: &mut [u32], group: u32, size: u32) -> Requested {
    let (meta, count) = (words.as_mut_ptr(), words.len());
    let mut looked = UNWRITTEN;
    // SAFETY: as in `init`; the two results are two locals.
    let outcome = result(|offset| unsafe {
        nostrimel_allocate(meta, count, group, size, offset, &mut looked)
    });
    assert!(looked != UNWRITTEN, "a request wrote no count");
    Requested { outcome, looked }
}

pub fn free(words: &mut [u32], group: u32, offset: u32) -> Result<(), Number> {
    // SAFETY: as in `init`.
    let number = unsafe { nostrimel_free(words.as_mut_ptr(), words.len(), group, offset) };
    done(number)
}

pub fn reset(words: &mut [u32], group: u32) -> Result<u32, Number> {
    // SAFETY: as in `init`; the result is a local of its own.
    result(|count| unsafe { nostrimel_reset(words.as_mut_ptr(), words.len(), group, count) })
}

pub fn trim(words: &mut [u32]) -> Result<u32, Number> {
    // SAFETY: as in `reset`.
    result(|count| unsafe { nostrimel_trim(words.as_mut_ptr(), words.len(), count) })
}

/// Group and room. It only reads; why the words are lent for writing all the same is said at
/// [`crate::check::check`].
pub fn query(words: &mut [u32], offset: u32) -> Result<(u32, u32), Number> {
    query_at(words.as_mut_ptr(), words.len(), offset)
}

/// The same of words that need not be writable: the header says `const`.
pub fn query_of(words: &[u32], offset: u32) -> Result<(u32, u32), Number> {
    query_at(words.as_ptr(), words.len(), offset)
}

fn query_at(meta: *const u32, words: usize, offset: u32) -> Result<(u32, u32), Number> {
    let mut room = UNWRITTEN;
    // SAFETY: pointer and count are those of one slice; the two results are two locals.
    let group = result(|group| unsafe { nostrimel_query(meta, words, offset, group, &mut room) });
    assert!(group.is_ok() || room == UNWRITTEN, "a refusal wrote a room");
    group.map(|group| (group, room))
}

/// The length of the listing, which stands at the front of the text then.
pub fn listing(words: &mut [u32], text: &mut [u8]) -> Result<usize, Number> {
    listing_at(words.as_mut_ptr(), words.len(), text)
}

/// The same of words that need not be writable.
pub fn listing_of(words: &[u32], text: &mut [u8]) -> Result<usize, Number> {
    listing_at(words.as_ptr(), words.len(), text)
}

fn listing_at(meta: *const u32, words: usize, text: &mut [u8]) -> Result<usize, Number> {
    let mut length = usize::MAX;
    // SAFETY: as in `query_at`; pointer and capacity are those of one slice too.
    let number =
        unsafe { nostrimel_listing(meta, words, text.as_mut_ptr(), text.len(), &mut length) };
    match number {
        0 => Ok(length),
        _ => {
            assert_eq!(length, usize::MAX, "a refusal wrote a length");
            Err(number)
        }
    }
}

/// The listing that a buffer of so many bytes takes; all other bytes stay.
pub fn listed(words: &mut [u32], capacity: usize) -> Result<String, Number> {
    let mut text = vec![BLANK; capacity + BEHIND];
    let length = listing(words, &mut text[..capacity]);
    let kept = &text[length.unwrap_or(0)..];
    assert!(kept.iter().all(|byte| *byte == BLANK), "bytes were written");
    text.truncate(length?);
    Ok(String::from_utf8(text).expect("a listing is ASCII"))
}

/// Fills the list with what each group holds.
pub fn holdings(words: &mut [u32], list: &mut [Record]) -> Result<(), Number> {
    holdings_at(words.as_mut_ptr(), words.len(), list)
}

/// The same of words that need not be writable.
pub fn holdings_of(words: &[u32], list: &mut [Record]) -> Result<(), Number> {
    holdings_at(words.as_ptr(), words.len(), list)
}

fn holdings_at(meta: *const u32, words: usize, list: &mut [Record]) -> Result<(), Number> {
    // SAFETY: as in `listing_at`.
    let number = unsafe { nostrimel_holdings(meta, words, list.as_mut_ptr(), list.len()) };
    done(number)
}

/// What a list of so many records is filled with; of a refused call all records stay, and those
/// beside the list always do.
pub fn fetched(words: &mut [u32], records: usize) -> Result<Holdings, Number> {
    let mut list = vec![UNFILLED; BESIDE + records + BESIDE];
    let (before, rest) = list.split_at_mut(BESIDE);
    let (lent, behind) = rest.split_at_mut(records);
    let answer = holdings(words, lent);
    let refused: &[Record] = match answer {
        Ok(()) => &[],
        Err(_) => lent,
    };
    let mut kept = before.iter().chain(&*behind).chain(refused);
    let all_stay = kept.all(|record| *record == UNFILLED);
    assert!(all_stay, "records were written");
    answer?;
    let holdings = lent.iter().map(|record| Holding::from(*record));
    let holdings: Vec<Holding> = holdings.collect();
    let twelve = holdings.try_into();
    Ok(twelve.expect("a list that is not of twelve records was filled"))
}

impl From<Record> for Holding {
    fn from(record: Record) -> Holding {
        let Record {
            blocks,
            held,
            greatest,
        } = record;
        Holding {
            blocks,
            held,
            greatest,
        }
    }
}

/// Sets a group's ceiling.
pub fn set_ceiling(words: &mut [u32], group: u32, bytes: u32) -> Result<(), Number> {
    // SAFETY: as in `init`.
    let number = unsafe { nostrimel_set_ceiling(words.as_mut_ptr(), words.len(), group, bytes) };
    done(number)
}

/// A call of any kind.
pub fn serve(words: &mut [u32], call: Call) -> Answer {
    let answer = match call {
        Call::Init { pages } => init(words, pages).map(|()| Answer::Done),
        Call::Allocate { group, size } => Ok(requested(allocate(words, group, size))),
        Call::Free { group, offset } => free(words, group, offset).map(|()| Answer::Done),
        Call::Reset { group } => reset(words, group).map(Answer::Counted),
        Call::Trim => trim(words).map(Answer::Counted),
        Call::Query { offset } => {
            query(words, offset).map(|(group, room)| Answer::Held { group, room })
        }
        Call::Listing { capacity } => listed(words, capacity).map(Answer::Listed),
        Call::Holdings { records } => fetched(words, records).map(Answer::Fetched),
        Call::SetCeiling { group, bytes } => {
            set_ceiling(words, group, bytes).map(|()| Answer::Done)
        }
    };
    answer.unwrap_or_else(|number| Answer::Refused(refusal(number)))
}

/// A request's answer.
fn requested(Requested { outcome, looked }: Requested) -> Answer {
    match outcome {
        Ok(offset) => Answer::Granted { offset, looked },
        Err(number) => Answer::Denied {
            refusal: refusal(number),
            looked,
        },
    }
}

/// The refusal with a number, which a function has returned.
fn refusal(number: Number) -> Refusal {
    let mut all = Refusal::ALL.into_iter();
    let found = all.find(|refusal| refusal.number() == number);
    found.unwrap_or_else(|| panic!("no refusal has the number {number}"))
}

fn done(number: u32) -> Result<(), Number> {
    match number {
        0 => Ok(()),
        _ => Err(number),
    }
}

/// The result of a call that writes one.
fn result(call: impl FnOnce(&mut u32) -> u32) -> Result<u32, Number> {
    let mut result = UNWRITTEN;
    let number = call(&mut result);
    assert!(
        number == 0 || result == UNWRITTEN,
        "a refusal wrote {result}"
    );
    done(number).map(|()| result)
}
