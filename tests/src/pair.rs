//! The proved program and the second one side by side: every call is made on both, and both must
//! answer and leave the same.
//!
//! The words afterwards are not those of some state that looks right, but the encoding of the
//! second program's state, written by [`encode`]; the words behind it, lent or not, stay.

use crate::calls::{self, Number, Requested};
use crate::layout::{decode, encode, used_words};
use reference::calls::{Allocator, Answer, Call};
use reference::histories::Xorshift;
use reference::holdings::Holdings;
use reference::listing::LONGEST;
use reference::state::State;

/// Words behind the lent ones, to see that they stay.
const BEHIND: usize = 600;

/// Words lent to the proved program, and the second program beside them.
pub struct Pair {
    /// What a failure is told by.
    name: String,
    /// The lent words, and others behind them.
    words: Vec<u32>,
    lent: usize,
    /// What the words should be. Those of the state are brought up to date when they are needed.
    expected: Vec<u32>,
    reference: Allocator,
}

impl Pair {
    /// These words, whatever they hold, are lent.
    pub fn over(mut words: Vec<u32>) -> Pair {
        let lent = words.len();
        let reference = match decode(&words) {
            Some(state) => Allocator::picturing(lent, state),
            None => Allocator::zeroed(lent),
        };
        words.extend(noise(BEHIND, lent as u64));
        Pair {
            name: format!("{lent} words"),
            expected: words.clone(),
            words,
            lent,
            reference,
        }
    }

    /// So many words, all zero.
    pub fn zeroed(lent: usize) -> Pair {
        Pair::over(vec![0; lent])
    }

    /// So many words, each of them anything.
    pub fn noisy(lent: usize) -> Pair {
        Pair::over(noise(lent, !(lent as u64)))
    }

    /// An arena after its init, on words just enough for it that held anything before.
    pub fn started(pages: u32) -> Pair {
        let mut pair = Pair::noisy(used_words(pages));
        assert_eq!(pair.init(pages), Ok(()));
        pair
    }

    /// With a name by which a failure is told.
    pub fn named(mut self, name: String) -> Pair {
        self.name = name;
        self
    }

    /// The second program's state.
    pub fn state(&self) -> &State {
        let state = self.reference.state();
        state.expect("the words hold a valid state")
    }

    /// Makes a call on both and compares the answers: of a request its count of runs too.
    pub fn serve(&mut self, call: Call) -> Answer {
        if let Call::Init { .. } = call {
            // What it leaves behind its own words is what the state before had there.
            self.settle();
        }
        let ours = calls::serve(&mut self.words[..self.lent], call);
        let theirs = self.reference.serve(call);
        assert_eq!(ours, theirs, "{}: {call:?}, answers", self.name);
        ours
    }

    /// Compares every word.
    pub fn compare(&mut self) {
        self.settle();
        if self.words != self.expected {
            let both = self.words.iter().zip(&self.expected);
            let (at, (ours, theirs)) = both
                .enumerate()
                .find(|(_, (ours, theirs))| ours != theirs)
                .expect("there are as many of both");
            panic!("{}: word {at} is {ours}, not {theirs}", self.name);
        }
    }

    /// Makes a call on both, and compares the answers and every word.
    pub fn call(&mut self, call: Call) -> Answer {
        let answer = self.serve(call);
        self.compare();
        answer
    }

    pub fn init(&mut self, pages: u32) -> Result<(), Number> {
        self.served(Call::Init { pages }).map(|_| ())
    }

    /// The offset of the block granted.
    pub fn allocate(&mut self, group: u32, size: u32) -> Result<u32, Number> {
        self.request(group, size).outcome
    }

    /// The same, with the count of runs looked at.
    pub fn request(&mut self, group: u32, size: u32) -> Requested {
        match self.call(Call::Allocate { group, size }) {
            Answer::Granted { offset, looked } => Requested {
                outcome: Ok(offset),
                looked,
            },
            Answer::Denied { refusal, looked } => Requested {
                outcome: Err(refusal.number()),
                looked,
            },
            other => panic!("{other:?}"),
        }
    }

    pub fn reset(&mut self, group: u32) -> Result<u32, Number> {
        self.counted(Call::Reset { group })
    }

    pub fn trim(&mut self) -> Result<u32, Number> {
        self.counted(Call::Trim)
    }

    /// Group and room.
    pub fn query(&mut self, offset: u32) -> Result<(u32, u32), Number> {
        match self.served(Call::Query { offset })? {
            Answer::Held { group, room } => Ok((group, room)),
            other => panic!("{other:?}"),
        }
    }

    /// The text that a buffer of so many bytes takes.
    pub fn listing(&mut self, capacity: usize) -> Result<String, Number> {
        match self.served(Call::Listing { capacity })? {
            Answer::Listed(text) => Ok(text),
            other => panic!("{other:?}"),
        }
    }

    /// The listing of a valid state, with room enough.
    pub fn text(&mut self) -> String {
        self.listing(LONGEST).expect("a listing")
    }

    /// What a list of so many records is filled with.
    pub fn holdings(&mut self, records: usize) -> Result<Holdings, Number> {
        match self.served(Call::Holdings { records })? {
            Answer::Fetched(holdings) => Ok(holdings),
            other => panic!("{other:?}"),
        }
    }

    pub fn set_ceiling(&mut self, group: u32, bytes: u32) -> Result<(), Number> {
        self.served(Call::SetCeiling { group, bytes }).map(|_| ())
    }

    fn counted(&mut self, call: Call) -> Result<u32, Number> {
        match self.served(call)? {
            Answer::Counted(count) => Ok(count),
            other => panic!("{other:?}"),
        }
    }

    /// The answer of a call that is no request, or the number of its refusal.
    fn served(&mut self, call: Call) -> Result<Answer, Number> {
        match self.call(call) {
            Answer::Refused(refusal) => Err(refusal.number()),
            answer => Ok(answer),
        }
    }

    fn settle(&mut self) {
        if let Some(state) = self.reference.state() {
            let own = encode(state);
            self.expected[..own.len()].copy_from_slice(&own);
        }
    }
}

/// So many words, the same for the same seed. All are odd, so none of them is the magic number.
pub fn noise(count: usize, seed: u64) -> Vec<u32> {
    let mut random = Xorshift::new(seed);
    (0..count).map(|_| random.draw() as u32 | 1).collect()
}
