//! Document 01's "Calls" and "Numbers for no", with the count that document
//! 02's request b) adds to a request's answer and the calls that its requests
//! c) and e) add: what each call answers, in the order in which the refusals
//! are tested.

use crate::ceilings::MAX_CEILING;
use crate::holdings::Holdings;
use crate::listing;
use crate::pages::Taken;
use crate::sizes::{need, words_needed, GROUPS, MAX_PAGES, MAX_SIZE};
use crate::state::{Group, State};
use crate::validity::is_valid;

/// Why a call is refused.
#[derive(Clone, Copy, Debug, PartialEq, Eq)]
pub enum Refusal {
    /// The start's page count is 0 or above 256.
    PageCount,
    /// The start finds fewer words than its page count needs.
    TooFewWords,
    /// The books picture no legal state, or are too short for theirs.
    NoLegalState,
    /// The group is not 1 to 12.
    Group,
    /// The size is 0 or above 1,048,576, or the ceiling is above 1,048,576.
    Size,
    /// Pages are needed and no free run has enough, even after a tidy.
    NoRun,
    /// No live block begins at the offset.
    NoBlock,
    /// The block is another group's.
    OtherGroup,
    /// The lent list is not twelve records long.
    ListLength,
    /// With the new block the group would hold more than its ceiling.
    OverCeiling,
    /// The lent byte buffer is shorter than the listing.
    ShortBuffer,
}

impl Refusal {
    pub const ALL: [Refusal; 11] = [
        Refusal::PageCount,
        Refusal::TooFewWords,
        Refusal::NoLegalState,
        Refusal::Group,
        Refusal::Size,
        Refusal::NoRun,
        Refusal::NoBlock,
        Refusal::OtherGroup,
        Refusal::ListLength,
        Refusal::OverCeiling,
        Refusal::ShortBuffer,
    ];

    /// The papers' number for it.
    pub fn number(self) -> u32 {
        match self {
            Refusal::PageCount => 1,
            Refusal::TooFewWords => 2,
            Refusal::NoLegalState => 3,
            Refusal::Group => 4,
            Refusal::Size => 5,
            Refusal::NoRun => 6,
            Refusal::NoBlock => 7,
            Refusal::OtherGroup => 8,
            Refusal::ListLength => 9,
            Refusal::OverCeiling => 10,
            Refusal::ShortBuffer => 12,
        }
    }
}

/// A call with what it names.
#[derive(Clone, Copy, Debug, PartialEq, Eq)]
pub enum Call {
    Init { pages: u32 },
    Allocate { group: u32, size: u32 },
    Free { group: u32, offset: u32 },
    Reset { group: u32 },
    Trim,
    Query { offset: u32 },
    Listing { capacity: usize },
    Holdings { records: usize },
    SetCeiling { group: u32, bytes: u32 },
}

/// What a call answers.
#[derive(Clone, Debug, PartialEq, Eq)]
pub enum Answer {
    /// A grant with its offset, and the runs that the request looked at.
    Granted { offset: u32, looked: u32 },
    /// A request's refusal, with nothing changed, and the runs that it looked
    /// at before.
    Denied { refusal: Refusal, looked: u32 },
    /// Done, no count being named.
    Done,
    /// Done, with the count of blocks that a reset returned or of zones that
    /// a trim gave back.
    Counted(u32),
    /// A live block's group and room.
    Held { group: u32, room: u32 },
    /// The listing's text; the call's own answer is its length.
    Listed(String),
    /// What the lent list is filled with; the call's own answer is done.
    Fetched(Holdings),
    /// The refusal of a call that is no request, with nothing changed.
    Refused(Refusal),
}

impl Answer {
    /// Why the call was refused, if it was, be it a request or another.
    pub fn refusal(&self) -> Option<Refusal> {
        match *self {
            Answer::Denied { refusal, .. } | Answer::Refused(refusal) => Some(refusal),
            _ => None,
        }
    }

    /// The number of the refusal, and 0 for any other answer.
    pub fn number(&self) -> u32 {
        self.refusal().map_or(0, Refusal::number)
    }

    /// The runs looked at, if it was a request.
    pub fn looked(&self) -> Option<u32> {
        match *self {
            Answer::Granted { looked, .. } | Answer::Denied { looked, .. } => Some(looked),
            _ => None,
        }
    }
}

/// What comes of a request: the granted block's offset or a refusal, and in
/// either case the count of free runs that were looked at.
#[derive(Clone, Copy, Debug, PartialEq, Eq)]
pub struct Requested {
    pub outcome: Result<u32, Refusal>,
    pub looked: u32,
}

impl Requested {
    fn answer(self) -> Answer {
        let looked = self.looked;
        match self.outcome {
            Ok(offset) => Answer::Granted { offset, looked },
            Err(refusal) => Answer::Denied { refusal, looked },
        }
    }
}

/// An arena with the books lent for it: how many words they have, and the
/// legal state that they picture, if any.
#[derive(Clone, Debug, PartialEq, Eq)]
pub struct Allocator {
    words: usize,
    state: Option<State>,
}

impl Allocator {
    /// All-zero books: they picture no legal state.
    pub fn zeroed(words: usize) -> Allocator {
        Allocator { words, state: None }
    }

    /// Books that picture this state. If it is not legal, or needs more
    /// words, they are as good as books that picture none.
    pub fn picturing(words: usize, state: State) -> Allocator {
        let serves = is_valid(&state) && words >= words_needed(state.pages);
        Allocator {
            words,
            state: if serves { Some(state) } else { None },
        }
    }

    /// How many words the books have.
    pub fn words(&self) -> usize {
        self.words
    }

    /// The legal state that the books picture, if they do.
    pub fn state(&self) -> Option<&State> {
        self.state.as_ref()
    }

    /// Start: forgets what the books held and pictures the fresh state.
    pub fn init(&mut self, pages: u32) -> Result<(), Refusal> {
        if pages == 0 || pages > MAX_PAGES {
            return Err(Refusal::PageCount);
        }
        if self.words < words_needed(pages) {
            return Err(Refusal::TooFewWords);
        }
        self.state = Some(State::fresh(pages));
        Ok(())
    }

    /// Request: answers the granted block's offset. What is refused by 3, 4, 5
    /// or 10 is refused before any search, so it has looked at no run.
    pub fn allocate(&mut self, group: u32, size: u32) -> Requested {
        match self.legal_request(group, size) {
            Ok((state, group)) => {
                let Taken { taken, looked } = state.take_block(group, size);
                let outcome = taken.ok_or(Refusal::NoRun);
                Requested { outcome, looked }
            }
            Err(refusal) => Requested {
                outcome: Err(refusal),
                looked: 0,
            },
        }
    }

    /// Return of the group's live block that begins at the offset.
    pub fn free(&mut self, group: u32, offset: u32) -> Result<(), Refusal> {
        let state = self.legal_state_mut()?;
        let group = legal_group(group)?;
        let block = state.block_at(offset).ok_or(Refusal::NoBlock)?;
        if block.group != group {
            return Err(Refusal::OtherGroup);
        }
        state.give_block(&block);
        Ok(())
    }

    /// Reset: returns the group's live blocks, as they are when it begins, in
    /// ascending offset; answers how many.
    pub fn reset(&mut self, group: u32) -> Result<u32, Refusal> {
        let state = self.legal_state_mut()?;
        let group = legal_group(group)?;
        let mut blocks = state.live_blocks();
        blocks.retain(|block| block.group == group);
        for block in &blocks {
            state.give_block(block);
        }
        Ok(blocks.len() as u32)
    }

    /// Tidy: gives every zone without a live chunk back; answers how many.
    pub fn trim(&mut self) -> Result<u32, Refusal> {
        Ok(self.legal_state_mut()?.give_idle_zones())
    }

    /// Ask: a live block's group and room.
    pub fn query(&self, offset: u32) -> Result<(u32, u32), Refusal> {
        let block = self
            .legal_state()?
            .block_at(offset)
            .ok_or(Refusal::NoBlock)?;
        Ok((u32::from(block.group), block.room))
    }

    /// The listing: the text that a lent buffer of this many bytes takes.
    pub fn listing(&self, capacity: usize) -> Result<String, Refusal> {
        let text = listing::text(self.legal_state()?);
        if text.len() > capacity {
            return Err(Refusal::ShortBuffer);
        }
        Ok(text)
    }

    /// The holdings: what a lent list of this many records is filled with.
    pub fn holdings(&self, records: usize) -> Result<Holdings, Refusal> {
        let holdings = self.legal_state()?.holdings;
        if records != holdings.len() {
            return Err(Refusal::ListLength);
        }
        Ok(holdings)
    }

    /// Setting: the group's ceiling from now on. It takes nothing away from a
    /// group that holds more.
    pub fn set_ceiling(&mut self, group: u32, bytes: u32) -> Result<(), Refusal> {
        let state = self.legal_state_mut()?;
        let group = legal_group(group)?;
        if bytes > MAX_CEILING {
            return Err(Refusal::Size);
        }
        state.set_ceiling(group, bytes);
        Ok(())
    }

    /// Serves a call of any kind.
    pub fn serve(&mut self, call: Call) -> Answer {
        let answer = match call {
            Call::Init { pages } => self.init(pages).map(|()| Answer::Done),
            Call::Allocate { group, size } => Ok(self.allocate(group, size).answer()),
            Call::Free { group, offset } => self.free(group, offset).map(|()| Answer::Done),
            Call::Reset { group } => self.reset(group).map(Answer::Counted),
            Call::Trim => self.trim().map(Answer::Counted),
            Call::Query { offset } => self
                .query(offset)
                .map(|(group, room)| Answer::Held { group, room }),
            Call::Listing { capacity } => self.listing(capacity).map(Answer::Listed),
            Call::Holdings { records } => self.holdings(records).map(Answer::Fetched),
            Call::SetCeiling { group, bytes } => {
                self.set_ceiling(group, bytes).map(|()| Answer::Done)
            }
        };
        answer.unwrap_or_else(Answer::Refused)
    }

    /// Refusals 3, 4, 5 and 10 of a request; the state and the group if none is
    /// due.
    fn legal_request(&mut self, group: u32, size: u32) -> Result<(&mut State, Group), Refusal> {
        let state = self.legal_state_mut()?;
        let group = legal_group(group)?;
        if size == 0 || size > MAX_SIZE {
            return Err(Refusal::Size);
        }
        if state.would_pass_ceiling(group, need(size).room()) {
            return Err(Refusal::OverCeiling);
        }
        Ok((state, group))
    }

    fn legal_state(&self) -> Result<&State, Refusal> {
        self.state.as_ref().ok_or(Refusal::NoLegalState)
    }

    fn legal_state_mut(&mut self) -> Result<&mut State, Refusal> {
        self.state.as_mut().ok_or(Refusal::NoLegalState)
    }
}

fn legal_group(group: u32) -> Result<Group, Refusal> {
    match Group::try_from(group) {
        Ok(legal) if (1..=GROUPS).contains(&group) => Ok(legal),
        _ => Err(Refusal::Group),
    }
}
