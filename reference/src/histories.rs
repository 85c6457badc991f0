//! Pseudo-random histories: lists of calls for tests, the same for the same
//! seed.
//!
//! A history learns of the live blocks and of the ceilings from the answers
//! alone, so it can also drive another program and keeps its own record of what
//! should be live.

mod profiles;
mod random;
mod settings;

pub use profiles::Profile;
pub use random::Xorshift;

use crate::calls::{Answer, Call};
use crate::ceilings::{Ceilings, AT_START};
use crate::listing;
use crate::sizes::{chunk_size, need, CLASSES, DIRECT_FROM, GROUPS, MAX_SIZE, PAGE_BYTES};
use profiles::Weights;

/// Sizes of which a zone has 4 to 8 chunks.
const FEW_TO_A_ZONE: [u32; 5] = [8_191, 8_191, 7_000, 5_000, 4_096];

/// Sizes of which a zone has many.
const SMALL: [u32; 8] = [1, 8, 100, 127, 128, 129, 257, 1_025];

/// Where pages are short, groups up to this ask for chunks alone, and the
/// others for whole pages.
const CHUNK_GROUPS: u32 = GROUPS / 2;

/// A block that the answers have shown to be live.
#[derive(Clone, Copy, Debug, PartialEq, Eq)]
pub struct Granted {
    pub group: u32,
    pub offset: u32,
    /// Bytes of the block: of the chunk, or of its pages.
    pub room: u32,
}

/// A history under way: ask for the next call, serve it, show the answer.
#[derive(Clone, Debug)]
pub struct History {
    random: Xorshift,
    live: Vec<Granted>,
    ceilings: Ceilings,
    /// Stretches of mostly requests and of mostly returns take turns, so that
    /// zones become full and idle again.
    filling: bool,
    /// Chunk sizes that this history asks for most, so that a class has
    /// several zones.
    favourites: [u32; 2],
    weights: Weights,
    /// The offset of the block returned last.
    returned: Option<u32>,
    /// The request that a setting is drawn for: the next call.
    due: Option<Call>,
}

impl History {
    /// A history after a start that was not refused.
    pub fn new(seed: u64) -> History {
        History::with(Profile::Mixed, seed)
    }

    /// A history of this profile after a start that was not refused.
    pub fn with(profile: Profile, seed: u64) -> History {
        let mut random = Xorshift::new(seed);
        let favourites = [random.pick(&FEW_TO_A_ZONE), random.pick(&SMALL)];
        History {
            random,
            live: Vec::new(),
            ceilings: AT_START,
            filling: true,
            favourites,
            weights: profile.weights(),
            returned: None,
            due: None,
        }
    }

    /// The history with such calls alone as have a line of the bench program:
    /// it sets no ceiling.
    pub fn in_lines(mut self) -> History {
        self.weights.settings = 0;
        self
    }

    /// The history with these blocks live at its beginning.
    pub fn knowing(mut self, live: Vec<Granted>) -> History {
        self.live = live;
        self
    }

    /// The history with these ceilings at its beginning.
    pub fn under(mut self, ceilings: Ceilings) -> History {
        self.ceilings = ceilings;
        self
    }

    /// The groups' ceilings by the answers shown, group 1 first.
    pub fn ceilings(&self) -> &Ceilings {
        &self.ceilings
    }

    /// The blocks that are live by the answers shown, in no order.
    pub fn live(&self) -> &[Granted] {
        &self.live
    }

    /// The next call; never a start that would succeed.
    pub fn next_call(&mut self) -> Call {
        if let Some(request) = self.due.take() {
            return request;
        }
        if self.random.below(100) < self.weights.settings {
            return self.setting();
        }
        if self.random.below(50) == 0 {
            self.filling = !self.filling;
        }
        self.filling |= self.live.is_empty();
        self.other_call()
    }

    /// A call that is no setting, by its weight.
    fn other_call(&mut self) -> Call {
        let weights = self.weights;
        let mut number = self.random.below(100);
        // Whether the number falls to a kind of call that is this likely.
        let mut falls_to = |weight: u32| {
            let falls = number < weight;
            number = number.wrapping_sub(weight);
            falls
        };
        if falls_to(weights.odd) {
            self.odd_call()
        } else if falls_to(weights.resets) {
            let group = self.group();
            Call::Reset { group }
        } else if falls_to(weights.trims) {
            Call::Trim
        } else if falls_to(1) {
            let offset = self.live_or_any().offset;
            Call::Query { offset }
        } else if falls_to(1) {
            let capacity = listing::LONGEST;
            Call::Listing { capacity }
        } else if falls_to(weights.requests[usize::from(self.filling)]) {
            let group = self.group();
            let size = self.size_of_request(group);
            Call::Allocate { group, size }
        } else if falls_to(weights.wrong) {
            self.wrong_call()
        } else {
            self.give()
        }
    }

    /// A return, mostly of a live block.
    fn give(&mut self) -> Call {
        let Granted { group, offset, .. } = match self.weights.tight {
            true => self.chunk_or_any(),
            false => self.live_or_any(),
        };
        Call::Free { group, offset }
    }

    /// Shows the answer to a call, so that the history knows what is live.
    pub fn observe(&mut self, call: &Call, answer: &Answer) {
        match (*call, answer) {
            (Call::Init { .. }, Answer::Done) => {
                self.live.clear();
                self.ceilings = AT_START;
            }
            (Call::Allocate { group, size }, Answer::Granted { offset, .. }) => {
                self.live.push(Granted {
                    group,
                    offset: *offset,
                    room: need(size).room(),
                });
            }
            (Call::Free { offset, .. }, Answer::Done) => {
                self.live.retain(|block| block.offset != offset);
                self.returned = Some(offset);
            }
            (Call::Reset { group }, Answer::Counted(_)) => {
                self.live.retain(|block| block.group != group);
            }
            (Call::SetCeiling { group, bytes }, Answer::Done) => {
                self.ceilings[group as usize - 1] = bytes;
            }
            _ => {}
        }
    }

    /// A call with a value that is wrong, or that lies on an edge.
    fn odd_call(&mut self) -> Call {
        let group = self.random.pick(&[0, 1, GROUPS, GROUPS + 1, u32::MAX]);
        let offset = self.live_or_any().offset;
        match self.random.below(7) {
            0 => Call::Init {
                pages: self.random.pick(&[0, 257, u32::MAX]),
            },
            1 => Call::Allocate {
                group,
                size: self.random.pick(&[0, 1, MAX_SIZE, MAX_SIZE + 1, u32::MAX]),
            },
            2 => Call::Free { group, offset },
            3 => Call::Free {
                group: 1,
                offset: offset + self.random.pick(&[1, 8, PAGE_BYTES]),
            },
            4 => Call::Reset {
                group: self.random.pick(&[0, GROUPS + 1, u32::MAX]),
            },
            5 => self.request_at_the_ceiling(),
            _ => Call::Listing {
                capacity: self.random.below(100) as usize,
            },
        }
    }

    /// A call with a group, a size or an offset that is likely to be wrong.
    fn wrong_call(&mut self) -> Call {
        let block = self.live_or_any();
        let group = self.random.pick(&[0, GROUPS + 1, 257, u32::MAX]);
        let offset = match self.random.below(5) {
            0 => self.random.below(MAX_SIZE),
            1 => self.random.below(MAX_SIZE / PAGE_BYTES) * PAGE_BYTES,
            2 => block.offset + self.random.pick(&[1, 8, 104, PAGE_BYTES]),
            3 => self.returned.unwrap_or(block.offset),
            _ => u32::MAX - self.random.below(PAGE_BYTES),
        };
        match self.random.below(8) {
            0 => Call::Allocate {
                group,
                size: self.size(),
            },
            1 => Call::Allocate {
                group: self.group(),
                size: self.random.pick(&[0, MAX_SIZE + 1, u32::MAX]),
            },
            2 => Call::Free {
                group,
                offset: block.offset,
            },
            // Another group's block, mostly.
            3 | 4 => Call::Free {
                group: self.group(),
                offset: block.offset,
            },
            5 => Call::Free {
                group: block.group,
                offset,
            },
            6 => Call::Reset { group },
            _ => Call::Query { offset },
        }
    }

    fn group(&mut self) -> u32 {
        1 + self.random.below(GROUPS)
    }

    /// A size for a request of the group.
    fn size_of_request(&mut self, group: u32) -> u32 {
        match self.weights.tight {
            true => self.size_for(group),
            false => self.size(),
        }
    }

    fn size(&mut self) -> u32 {
        let [first, second, chunks, pages] = self.weights.sizes;
        let number = self.random.below(40);
        if number < first {
            self.favourites[0]
        } else if number < first + second {
            self.favourites[1]
        } else if number < first + second + chunks {
            1 + self.random.below(8_191)
        } else if number < first + second + chunks + pages {
            8_192 + self.random.below(20_000)
        } else {
            1 + self.random.below(MAX_SIZE)
        }
    }

    /// A size that goes with a group: of a chunk of any class, each as likely
    /// as another, or of pages, of a few more often than of many.
    fn size_for(&mut self, group: u32) -> u32 {
        if group <= CHUNK_GROUPS {
            return chunk_size(self.random.below(CLASSES)).min(DIRECT_FROM - 1);
        }
        let more = self.random.pick(&[30_000, 30_000, 100_000, MAX_SIZE]);
        MAX_SIZE.min(DIRECT_FROM + self.random.below(more))
    }

    /// Mostly a block of a group that asks for chunks alone.
    fn chunk_or_any(&mut self) -> Granted {
        let live = self.live.iter().copied();
        let chunks: Vec<Granted> = live.filter(|block| block.group <= CHUNK_GROUPS).collect();
        if chunks.is_empty() || self.random.below(8) == 0 {
            return self.live_or_any();
        }
        self.random.pick(&chunks)
    }

    /// A live block, or if there is none an offset that may be anything.
    fn live_or_any(&mut self) -> Granted {
        if self.live.is_empty() {
            return Granted {
                group: self.group(),
                offset: self.random.below(MAX_SIZE),
                room: 0,
            };
        }
        let at = self.random.below(self.live.len() as u32) as usize;
        self.live[at]
    }
}
