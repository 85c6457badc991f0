//! Document 02's request c): what each group holds.
//!
//! The figures stand in the state. A block that is granted and one that comes
//! back change those of its group, and nothing else does. Whether they agree
//! with the blocks is told by adding up all live blocks, for which no call has
//! a need: [`crate::validity`] has.

use crate::sizes::{CLASSES, GROUPS, PAGE_BYTES};
use crate::state::{Group, State};

/// What one group holds.
#[derive(Clone, Copy, Debug, Default, PartialEq, Eq)]
pub struct Holding {
    /// Its live blocks.
    pub blocks: u32,
    /// Its held bytes: the rooms of its live blocks.
    pub held: u32,
    /// The greatest held bytes since the start.
    pub greatest: u32,
}

/// A record for each group, group 1 first.
pub type Holdings = [Holding; GROUPS as usize];

/// A group's live blocks and their rooms, added up; in 64 bits, as nothing is
/// known of the state.
#[derive(Clone, Copy, Debug, Default, PartialEq, Eq)]
pub struct Sum {
    pub blocks: u64,
    pub bytes: u64,
}

impl Holding {
    /// A block of this room more. The greatest figure rises here alone.
    fn take(&mut self, room: u32) {
        self.blocks += 1;
        self.held += room;
        self.greatest = self.greatest.max(self.held);
    }

    /// A block of this room less.
    fn give(&mut self, room: u32) {
        self.blocks -= 1;
        self.held -= room;
    }

    /// The record as a line, without its LF.
    pub fn line(&self) -> String {
        let Holding {
            blocks,
            held,
            greatest,
        } = self;
        format!("{blocks} {held} {greatest}")
    }
}

impl State {
    /// What a legal group holds, by the figures.
    pub fn holding(&self, group: Group) -> &Holding {
        &self.holdings[place_of(group)]
    }

    /// Steps the figures for a block that a legal group is granted.
    pub(crate) fn note_granted(&mut self, group: Group, room: u32) {
        self.holdings[place_of(group)].take(room);
    }

    /// Steps them for a block that comes back.
    pub(crate) fn note_returned(&mut self, group: Group, room: u32) {
        self.holdings[place_of(group)].give(room);
    }

    /// What the live blocks of each group add up to, whatever the figures
    /// say. A block of no legal group is nobody's, and a zone without a class
    /// has no rooms.
    pub fn added_up(&self) -> [Sum; GROUPS as usize] {
        let mut sums = [Sum::default(); GROUPS as usize];
        let mut add = |group: Group, room: u64| {
            if let Some(sum) = sums.get_mut(place_of(group)) {
                sum.blocks += 1;
                sum.bytes += room;
            }
        };
        for block in self.direct.values() {
            add(block.group, u64::from(block.pages) * u64::from(PAGE_BYTES));
        }
        for zone in self.zones.values().filter(|zone| zone.class < CLASSES) {
            let room = u64::from(zone.chunk_size());
            for group in zone.owners.iter().flatten() {
                add(*group, room);
            }
        }
        sums
    }

    /// The state with figures that agree with its blocks: for one that was
    /// put together and not reached. A greatest figure stays unless it is
    /// below what is held.
    pub fn recounted(mut self) -> State {
        let sums = self.added_up();
        for (holding, sum) in self.holdings.iter_mut().zip(sums) {
            holding.blocks = u32::try_from(sum.blocks).unwrap_or(u32::MAX);
            holding.held = u32::try_from(sum.bytes).unwrap_or(u32::MAX);
            holding.greatest = holding.greatest.max(holding.held);
        }
        self
    }
}

/// A group's place among the records and the ceilings; of no group, none.
pub(crate) fn place_of(group: Group) -> usize {
    usize::from(group).wrapping_sub(1)
}
