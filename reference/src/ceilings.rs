//! Document 02's request e): a ceiling in bytes for each group.
//!
//! The ceilings stand in the state. A start and a setting change them, and
//! nothing else does. They are looked at when a block is asked for, and at no
//! other time: a group can hold more than a ceiling that was set below it.

use crate::holdings::place_of;
use crate::sizes::GROUPS;
use crate::state::{Group, State};

/// The largest ceiling: a group's after a start.
pub const MAX_CEILING: u32 = 1_048_576;

/// A ceiling for each group, group 1 first.
pub type Ceilings = [u32; GROUPS as usize];

/// The ceilings after a start.
pub const AT_START: Ceilings = [MAX_CEILING; GROUPS as usize];

impl State {
    /// A legal group's ceiling.
    pub fn ceiling(&self, group: Group) -> u32 {
        self.ceilings[place_of(group)]
    }

    /// Whether a legal group would hold more than its ceiling with a block of
    /// this room, and not just as much. In 64 bits, as nothing is known of the
    /// state.
    pub fn would_pass_ceiling(&self, group: Group, room: u32) -> bool {
        let held = u64::from(self.holding(group).held) + u64::from(room);
        held > u64::from(self.ceiling(group))
    }

    /// Sets a legal group's ceiling, whatever the group holds.
    pub(crate) fn set_ceiling(&mut self, group: Group, bytes: u32) {
        self.ceilings[place_of(group)] = bytes;
    }

    /// The state with these ceilings, whatever they are: nothing is checked.
    pub fn with_ceilings(mut self, ceilings: Ceilings) -> State {
        self.ceilings = ceilings;
        self
    }
}
