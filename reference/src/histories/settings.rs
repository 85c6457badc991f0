//! Ceilings in a history. Settings: refused ones, ceilings that the next
//! request just meets or passes, and the largest one again, so that groups are
//! served as well. And requests for all that a ceiling leaves: they are what
//! meets the ceilings of a start.

use super::History;
use crate::calls::Call;
use crate::ceilings::MAX_CEILING;
use crate::sizes::{need, GROUPS, MAX_SIZE, PAGE_BYTES};

impl History {
    /// A setting of any kind. There are more that lift a ceiling than lower
    /// one, so that most groups have the largest at any time.
    pub(super) fn setting(&mut self) -> Call {
        match self.random.below(8) {
            0 => self.refused_setting(),
            1..=4 => self.lifted_ceiling(),
            _ => self.lowered_ceiling(),
        }
    }

    /// A wrong group, a ceiling above the largest, or both.
    fn refused_setting(&mut self) -> Call {
        let wrong = self.random.pick(&[0, GROUPS + 1, u32::MAX]);
        let above = self.random.pick(&[MAX_CEILING + 1, u32::MAX]);
        let (group, bytes) = match self.random.below(3) {
            0 => (wrong, self.random.pick(&[0, MAX_CEILING])),
            1 => (self.group(), above),
            _ => (wrong, above),
        };
        Call::SetCeiling { group, bytes }
    }

    /// The largest ceiling for a group that has a lower one, if there is such
    /// a group.
    fn lifted_ceiling(&mut self) -> Call {
        let groups = (1..=GROUPS).zip(self.ceilings);
        let lower = groups.filter(|(_, bytes)| *bytes < MAX_CEILING);
        let lower: Vec<u32> = lower.map(|(group, _)| group).collect();
        Call::SetCeiling {
            group: match lower.as_slice() {
                [] => self.group(),
                groups => self.random.pick(groups),
            },
            bytes: MAX_CEILING,
        }
    }

    /// A ceiling about what a group holds, or would with one block more. A
    /// request for that block comes next: it is the one that just meets the
    /// ceiling, or that passes it by a byte or by more.
    fn lowered_ceiling(&mut self) -> Call {
        let group = self.group();
        let size = self.size_of_request(group);
        let held = self.held(group);
        let with_block = held + need(size).room();
        let bytes = match self.random.below(8) {
            0..=2 => with_block,
            3 | 4 => with_block - 1,
            5 => held,
            6 => self.random.below(held.max(1)),
            _ => 0,
        };
        self.due = Some(Call::Allocate { group, size });
        Call::SetCeiling {
            group,
            bytes: bytes.min(MAX_CEILING),
        }
    }

    /// A request of as many pages as its group's ceiling leaves it, or of a
    /// page more; mostly of a group that holds something.
    pub(super) fn request_at_the_ceiling(&mut self) -> Call {
        let group = self.live_or_any().group;
        let ceiling = self.ceilings[group as usize - 1];
        let left = ceiling.saturating_sub(self.held(group));
        let whole_pages = left - left % PAGE_BYTES;
        let size = whole_pages + self.random.pick(&[0, 1]);
        Call::Allocate {
            group,
            size: size.clamp(1, MAX_SIZE),
        }
    }

    /// What a group holds by the answers shown.
    fn held(&self, group: u32) -> u32 {
        let own = self.live.iter().filter(|block| block.group == group);
        own.map(|block| block.room).sum()
    }
}
