//! Where everything stands in the metadata words, and both ways between words and abstract states.
//!
//! | words | hold |
//! |---|---|
//! | 0–11 | each group's live blocks, group 1 first |
//! | 12–23 | each group's held bytes |
//! | 24–35 | each group's greatest held bytes since the start |
//! | 36–47 | each group's ceiling |
//! | 48–63 | zeros |
//! | 64, 65 | the magic number, N |
//! | 66–67 | the empty list, front first: start page + 1 |
//! | 68–99 | the class lists in class order, each front first: 1 + 256 × class + page |
//! | 100–1,087 | zeros |
//! | 1,088 + 520 × p | what starts at page p |
//!
//! A free run is 1 and its pages; a direct block 2, its pages and its group. A zone has 64 words
//! and then 4,096 slots. The words are 3, the class, k and the chain's length. The lower half of a
//! slot is its chunk's state: 0 if it is untouched, the group if it is live, and 13 + its position
//! on the chain if it was returned; positions count from the chunk returned first. The upper half
//! of a slot is the chunk at that position of the chain, 0 from the chain's length on. Lists are
//! filled up with zeros, and every word that is not named is zero.
//!
//! [`decode`] and [`encode`] share these numbers and nothing else: neither is written by means of
//! the other.

mod decode;
mod encode;

pub use decode::decode;
pub use encode::encode;

use reference::state::Page;
use std::ops::Range;

/// The places of the groups' live blocks.
pub const BLOCKS: Range<usize> = 0..12;
/// The places of the groups' held bytes.
pub const HELD: Range<usize> = 12..24;
/// The places of the groups' greatest held bytes.
pub const GREATEST: Range<usize> = 24..36;
/// The places of the groups' ceilings.
pub const CEILINGS: Range<usize> = 36..48;
/// The words of the groups' figures and ceilings, with the zeros behind them.
pub const FIGURE_WORDS: usize = 64;
/// The place of the magic number.
pub const MAGIC_AT: usize = 64;
/// The magic number.
pub const MAGIC: u32 = 1_313_821_524;
/// The place of N.
pub const PAGES_AT: usize = 65;
/// The places of the empty list.
pub const EMPTY_LIST: Range<usize> = 66..68;
/// The places of all class lists together.
pub const CLASS_LISTS: Range<usize> = 68..100;
/// Words before those of the pages.
pub const FIXED_WORDS: usize = 1_088;
/// Words of one page.
pub const PAGE_WORDS: usize = 520;
/// An entry of a class's list is one more than the page and this many times the class.
pub const CLASS_STRIDE: u32 = 256;
/// The first word of a free run.
pub const RUN: u32 = 1;
/// The first word of a direct block.
pub const DIRECT: u32 = 2;
/// The first word of a zone.
pub const ZONE: u32 = 3;
/// Words of a zone before its slots.
pub const ZONE_HEAD: usize = 64;
/// Slots of a zone, whatever its class.
pub const ZONE_SLOTS: usize = 4_096;
/// The state of a returned chunk is its position and this.
pub const RETURNED: u32 = 13;
/// What a slot has under this is its lower half, a chunk's state.
pub const STATE: u32 = 0xffff;
/// From this bit on a slot has its upper half, a chunk of the chain.
pub const ENTRY_SHIFT: u32 = 16;

/// How many words the encoding of an arena has.
pub fn used_words(pages: u32) -> usize {
    FIXED_WORDS + PAGE_WORDS * pages as usize
}

/// The first word of what starts at a page.
pub fn page_at(page: Page) -> usize {
    used_words(page)
}

/// The slot of a chunk in the zone that starts at a page.
pub fn slot_at(zone: Page, chunk: u32) -> usize {
    page_at(zone) + ZONE_HEAD + chunk as usize
}
