//! Live blocks, direct or chunk: made, found by their offset, and ended.

use crate::pages::Taken;
use crate::sizes::{need, Need, PAGE_BYTES, ZONE_PAGES};
use crate::state::{DirectBlock, Group, Page, State, Zone};

/// A live block.
#[derive(Clone, Copy, Debug, PartialEq, Eq)]
pub struct Block {
    /// Bytes from the arena's start.
    pub offset: u32,
    /// Bytes of the block: the chunk size, or pages × 4,096.
    pub room: u32,
    pub group: Group,
    pub place: Place,
}

/// Where a block is kept.
#[derive(Clone, Copy, Debug, PartialEq, Eq)]
pub enum Place {
    /// A direct block at this page.
    Direct { start: Page },
    /// A chunk of the zone at this page.
    Chunk { zone: Page, chunk: u32 },
}

impl State {
    /// How many pages in a row a request of a legal size needs; `None` if its
    /// class's list or the empty list has a zone that serves it.
    pub fn pages_needed(&self, size: u32) -> Option<u32> {
        match need(size) {
            Need::Pages { pages } => Some(pages),
            Need::Chunk { class } => {
                let serves = !self.list(class).is_empty() || !self.empty.is_empty();
                (!serves).then_some(ZONE_PAGES)
            }
        }
    }

    /// Grants a block of a legal size to a legal group and answers its
    /// offset; `None`, and no change, where refusal 6 is due.
    pub(crate) fn take_block(&mut self, group: Group, size: u32) -> Taken<u32> {
        let need = need(size);
        let block = self.take_place(group, need);
        block.map(|offset| {
            self.note_granted(group, need.room());
            offset
        })
    }

    /// A chunk or pages for a block of the group, by their offset.
    fn take_place(&mut self, group: Group, need: Need) -> Taken<u32> {
        match need {
            Need::Chunk { class } => self
                .take_chunk(class, group)
                .map(|(zone, chunk)| chunk_offset(zone, &self.zones[&zone], chunk)),
            Need::Pages { pages } => self.take_pages(pages).map(|start| {
                self.direct.insert(start, DirectBlock { pages, group });
                start * PAGE_BYTES
            }),
        }
    }

    /// Takes a live block back.
    pub(crate) fn give_block(&mut self, block: &Block) {
        self.note_returned(block.group, block.room);
        match block.place {
            Place::Direct { start } => {
                self.direct.remove(&start);
                self.give_pages(start, block.room / PAGE_BYTES);
            }
            Place::Chunk { zone, chunk } => self.give_chunk(zone, chunk),
        }
    }

    /// The live block that begins at an offset, if one does.
    pub fn block_at(&self, offset: u32) -> Option<Block> {
        let page = offset / PAGE_BYTES;
        match self.direct.get(&page) {
            Some(direct) if offset % PAGE_BYTES == 0 => Some(direct_block(page, direct)),
            Some(_) => None,
            None => self.chunk_at(offset),
        }
    }

    /// All live blocks, by ascending offset.
    pub fn live_blocks(&self) -> Vec<Block> {
        let direct = self
            .direct
            .iter()
            .map(|(&at, block)| direct_block(at, block));
        let chunks = self.zones.iter().flat_map(|(&at, zone)| {
            (0..zone.chunk_count()).filter_map(move |chunk| live_chunk(at, zone, chunk))
        });
        let mut blocks: Vec<Block> = direct.chain(chunks).collect();
        blocks.sort_by_key(|block| block.offset);
        blocks
    }

    fn chunk_at(&self, offset: u32) -> Option<Block> {
        let page = offset / PAGE_BYTES;
        let (&start, zone) = self.zones.range(..=page).next_back()?;
        if page - start >= ZONE_PAGES {
            return None;
        }
        let inside = offset - start * PAGE_BYTES;
        if inside % zone.chunk_size() != 0 {
            return None;
        }
        live_chunk(start, zone, inside / zone.chunk_size())
    }
}

fn direct_block(start: Page, direct: &DirectBlock) -> Block {
    Block {
        offset: start * PAGE_BYTES,
        room: direct.pages * PAGE_BYTES,
        group: direct.group,
        place: Place::Direct { start },
    }
}

/// The block that a chunk is, if it is live. The bytes behind a zone's last
/// chunk can have a number too; no owner stands there.
fn live_chunk(start: Page, zone: &Zone, chunk: u32) -> Option<Block> {
    let group = (*zone.owners.get(chunk as usize)?)?;
    Some(Block {
        offset: chunk_offset(start, zone, chunk),
        room: zone.chunk_size(),
        group,
        place: Place::Chunk { zone: start, chunk },
    })
}

fn chunk_offset(start: Page, zone: &Zone, chunk: u32) -> u32 {
    start * PAGE_BYTES + chunk * zone.chunk_size()
}
