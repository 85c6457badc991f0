//! Document 01's "Sizes": pages, steps, classes and chunk counts.

/// Bytes in a page.
pub const PAGE_BYTES: u32 = 4_096;
/// The most pages an arena can have.
pub const MAX_PAGES: u32 = 256;
/// Pages in a zone.
pub const ZONE_PAGES: u32 = 8;
/// Bytes in a zone.
pub const ZONE_BYTES: u32 = ZONE_PAGES * PAGE_BYTES;
/// Number of chunk classes.
pub const CLASSES: u32 = 64;
/// Groups are numbered from 1 to this.
pub const GROUPS: u32 = 12;
/// The largest size a request may have.
pub const MAX_SIZE: u32 = MAX_PAGES * PAGE_BYTES;
/// From this size up a request takes whole pages.
pub const DIRECT_FROM: u32 = 8_192;
/// Words of the books that an arena of any size needs.
pub const FIXED_WORDS: usize = 1_088;
/// Words of the books for each page.
pub const PAGE_WORDS: usize = 520;

/// One row of the size table.
struct Row {
    /// The largest size in the row.
    largest: u32,
    step: u32,
    /// What the table adds to c / step.
    shift: i32,
}

const fn row(largest: u32, step: u32, shift: i32) -> Row {
    Row {
        largest,
        step,
        shift,
    }
}

const TABLE: [Row; 7] = [
    row(127, 8, -1),
    row(255, 16, 7),
    row(511, 32, 15),
    row(1_023, 64, 23),
    row(2_047, 128, 31),
    row(4_095, 256, 39),
    row(8_191, 512, 47),
];

/// What a request of a legal size takes.
#[derive(Clone, Copy, Debug, PartialEq, Eq)]
pub enum Need {
    /// A chunk of this class.
    Chunk { class: u32 },
    /// A direct block of this many pages.
    Pages { pages: u32 },
}

impl Need {
    /// Bytes of the block: the chunk size, or pages × 4,096.
    pub fn room(self) -> u32 {
        match self {
            Need::Chunk { class } => chunk_size(class),
            Need::Pages { pages } => pages * PAGE_BYTES,
        }
    }
}

/// A chunk or whole pages: a legal size decides alone.
pub fn need(size: u32) -> Need {
    match class_of(size) {
        Some(class) => Need::Chunk { class },
        None => Need::Pages {
            pages: steps_in(size, PAGE_BYTES),
        },
    }
}

/// The class of a size from 1 to 8,191; other sizes have none.
pub fn class_of(size: u32) -> Option<u32> {
    if size == 0 {
        return None;
    }
    let row = TABLE.iter().find(|row| size <= row.largest)?;
    // The rounded size is this many steps, the table's c / step.
    let steps = steps_in(size, row.step);
    Some((steps as i32 + row.shift) as u32)
}

/// The chunk size c of a class: the size table read backwards.
///
/// # Panics
///
/// If `class` is not below 64.
pub fn chunk_size(class: u32) -> u32 {
    assert!(class < CLASSES, "there is no class {class}");
    // A row's largest size is rounded up by one, to the next row's smallest,
    // and both rows give it the same class: the first row that fits is right.
    TABLE
        .iter()
        .map(|row| (row, (class as i32 - row.shift) as u32 * row.step))
        .find(|(row, size)| *size <= row.largest + 1)
        .map(|(_, size)| size)
        .expect("the last row reaches class 63")
}

/// How many chunks a zone of this class has.
///
/// # Panics
///
/// If `class` is not below 64.
pub fn chunk_count(class: u32) -> u32 {
    ZONE_BYTES / chunk_size(class)
}

/// How many words the books of an arena have to have.
pub fn words_needed(pages: u32) -> usize {
    FIXED_WORDS + PAGE_WORDS * pages as usize
}

/// How many steps hold `size` bytes: the size divided and rounded up.
fn steps_in(size: u32, step: u32) -> u32 {
    size / step + u32::from(size % step != 0)
}
