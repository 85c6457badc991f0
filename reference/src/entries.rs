//! Document 02's request d): the class of each size rounded up to eight bytes,
//! and the file of the proved program that has these entries.

use crate::sizes::{class_of, DIRECT_FROM};

/// Sizes that share an entry.
const SIZES: u32 = 8;
/// The entries: one for each eight sizes up to 8,192.
pub const COUNT: u32 = DIRECT_FROM / SIZES;
/// Entries in a line of the file.
const IN_A_LINE: usize = 32;

/// What stands above the entries in the file.
const HEAD: &str = r#"// The class numbers by eighths of size, in hexadecimal: the entry at i is the class of the sizes 8 * i + 1 to 8 * i + 8 (but for 8,192,
// which takes pages). A line has 32 of them, for 256 bytes of size. The second program makes this file by document 01's table of sizes,
// and a test of its makes it again:
//     cargo run --offline --locked -p reference --bin entries >crates/classes/src/entries.rt
pub const ENTRY_COUNT: usize = 1024;

pub const TABLE: [u8; ENTRY_COUNT] =
    *b""#;

/// The class of the sizes of each entry. The last entry's largest size, 8,192,
/// is a direct block's and has none.
///
/// # Panics
///
/// If the sizes of an entry are not all of one class.
pub fn entries() -> Vec<u32> {
    (0..COUNT).map(entry).collect()
}

fn entry(index: u32) -> u32 {
    let classes: Vec<u32> = (1..=SIZES)
        .filter_map(|size| class_of(SIZES * index + size))
        .collect();
    let same = classes.iter().all(|class| *class == classes[0]);
    assert!(same, "entry {index} has the classes {classes:?}");
    classes[0]
}

/// The whole file, crates/classes/src/entries.rt.
pub fn file() -> String {
    let lines: Vec<String> = entries()
        .chunks(IN_A_LINE)
        .map(|line| line.iter().map(|class| format!("\\x{class:02x}")).collect())
        .collect();
    format!("{HEAD}{}\";\n", lines.join("\\\n    "))
}
