//! Request d)'s table: its entries are the classes of the size table, and the
//! file that the proved program has is the one that is made from it.

use reference::entries::{entries, file, COUNT};
use reference::sizes::class_of;
use std::process::Command;

const FILE: &str = include_str!("../../crates/classes/src/entries.rt");

#[test]
fn the_file_is_the_one_that_is_made() {
    assert!(
        FILE == file(),
        "crates/classes/src/entries.rt is another one: make it again as its first lines say"
    );
}

#[test]
fn the_binary_writes_the_file() {
    let output = Command::new(env!("CARGO_BIN_EXE_entries")).output();
    let output = output.expect("the binary runs");
    assert!(output.status.success());
    assert!(output.stdout == FILE.as_bytes());
}

#[test]
fn an_entry_for_each_size_rounded_up_to_eight_bytes() {
    let entries = entries();
    assert_eq!((COUNT, entries.len()), (1_024, 1_024));
    for size in 1..8_192_u32 {
        let rounded = (size + 7) / 8 * 8;
        let entry = entries[rounded as usize / 8 - 1];
        assert_eq!(Some(entry), class_of(size), "{size} bytes");
    }
    // 8,192 is reached by 8,185 to 8,191 alone.
    assert_eq!(entries[1_023], 63);
}
