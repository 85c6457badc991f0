//! The class of every size through C, by the table and by arithmetic, held to the second program's.

use reference::sizes::class_of;
use tests::classes::{by_rows, by_shared_table, by_table, Sum};

const WAYS: [(&str, Sum); 3] = [
    ("by rows", by_rows),
    ("by the table", by_table),
    ("by one table for all", by_shared_table),
];

#[test]
fn the_class_of_every_size() {
    for size in 1..8_192 {
        for (way, classes) in WAYS {
            let class = classes(&mut [size - 1]);
            assert_eq!(Some(class), class_of(size), "{size} bytes, {way}");
        }
    }
}

#[test]
fn many_sizes_are_added_up() {
    let mut all: Vec<u32> = (0..8_191).collect();
    let sum: u32 = (1..8_192).filter_map(class_of).sum();
    for (way, classes) in WAYS {
        assert_eq!(classes(&mut []), 0, "{way}");
        assert_eq!(classes(&mut all), sum, "{way}");
        // Any number stands for a size.
        assert_eq!(
            classes(&mut [8_191, u32::MAX]),
            class_sum(u32::MAX),
            "{way}"
        );
    }
}

/// The class of the size that the number stands for, after that of one byte, which is 0.
fn class_sum(number: u32) -> u32 {
    class_of(1 + number % 8_191).expect("a size that takes a chunk")
}
