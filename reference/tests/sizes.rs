//! The size table and the words, over all sizes and classes.

use reference::sizes::{chunk_size, class_of, words_needed, MAX_SIZE};

#[test]
fn every_size_fits_its_class_and_not_the_class_below() {
    for size in 1..8_192 {
        let class = class_of(size).unwrap();
        assert!(size <= chunk_size(class), "size {size}");
        assert!(class == 0 || size > chunk_size(class - 1), "size {size}");
    }
    assert_eq!(class_of(8_192), None);
}

#[test]
fn chunk_sizes_of_the_64_classes() {
    let mut size = 0;
    for class in 0..64 {
        size += match size {
            0..=127 => 8,
            128..=255 => 16,
            256..=511 => 32,
            512..=1_023 => 64,
            1_024..=2_047 => 128,
            2_048..=4_095 => 256,
            _ => 512,
        };
        assert_eq!(chunk_size(class), size, "class {class}");
    }
    assert_eq!(size, 8_192);
}

#[test]
fn words_needed_at_both_ends() {
    assert_eq!(words_needed(1), 1_608);
    assert_eq!(words_needed(24), 13_568);
    assert_eq!(words_needed(256), 134_208);
    assert_eq!(MAX_SIZE, 1_048_576);
}
