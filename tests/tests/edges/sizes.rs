//! The room of every class, through C.

use reference::sizes::{chunk_size, CLASSES};
use tests::pair::Pair;

/// Both sides of every step: the room of the largest size of each class, and of one byte more.
#[test]
fn each_class_ends_where_the_next_begins() {
    let mut pair = Pair::started(256);
    for class in 0..CLASSES {
        let room = chunk_size(class);
        // 8,192 bytes are pages already; 8,191 is the largest chunk.
        let largest = room.min(8_191);
        let offset = pair.allocate(1, largest).expect("room");
        assert_eq!(pair.query(offset), Ok((1, room)), "class {class}");
        let offset = pair.allocate(1, largest + 1).expect("room");
        assert!(pair.query(offset) != Ok((1, room)) || class == 63);
        assert_eq!(pair.reset(1), Ok(2));
        assert_eq!(pair.trim(), Ok(if class == 63 { 1 } else { 2 }));
    }
}
