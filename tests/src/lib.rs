//! The metadata words read and written a second time, from the layout's description alone, as
//! abstract states of the second program; the proved check, which is held to that reading; and the
//! proved calls, which are held to the second program's answers and to the words of its states; and
//! the bench program, which is held to what the second program writes.
//!
//!     cargo test --offline --locked -p tests                     all tests
//!     cargo test --offline --locked -p tests --test edges        document 01's cases through C
//!     cargo test --offline --locked -p tests --test histories    2,400 histories of calls
//!     cargo test --offline --locked -p tests --test damage       damaged words: check and calls
//!     cargo test --offline --locked -p tests --test arbitrary    words that never were a state
//!     cargo test --offline --locked -p tests --test program      the bench program through pipes
//!     cargo test --offline --locked -p tests --test classes      the class of every size
//!
//! The check and the classes are linked from the static library of the crate `measure`, the calls from that of the
//! crate `capi`, and the program is that of the crate `bench`. The build has `rt` write all three
//! whenever a crate has changed.

pub mod calls;
pub mod check;
pub mod classes;
pub mod counts;
pub mod layout;
pub mod pair;
pub mod program;
pub mod scripts;
pub mod searches;
pub mod states;
pub mod zones;
