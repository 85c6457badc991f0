//! The allocator of document 01 with document 02's requests a) to e) a second
//! time, on abstract states.
//!
//! No 32-bit words stand here: of the books only their number of words is
//! kept, because refusals 2 and 3 ask for it. Everything else is runs, direct
//! blocks, zones, lists and the groups' figures and ceilings, so that the
//! answers can be compared with those of the program that keeps them in words.
//!
//! | call here | in document 01 |
//! |---|---|
//! | `init` | start |
//! | `allocate` | request |
//! | `free` | return |
//! | `reset` | reset |
//! | `trim` | tidy |
//! | `query` | ask |
//! | `listing` | the listing |
//! | `holdings` | (document 02, c) the fetching of the twelve records |
//! | `set_ceiling` | (document 02, e) the setting of a group's ceiling |

#![forbid(unsafe_code)]

pub mod bench;
pub mod blocks;
pub mod calls;
pub mod cases;
pub mod ceilings;
pub mod entries;
pub mod histories;
pub mod holdings;
pub mod lines;
pub mod listing;
pub mod pages;
pub mod sizes;
pub mod state;
pub mod validity;
mod zones;
