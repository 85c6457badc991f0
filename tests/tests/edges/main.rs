//! Document 01's cases, and what is at the edge of lent words, buffers and lists, and of ceilings. Every
//! call is made through C and on the second program; the answers are compared, and after each call every
//! word.
//!
//!     cargo test --offline --locked -p tests --test edges

mod cases;
mod ceilings;
mod holdings;
mod listing;
mod session;
mod sizes;
mod states;
mod words;
