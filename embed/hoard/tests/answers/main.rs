//! What the program and the library say of the calls of a run, against the other implementation
//! and by hand.
//!
//! - `runs`: random runs, each call of them.
//! - `occurred`: which answers have occurred.
//! - `reasons`: why a call is refused, by a table.
//! - `blocks`: what a call says of the block that it writes or meets, by a table.

mod blocks;
#[path = "../common/mod.rs"]
mod common;
mod occurred;
mod reasons;
mod runs;
