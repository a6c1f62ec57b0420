//! The page of a run in a real browser. What it shows is compared with the other implementation,
//! by which the runs are made.
//!
//! - `marks`: the mark, the arrow and the texts of each call, and where they stand.
//! - `lanes`: the phases, what the blocks hold, and the drives that are off.
//! - `between`: two writes are chosen by the mouse and by keys.
//! - `records`: the records of a call under the mouse.
//! - `sheet`: a run of 300 calls, the slots one at a time, paper, and that the page stands alone.
//! - `around`: what stands around the pictures.
//! - `picture`: the picture by itself.

#[path = "../browser/mod.rs"]
mod browser;
#[path = "../common/mod.rs"]
mod common;

mod around;
mod between;
mod lanes;
mod marks;
mod picture;
mod records;
mod runs;
mod sheet;
mod words;
