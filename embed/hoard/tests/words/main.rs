//! Scenarios in words: what is read, what is written, and what is refused.
//!
//! - `forms`: every form, with values at the edges.
//! - `round_trips`: any steps, and random runs of the generator.
//! - `layout`: comments, blanks and line ends.
//! - `each_word`: each word of each form, spoilt in each way.
//! - `mistakes`: a table of texts that are no scenarios.
//! - `unplayed`: such a text is not played, and writes no file.
//! - `any_text`: any text at all.

mod any_text;
#[path = "../common/mod.rs"]
mod common;
mod each_word;
mod forms;
mod layout;
mod mistakes;
mod round_trips;
mod unplayed;
