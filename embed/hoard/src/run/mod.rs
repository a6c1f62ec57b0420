//! A scenario as it is played: what each call answers, and what it found and left.
//!
//! - `event`: one call that was made, with the records that it concerns, before and after.
//! - `places`: the places that a call names.
//! - `ending`: how a settle ended.
//! - `player`: makes the calls of a scenario in a room of the proved library.
//! - `answer`: the answer of a call in words.
//! - `reason`: why a call was refused.
//! - `block`: what a block holds, in words.
//! - `catalogue`: the catalogue of a server as a table.
//! - `whole`: the whole run.

mod answer;
mod block;
mod catalogue;
mod ending;
mod event;
mod places;
mod player;
mod reason;
mod whole;

pub(crate) use answer::{answer, found};
pub(crate) use block::{ballots, block_words, commands, is_blank, settled};
pub(crate) use catalogue::{catalogue_table, counts, entries, hoard_words};
pub use ending::{Ending, NoNext};
pub use event::{Event, Reply, Seen};
pub use places::Places;
pub use player::{Moment, Player};
pub(crate) use reason::reason;
pub use whole::Run;
