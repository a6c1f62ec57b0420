//! This is a second implementation of 01, with the requests of 02 that have
//! landed. It was written from these papers and not from the Rattle code, and
//! is used to check and to time the register.
//!
//! The calls are [`open`], [`step`], [`ask`], [`put`], [`next`], [`catalogue`],
//! [`read_record`] and [`write_record`]. [`rehearse`] gives the bytes that the
//! program rehearse prints. Every refusal is a number of [`refusal`], and a
//! refused call leaves every lent cell and byte as it was.
//!
//! [`hoard_list`] stands above these: it makes of a catalogue what the printer wants.
//!
//! [`generator`] makes runs and inputs for rehearse from a seed. It is no part
//! of 01.

mod ballots;
mod catalogue;
mod commands;
mod free_slots;
pub mod generator;
mod next;
mod printing;
mod records;
pub mod refusal;
mod rehearse;
mod room;
mod server;
mod steps;

pub use ballots::{least_own_above, owner, BALLOT_LIMIT};
pub use catalogue::{catalogue, PIECES, STRUCK};
pub use commands::{is_command, Kind, Limits, CABINETS, USUAL_LIMITS};
pub use free_slots::{ask, put};
pub use next::{most_steps, next, next_record, used_drives};
pub use printing::{hoard_list, NO_PIECE};
pub use records::{read_record, write_record, LONGEST_RECORD};
pub use rehearse::{rehearse, INPUT_LIMIT};
pub use room::{judge, limits_of, open, room_length, Sizes, MOST_CELLS};
pub use server::{is_majority, Block, Server};
pub use steps::{step, Answer, Step};
