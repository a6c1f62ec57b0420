//! The hoard register: a safe binding of the library that `crates/register_c`
//! proves.
//!
//! A [`Room`] is a row of cells. [`Room::step`] takes one [`Step`] in it and
//! answers with an [`Answer`], [`Room::catalogue`] gives what one server knows of
//! the pieces. [`Room::ask`] names the slot that a server can fill next, and
//! [`Room::put`] offers a command there. [`Room::next`] gives the step that a server
//! on its own takes next, and [`Room::settle`] follows such steps. Every call judges
//! every cell first, so that a row from anywhere can be lent; a call that is refused
//! with an [`Error`] changes nothing.
//!
//! ```
//! use register::{Answer, Command, Entry, Room, Step};
//!
//! # fn main() -> Result<(), register::Error> {
//! // One server and one drive settle a slot: piece 5 enters hoard 9.
//! let enter = Command::enter(5, 9)?.number();
//! let mut room = Room::open(1, 1, 1)?;
//! room.step(Step::Offer { server: 0, slot: 0, command: enter })?;
//! room.step(Step::Recall { server: 0, slot: 0, drive: 0 })?;
//! room.step(Step::Rejoin { server: 0, slot: 0, ballot: 1 })?;
//! room.step(Step::Write { server: 0, slot: 0, drive: 0 })?;
//! assert_eq!(room.step(Step::Finish { server: 0, slot: 0 })?, Answer::Chosen(enter));
//! room.step(Step::Write { server: 0, slot: 0, drive: 0 })?;
//! assert_eq!(room.step(Step::Finish { server: 0, slot: 0 })?, Answer::Committed(enter));
//! let catalogue = room.catalogue(0)?;
//! assert_eq!((catalogue.taken, catalogue.skipped), (1, 0));
//! assert_eq!(catalogue.entry(5), Some(Entry::Entered(9)));
//! # Ok(())
//! # }
//! ```
//!
//! A museum whose cabinets are not the usual ones opens its rooms with [`Limits`] of its
//! own. The same command can then be accepted in one room and refused in another.
//!
//! ```
//! use register::{Command, Error, Limits, Room};
//!
//! # fn main() -> Result<(), register::Error> {
//! let enter = Command::enter(63, 61)?.number();
//! let mut usual = Room::open(1, 1, 1)?;
//! let mut large = Room::open_with(1, 1, 1, Limits::of([90; 8]))?;
//! assert_eq!(usual.put(0, 0, enter), Err(Error::NotACommand));
//! assert_eq!(large.put(0, 0, enter), Ok(()));
//! # Ok(())
//! # }
//! ```
//!
//! A server that has settled a slot can tell it: it writes its block once more.
//! Another that comes late learns the command where it reads that block, and need not
//! finish a phase.
//!
//! ```
//! use register::{Answer, Room, Step};
//!
//! # fn main() -> Result<(), register::Error> {
//! let mut room = Room::open(2, 1, 1)?;
//! room.put(0, 0, 66_825)?;
//! room.step(Step::Recall { server: 0, slot: 0, drive: 0 })?;
//! room.step(Step::Rejoin { server: 0, slot: 0, ballot: 1 })?;
//! for answer in [Answer::Chosen(66_825), Answer::Committed(66_825)] {
//!     room.step(Step::Write { server: 0, slot: 0, drive: 0 })?;
//!     room.step(Step::Read { server: 0, slot: 0, drive: 0, other: 1 })?;
//!     assert_eq!(room.step(Step::Finish { server: 0, slot: 0 })?, answer);
//! }
//! room.step(Step::Write { server: 0, slot: 0, drive: 0 })?;
//!
//! room.step(Step::Recall { server: 1, slot: 0, drive: 0 })?;
//! room.step(Step::Rejoin { server: 1, slot: 0, ballot: 2 })?;
//! room.step(Step::Write { server: 1, slot: 0, drive: 0 })?;
//! let read = Step::Read { server: 1, slot: 0, drive: 0, other: 0 };
//! assert_eq!(room.step(read)?, Answer::Committed(66_825));
//! assert_eq!(room.catalogue(1)?, room.catalogue(0)?);
//! # Ok(())
//! # }
//! ```
//!
//! A server that is the only one awake gets through by itself.
//!
//! ```
//! use register::{Command, Room, Step};
//!
//! # fn main() -> Result<(), register::Error> {
//! let mut room = Room::open(4, 5, 16)?;
//! room.step(Step::DriveOff { drive: 1 })?;
//! room.step(Step::DriveOff { drive: 3 })?;
//! for entry in [Command::enter(5, 9)?, Command::enter(40, 31)?, Command::move_to(5, 12)?] {
//!     let slot = room.ask(2)?;
//!     room.put(2, slot, entry.number())?;
//!     assert_eq!(room.settle(2, slot)?, Some(entry.number()));
//! }
//! assert_eq!(room.catalogue(2)?.taken, 3);
//! # Ok(())
//! # }
//! ```

mod alone;
mod catalogue;
mod cells;
mod command;
mod error;
mod limits;
mod opening;
mod raw;
mod record;
mod room;
mod step;

pub use catalogue::{Catalogue, Entry, PIECES, STRUCK};
pub use cells::{block_at, server_at, Block, Own, Server};
pub use command::{Command, Kind};
pub use error::Error;
pub use limits::{Limits, CABINETS};
pub use opening::NotOpened;
pub use record::{Record, LONGEST_RECORD};
pub use room::{room_length, Room};
pub use step::{Answer, Step};
