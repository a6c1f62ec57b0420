//! The hoard lists for the printer: a safe binding of the library that
//! `crates/printing_c` proves. It stands above the register and does not need it.
//!
//! A catalogue has a cell for each of 64 pieces: 0 for a piece in no hoard, its hoard
//! (1 to 255) while it is entered, [`STRUCK`] once it was struck. A [`HoardList`] has
//! the entered pieces by rising hoard, and by rising piece within a hoard. Struck and
//! absent pieces are not in it.
//!
//! ```
//! use printing::HoardList;
//!
//! # fn main() -> Result<(), printing::Error> {
//! // Pieces 5 and 63 are in hoard 9, piece 17 in hoard 2, and piece 20 was struck.
//! let mut catalogue = [0; 64];
//! for (piece, cell) in [(5, 9), (63, 9), (17, 2), (20, 256)] {
//!     catalogue[piece] = cell;
//! }
//! let list = HoardList::of(&catalogue)?;
//! assert_eq!(list.pieces(), [17, 5, 63]);
//! let hoards: Vec<(u8, &[u8])> = list.hoards().collect();
//! assert_eq!(hoards, [(2, &[17][..]), (9, &[5, 63][..])]);
//! # Ok(())
//! # }
//! ```
//!
//! [`hoard_list`] is the library's own call, on lent cells. It judges every cell first,
//! so that a catalogue from anywhere can be lent. One that the register wrote is never
//! refused for a cell.
//!
//! ```
//! use printing::{hoard_list, Error, NO_PIECE};
//!
//! let mut list = [0; 64];
//! assert_eq!(hoard_list(&[3; 64], &mut list), Ok(64));
//! assert_eq!(hoard_list(&[256; 64], &mut list), Ok(0));
//! assert_eq!(list, [NO_PIECE; 64]);
//! assert_eq!(hoard_list(&[257; 64], &mut list), Err(Error::Cells));
//! ```

mod error;
mod list;
mod raw;

pub use error::Error;
pub use list::{hoard_list, HoardList, NO_PIECE, PIECES, STRUCK};
