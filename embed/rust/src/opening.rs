//! How a row becomes a room.

use std::fmt;

use crate::raw;
use crate::{room_length, Error, Limits, Room};

/// A row that was not opened, handed back with the reason.
///
/// ```
/// use register::{Error, Room};
///
/// let row = vec![7; 28];
/// let not_opened = Room::open_in(row, 1, 1, 1).unwrap_err();
/// assert_eq!(not_opened.error, Error::Length);
/// assert_eq!(not_opened.row, [7; 28]);
/// ```
#[derive(Clone, Copy, Debug, PartialEq, Eq)]
pub struct NotOpened<R> {
    /// Why it was not opened.
    pub error: Error,
    /// The row, as it was.
    pub row: R,
}

impl<R> From<NotOpened<R>> for Error {
    fn from(not_opened: NotOpened<R>) -> Error {
        not_opened.error
    }
}

impl<R> fmt::Display for NotOpened<R> {
    fn fmt(&self, f: &mut fmt::Formatter<'_>) -> fmt::Result {
        write!(f, "the row was not opened: {}", self.error)
    }
}

impl<R: fmt::Debug> std::error::Error for NotOpened<R> {}

impl Room<Vec<u32>> {
    /// A new room that owns its cells, with the usual limits of the cabinets.
    ///
    /// ```
    /// let room = register::Room::open(2, 3, 4)?;
    /// assert_eq!(room.cells().len(), 196);
    /// # Ok::<(), register::Error>(())
    /// ```
    ///
    /// # Errors
    ///
    /// [`Error::Sizes`] where the sizes do not fit.
    pub fn open(servers: u32, drives: u32, slots: u32) -> Result<Self, Error> {
        Room::open_with(servers, drives, slots, Limits::default())
    }

    /// The same with limits of the museum's own.
    ///
    /// ```
    /// use register::{Error, Limits, Room};
    ///
    /// let own = Limits::of([255, 255, 255, 255, 90, 90, 90, 12]);
    /// assert_eq!(Room::open_with(2, 3, 4, own)?.limits(), Some(own));
    /// let none = Limits::of([255, 255, 255, 255, 90, 90, 90, 0]);
    /// assert_eq!(Room::open_with(2, 3, 4, none), Err(Error::Limits));
    /// # Ok::<(), Error>(())
    /// ```
    ///
    /// # Errors
    ///
    /// [`Error::Sizes`] where the sizes do not fit, [`Error::Limits`] where a limit is
    /// not 1 to 255.
    pub fn open_with(servers: u32, drives: u32, slots: u32, limits: Limits) -> Result<Self, Error> {
        let cells = room_length(servers, drives, slots).ok_or(Error::Sizes)?;
        Ok(Room::open_in_with(vec![0; cells], servers, drives, slots, limits)?)
    }
}

impl<R: AsMut<[u32]>> Room<R> {
    /// Makes a row a new room, with the usual limits of the cabinets. What the cells
    /// held is not heeded.
    ///
    /// # Errors
    ///
    /// [`NotOpened`], which hands the row back as it was: with [`Error::Sizes`]
    /// where the sizes do not fit, with [`Error::Length`] where the row is not as
    /// long as [`room_length`] says.
    pub fn open_in(row: R, servers: u32, drives: u32, slots: u32) -> Result<Self, NotOpened<R>> {
        Room::open_in_with(row, servers, drives, slots, Limits::default())
    }

    /// The same with limits of the museum's own.
    ///
    /// # Errors
    ///
    /// Those of [`Room::open_in`], and then [`Error::Limits`] where a limit is not 1 to
    /// 255.
    pub fn open_in_with(
        mut row: R,
        servers: u32,
        drives: u32,
        slots: u32,
        limits: Limits,
    ) -> Result<Self, NotOpened<R>> {
        match raw::open(row.as_mut(), servers, drives, slots, limits) {
            Ok(()) => Ok(Room::over(row)),
            Err(error) => Err(NotOpened { error, row }),
        }
    }
}
