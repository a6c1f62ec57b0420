//! The room and its calls.

use crate::raw;
use crate::{Answer, Catalogue, Error, Record, Step, PIECES};

/// The number of cells of a room, none where the sizes do not fit.
///
/// ```
/// assert_eq!(register::room_length(4, 7, 16), Some(2508));
/// assert_eq!(register::room_length(5, 7, 16), None);
/// ```
#[must_use]
pub fn room_length(servers: u32, drives: u32, slots: u32) -> Option<usize> {
    match raw::length(servers, drives, slots) {
        0 => None,
        cells => Some(cells as usize),
    }
}

/// A row of cells that is used as a room: a `Vec<u32>` that it owns, or any other
/// row, such as a `&mut [u32]` that is lent, or a `&[u32]` to look at.
///
/// The cells may hold anything: each call judges them all and is refused with
/// [`Error::Cells`] where they are no room.
///
/// ```
/// use register::{Error, Room, Step};
///
/// let mut cells = [0; 27];
/// let mut room = Room::open_in(&mut cells[..], 1, 1, 1)?;
/// room.step(Step::Offer { server: 0, slot: 0, command: 66_825 })?;
/// assert_eq!(cells[16], 66_825);
///
/// cells[16] = 1;
/// let mut room = Room::over(&mut cells[..]);
/// assert_eq!(room.step(Step::Fail { server: 0 }), Err(Error::Cells));
/// # Ok::<(), Error>(())
/// ```
#[derive(Clone, Debug, PartialEq, Eq)]
pub struct Room<R = Vec<u32>> {
    pub(crate) row: R,
}

impl<R> Room<R> {
    /// A row that was opened before, or any other.
    #[must_use]
    pub fn over(row: R) -> Self {
        Room { row }
    }

    /// The row, handed back.
    #[must_use]
    pub fn into_row(self) -> R {
        self.row
    }
}

impl<R: AsMut<[u32]>> Room<R> {
    /// Takes one step.
    ///
    /// ```
    /// use register::{Answer, Error, Room, Step};
    ///
    /// let mut room = Room::open(2, 3, 4)?;
    /// assert_eq!(room.step(Step::DriveOff { drive: 1 }), Ok(Answer::Done));
    /// let recall = Step::Recall { server: 0, slot: 0, drive: 1 };
    /// assert_eq!(room.step(recall), Err(Error::DriveOff));
    /// # Ok::<(), Error>(())
    /// ```
    ///
    /// # Errors
    ///
    /// [`Error::Cells`] where the row is no room; then, by the step, the errors
    /// from [`Error::Beyond`] to [`Error::NoBallotLeft`]: of those that apply the
    /// one with the lowest number. Whether a number is a command, in the step and in
    /// the cells, is judged by the room's own limits.
    pub fn step(&mut self, step: Step) -> Result<Answer, Error> {
        self.step_record(Record::of(step).bytes())
    }

    /// Takes the step of a record. Bytes beyond the record are ignored.
    ///
    /// ```
    /// use register::{Answer, Error, Room};
    ///
    /// let mut room = Room::open(2, 3, 4)?;
    /// assert_eq!(room.step_record(&[0x04, 0x09, 1]), Ok(Answer::Done));
    /// assert_eq!(room.step_record(&[0x04, 0x09]), Err(Error::CutShort));
    /// # Ok::<(), Error>(())
    /// ```
    ///
    /// # Errors
    ///
    /// [`Error::CutShort`] and [`Error::Malformed`] where the record cannot be
    /// read; otherwise those of [`Room::step`].
    pub fn step_record(&mut self, record: &[u8]) -> Result<Answer, Error> {
        let (word, number) = raw::step(self.row.as_mut(), record);
        Answer::of(word, number)
    }

    /// Offers a command, as [`Step::Offer`] does, but only in a slot that is free for
    /// the server. The slot that its [`Room::ask`] named is free until another call.
    ///
    /// ```
    /// use register::{Error, Room, Step};
    ///
    /// let mut room = Room::open(2, 3, 4)?;
    /// let slot = room.ask(1)?;
    /// room.put(1, slot, 66_825)?;
    /// assert_eq!(room.put(1, slot, 66_826), Err(Error::NotFree));
    ///
    /// // A server that failed offers nothing any more.
    /// room.step(Step::Fail { server: 1 })?;
    /// assert_eq!(room.put(1, slot, 66_826), Ok(()));
    /// # Ok::<(), Error>(())
    /// ```
    ///
    /// # Errors
    ///
    /// [`Error::Cells`] where the row is no room, [`Error::Beyond`] where it has no
    /// such server or slot, [`Error::NotACommand`], and [`Error::NotFree`]: of those
    /// that apply the first.
    pub fn put(&mut self, server: u32, slot: u32, command: u32) -> Result<(), Error> {
        raw::put(self.row.as_mut(), server, slot, command)
    }
}

impl<R: AsRef<[u32]>> Room<R> {
    /// The cells.
    #[must_use]
    pub fn cells(&self) -> &[u32] {
        self.row.as_ref()
    }

    /// The lowest slot that is free for a server: it offers nothing there and is not
    /// in phase 3.
    ///
    /// ```
    /// use register::{Error, Room};
    ///
    /// let mut room = Room::open(2, 3, 2)?;
    /// assert_eq!(room.ask(0), Ok(0));
    /// room.put(0, 0, 66_825)?;
    /// assert_eq!(room.ask(0), Ok(1));
    /// room.put(0, 1, 66_826)?;
    /// assert_eq!(room.ask(0), Err(Error::NoFreeSlot));
    /// assert_eq!(room.ask(1), Ok(0));
    /// # Ok::<(), Error>(())
    /// ```
    ///
    /// # Errors
    ///
    /// [`Error::Cells`] where the row is no room, [`Error::Beyond`] where it has no
    /// such server, [`Error::NoFreeSlot`] where no slot is free for it.
    pub fn ask(&self, server: u32) -> Result<u32, Error> {
        raw::ask(self.row.as_ref(), server)
    }

    /// What one server knows of the pieces.
    ///
    /// ```
    /// let room = register::Room::open(2, 3, 4)?;
    /// assert_eq!(room.catalogue(1)?.taken, 0);
    /// assert_eq!(room.catalogue(2), Err(register::Error::Beyond));
    /// # Ok::<(), register::Error>(())
    /// ```
    ///
    /// # Errors
    ///
    /// [`Error::Cells`] where the row is no room, [`Error::Beyond`] where it has no
    /// such server.
    pub fn catalogue(&self, server: u32) -> Result<Catalogue, Error> {
        let mut cells = [0; PIECES];
        let (taken, skipped) = self.catalogue_in(server, &mut cells)?;
        Ok(Catalogue { cells, taken, skipped })
    }

    /// The same in 64 lent cells, each as [`Entry::of`](crate::Entry::of) reads it:
    /// how many commands were taken and skipped.
    ///
    /// # Errors
    ///
    /// [`Error::Length`] where the lent cells are not 64; otherwise those of
    /// [`Room::catalogue`].
    pub fn catalogue_in(&self, server: u32, cells: &mut [u32]) -> Result<(u32, u32), Error> {
        raw::catalogue(self.row.as_ref(), server, cells)
    }
}
