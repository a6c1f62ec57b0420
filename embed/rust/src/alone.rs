//! A server that is the only one awake: its next step, and a loop that follows it.

use crate::raw;
use crate::{Answer, Error, Room, Step, LONGEST_RECORD};

impl<R: AsRef<[u32]>> Room<R> {
    /// The step that a server takes next in a slot where it is alone, none where there is
    /// nothing left for it to do. No cell changes.
    ///
    /// It uses the first drives that are on, up to a majority, and the least ballot that
    /// it may have. In phase 0 it recalls these drives, then rejoins; in phases 1 and 2 it
    /// writes each in turn and reads the others there, then finishes. What is already
    /// marked is passed over. There is no next step in phase 3, where the step would be
    /// refused, and where no ballot is left.
    ///
    /// A server that has just failed and then offered a command in the slot commits within
    /// 3 + m + 2mN + m²N(N - 1) of these steps, where N is the number of servers and m that
    /// of the drives used, if the drives that are on are a majority, no mbal on the slot's
    /// blocks is above 999,990, no other server steps and no drive is switched.
    ///
    /// ```
    /// use register::{Error, Room, Step};
    ///
    /// let mut room = Room::open(2, 3, 4)?;
    /// assert_eq!(room.next(1, 0)?, Some(Step::Recall { server: 1, slot: 0, drive: 0 }));
    /// room.step(Step::DriveOff { drive: 0 })?;
    /// assert_eq!(room.next(1, 0)?, Some(Step::Recall { server: 1, slot: 0, drive: 1 }));
    /// room.step(Step::DriveOff { drive: 2 })?;
    /// assert_eq!(room.next(1, 0), Err(Error::NoMajorityOn));
    /// # Ok::<(), Error>(())
    /// ```
    ///
    /// # Errors
    ///
    /// [`Error::Cells`] where the row is no room, [`Error::Beyond`] where it has no such
    /// server or slot, [`Error::NoMajorityOn`], in phase 3 too: the first of these that
    /// applies.
    pub fn next(&self, server: u32, slot: u32) -> Result<Option<Step>, Error> {
        next(self.row.as_ref(), server, slot)
    }

    /// Writes the record of the next step at the start of `buffer`; the length used, none
    /// where there is no next step. Later bytes are left alone.
    ///
    /// ```
    /// use register::{Error, Room};
    ///
    /// let room = Room::open(2, 3, 4)?;
    /// let mut buffer = [7; 4];
    /// assert_eq!(room.next_record(1, 0, &mut buffer), Ok(Some(3)));
    /// assert_eq!(buffer, [0x01, 0x02, 1, 7]);
    /// assert_eq!(room.next_record(1, 0, &mut buffer[..2]), Err(Error::Length));
    /// # Ok::<(), Error>(())
    /// ```
    ///
    /// # Errors
    ///
    /// Those of [`Room::next`]; then [`Error::Length`] where there is a step and its record
    /// does not fit. [`LONGEST_RECORD`] bytes are always enough.
    pub fn next_record(
        &self,
        server: u32,
        slot: u32,
        buffer: &mut [u8],
    ) -> Result<Option<usize>, Error> {
        let used = raw::next(self.row.as_ref(), server, slot, buffer)?;
        Ok((used != 0).then_some(used))
    }
}

impl<R: AsMut<[u32]>> Room<R> {
    /// Takes the server's next step in the slot, as [`Room::next`] gives it, until one is
    /// answered [`Answer::Committed`] or there is none.
    ///
    /// It returns the command that was committed, which need not be the one that the server
    /// offers: another may have been found on the drives. (It is 0 where an unreached room
    /// has inp 0 in phase 2.) It returns none where there is no next
    /// step: the server is in phase 3 already, offers nothing and has seen nothing, or has no
    /// ballot left. The steps taken until then stay taken. The loop ends in any room.
    ///
    /// ```
    /// use register::{Error, Room};
    ///
    /// let mut room = Room::open(2, 3, 4)?;
    /// room.put(1, 0, 66_825)?;
    /// assert_eq!(room.settle(1, 0)?, Some(66_825));
    /// assert_eq!(room.settle(1, 0)?, None);
    ///
    /// // Server 0 offers another command, but that one is settled.
    /// room.put(0, 0, 66_826)?;
    /// assert_eq!(room.settle(0, 0)?, Some(66_825));
    /// # Ok::<(), Error>(())
    /// ```
    ///
    /// # Errors
    ///
    /// Those of [`Room::next`], and then no step was taken.
    pub fn settle(&mut self, server: u32, slot: u32) -> Result<Option<u32>, Error> {
        while let Some(step) = next(self.row.as_mut(), server, slot)? {
            if let Answer::Committed(command) = self.step(step)? {
                return Ok(Some(command));
            }
        }
        Ok(None)
    }
}

/// The next step, from its record.
fn next(room: &[u32], server: u32, slot: u32) -> Result<Option<Step>, Error> {
    let mut record = [0; LONGEST_RECORD];
    match raw::next(room, server, slot, &mut record)? {
        0 => Ok(None),
        used => Step::read(&record[..used]).map(|(step, _)| Some(step)),
    }
}
