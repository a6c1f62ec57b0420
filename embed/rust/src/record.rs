//! Step records: a step as bytes.

use crate::raw;
use crate::{Error, Step};

/// The bytes of the longest record.
pub const LONGEST_RECORD: usize = 8;

/// The record of a step.
///
/// ```
/// use register::{Record, Step};
///
/// let record = Record::of(Step::Write { server: 1, slot: 0, drive: 2 });
/// assert_eq!(record.bytes(), [0x05, 0x05, 1, 2]);
/// ```
#[derive(Clone, Copy, Debug, PartialEq, Eq)]
pub struct Record {
    bytes: [u8; LONGEST_RECORD],
    length: usize,
}

impl Record {
    /// The record of a step.
    #[must_use]
    pub fn of(step: Step) -> Record {
        let mut bytes = [0; LONGEST_RECORD];
        // The buffer is long enough for any record.
        let length = step.write(&mut bytes).unwrap_or(0);
        Record { bytes, length }
    }

    /// Its bytes.
    #[must_use]
    pub fn bytes(&self) -> &[u8] {
        &self.bytes[..self.length]
    }
}

impl Step {
    /// Writes the step's record at the start of `buffer`; the length used. Later
    /// bytes are left alone.
    ///
    /// ```
    /// use register::{Error, Step};
    ///
    /// let mut buffer = [7; 4];
    /// assert_eq!(Step::Finish { server: 0, slot: 3 }.write(&mut buffer), Ok(3));
    /// assert_eq!(buffer, [0x02, 0x07, 3, 7]);
    /// assert_eq!(Step::Finish { server: 1, slot: 3 }.write(&mut buffer[..3]), Err(Error::Length));
    /// ```
    ///
    /// # Errors
    ///
    /// [`Error::Length`] where the record does not fit; [`LONGEST_RECORD`] bytes
    /// are always enough.
    #[inline]
    pub fn write(self, buffer: &mut [u8]) -> Result<usize, Error> {
        raw::write(self.fields(), buffer)
    }

    /// Reads the record at the start of `bytes`: the step, and the length used.
    ///
    /// ```
    /// use register::{Error, Step};
    ///
    /// let bytes = [0x02, 0x07, 3, 0x01, 0x08];
    /// assert_eq!(Step::read(&bytes), Ok((Step::Finish { server: 0, slot: 3 }, 3)));
    /// assert_eq!(Step::read(&bytes[3..]), Err(Error::CutShort));
    /// assert_eq!(Step::read(&[0x04, 0x07, 3]), Err(Error::Malformed));
    /// ```
    ///
    /// # Errors
    ///
    /// [`Error::CutShort`] and [`Error::Malformed`].
    #[inline]
    pub fn read(bytes: &[u8]) -> Result<(Step, usize), Error> {
        let (fields, length) = raw::fields(bytes)?;
        Ok((Step::of_fields(fields), length))
    }
}
