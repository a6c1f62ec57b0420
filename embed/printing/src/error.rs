//! The refusals.

use std::fmt;

/// Why a call was refused. A refused call leaves the list as it was.
///
/// ```
/// use printing::{hoard_list, Error};
///
/// let error = hoard_list(&[0; 63], &mut [0; 64]).unwrap_err();
/// assert_eq!(error, Error::Length);
/// assert_eq!(error.number(), 2);
/// assert_eq!(error.to_string(), "the catalogue or the list has not 64 cells (refusal 2)");
/// ```
#[derive(Clone, Copy, Debug, PartialEq, Eq, Hash)]
#[non_exhaustive]
pub enum Error {
    /// 2: a catalogue or a list of another length than 64.
    Length,
    /// 3: a cell of the catalogue above 256.
    Cells,
    /// A number that the library does not give.
    Unknown(u32),
}

impl Error {
    /// The refusal with this number.
    ///
    /// ```
    /// use printing::Error;
    ///
    /// assert_eq!(Error::of(3), Error::Cells);
    /// assert_eq!(Error::of(99), Error::Unknown(99));
    /// ```
    #[must_use]
    pub fn of(number: u32) -> Error {
        match number {
            2 => Error::Length,
            3 => Error::Cells,
            _ => Error::Unknown(number),
        }
    }

    /// The number of the refusal.
    #[must_use]
    pub fn number(self) -> u32 {
        match self {
            Error::Length => 2,
            Error::Cells => 3,
            Error::Unknown(number) => number,
        }
    }

    /// What the refusal means.
    #[must_use]
    pub fn text(self) -> &'static str {
        match self {
            Error::Length => "the catalogue or the list has not 64 cells",
            Error::Cells => "a cell of the catalogue is above 256",
            Error::Unknown(_) => "an unknown refusal",
        }
    }
}

impl fmt::Display for Error {
    fn fmt(&self, f: &mut fmt::Formatter<'_>) -> fmt::Result {
        write!(f, "{} (refusal {})", self.text(), self.number())
    }
}

impl std::error::Error for Error {}
