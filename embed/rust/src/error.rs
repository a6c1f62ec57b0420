//! The refusals.

use std::fmt;

/// Why a call was refused. A refused call changes no cell and no byte.
///
/// ```
/// use register::{Error, Room};
///
/// let error = Room::open(0, 3, 4).unwrap_err();
/// assert_eq!(error, Error::Sizes);
/// assert_eq!(error.number(), 1);
/// assert_eq!(error.to_string(), "the sizes fit no room: 1 to 4 servers, 1 to 7 drives, 1 to 16 slots (refusal 1)");
/// ```
#[derive(Clone, Copy, Debug, PartialEq, Eq, Hash)]
#[non_exhaustive]
pub enum Error {
    /// 1: sizes outside their range.
    Sizes,
    /// 2: a buffer of the wrong length.
    Length,
    /// 3: a cell out of range, or a row that is no room.
    Cells,
    /// 4: a server, slot or drive beyond the room, or the server itself as the other.
    Beyond,
    /// 5: a number that is not a command. It may be one in a room with other limits.
    NotACommand,
    /// 6: a number that is not a ballot of the server.
    NotItsBallot,
    /// 7: the server is in another phase.
    WrongPhase,
    /// 8: the drive is off.
    DriveOff,
    /// 9: the drive was not written in this phase.
    NotWritten,
    /// 10: no majority of drives. More than half of them is one, and so is
    /// exactly half with drive 0.
    NoMajority,
    /// 11: the ballot is not above those known.
    NotAbove,
    /// 12: there is no command to choose.
    NothingOffered,
    /// 13: outbid, and no ballot is left.
    NoBallotLeft,
    /// 14: a record that is cut short.
    CutShort,
    /// 15: a malformed record.
    Malformed,
    /// 16: the slot is not free for the server, which offers a command there or is
    /// in phase 3.
    NotFree,
    /// 17: no slot is free for the server.
    NoFreeSlot,
    /// 18: the limit of a cabinet is not 1 to 255.
    Limits,
    /// 19: the drives that are on form no majority.
    NoMajorityOn,
    /// A number that the register does not give.
    Unknown(u32),
}

/// Each refusal with its number and its text.
const TEXTS: [(Error, &str); 19] = [
    (Error::Sizes, "the sizes fit no room: 1 to 4 servers, 1 to 7 drives, 1 to 16 slots"),
    (Error::Length, "the length of the lent cells or bytes is wrong"),
    (Error::Cells, "the lent row is no room, or a cell of it is out of range"),
    (
        Error::Beyond,
        "a server, slot or drive is beyond the room, or the other server is the server itself",
    ),
    (Error::NotACommand, "the number is not a command, or the cabinet has no such hoard"),
    (Error::NotItsBallot, "the ballot is 0, above 1,000,000 or another server's"),
    (Error::WrongPhase, "the server is in a phase that does not allow this step"),
    (Error::DriveOff, "the drive is off"),
    (Error::NotWritten, "the drive was not written in this phase"),
    (
        Error::NoMajority,
        "no majority of drives was recalled, or written and read (half of them counts only with drive 0)",
    ),
    (Error::NotAbove, "the ballot is not above those that the server knows"),
    (Error::NothingOffered, "no command was seen and none is offered"),
    (Error::NoBallotLeft, "the server was outbid and has no ballot left"),
    (Error::CutShort, "the record is cut short"),
    (Error::Malformed, "the record is malformed"),
    (Error::NotFree, "the slot is not free: the server offers a command there or has settled it"),
    (Error::NoFreeSlot, "no slot is free for the server"),
    (Error::Limits, "the limit of a cabinet is not 1 to 255"),
    (
        Error::NoMajorityOn,
        "the on drives form no majority (half of them counts only with drive 0)",
    ),
];

impl Error {
    /// The refusal with this number.
    ///
    /// ```
    /// use register::Error;
    ///
    /// assert_eq!(Error::of(8), Error::DriveOff);
    /// assert_eq!(Error::of(99), Error::Unknown(99));
    /// ```
    #[must_use]
    pub fn of(number: u32) -> Error {
        let place = (number as usize).wrapping_sub(1);
        TEXTS.get(place).map_or(Error::Unknown(number), |&(error, _)| error)
    }

    /// The number of the refusal.
    #[must_use]
    pub fn number(self) -> u32 {
        match self {
            Error::Unknown(number) => number,
            _ => TEXTS
                .iter()
                .position(|&(error, _)| error == self)
                .map_or(0, |place| place as u32 + 1),
        }
    }

    /// What the refusal means.
    #[must_use]
    pub fn text(self) -> &'static str {
        TEXTS
            .iter()
            .find(|&&(error, _)| error == self)
            .map_or("an unknown refusal", |&(_, text)| text)
    }
}

impl fmt::Display for Error {
    fn fmt(&self, f: &mut fmt::Formatter<'_>) -> fmt::Result {
        write!(f, "{} (refusal {})", self.text(), self.number())
    }
}

impl std::error::Error for Error {}
