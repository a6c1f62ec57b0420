//! Commands: what an Offer or a put offers.

use std::fmt;

use crate::{Error, Limits, Room, Step, CABINETS};

/// The limits of a room in which every cabinet has every hoard.
const LARGEST: Limits = Limits::of([255; CABINETS]);

/// What a command asks for a piece.
#[derive(Clone, Copy, Debug, PartialEq, Eq, Hash)]
pub enum Kind {
    /// The piece comes into a hoard.
    Enter,
    /// The piece goes to another hoard.
    Move,
    /// The piece leaves its hoard, and its number is not used again.
    Strike,
}

/// A number that is a command where the cabinet is large enough: kind * 65,536 +
/// piece * 256 + hoard.
///
/// Whether a number is one is the library's to say: it is offered in a room of
/// its own, in which every cabinet has all hoards up to 255. Whether the piece's
/// cabinet has such a hoard is judged by the room in which the command is offered.
///
/// ```
/// use register::{Command, Error, Kind, Limits, Room};
///
/// let enter = Command::enter(5, 9)?;
/// assert_eq!(enter.number(), 66_825);
/// assert_eq!((enter.kind(), enter.piece(), enter.hoard()), (Kind::Enter, 5, Some(9)));
/// assert_eq!(Command::strike(5)?.hoard(), None);
/// assert_eq!(Command::enter(64, 1), Err(Error::NotACommand));
/// assert_eq!(Command::enter(63, 0), Err(Error::NotACommand));
///
/// // One command in two rooms: the last cabinet has 60 hoards, or 61.
/// let large = Limits::of([255, 255, 200, 200, 120, 120, 60, 61]);
/// let enter = Command::enter(63, 61)?.number();
/// assert_eq!(Room::open(1, 1, 1)?.put(0, 0, enter), Err(Error::NotACommand));
/// assert_eq!(Room::open_with(1, 1, 1, large)?.put(0, 0, enter), Ok(()));
/// # Ok::<(), Error>(())
/// ```
#[derive(Clone, Copy, Debug, PartialEq, Eq, PartialOrd, Ord, Hash)]
pub struct Command(u32);

impl Command {
    /// The piece enters a hoard.
    ///
    /// # Errors
    ///
    /// [`Error::NotACommand`] where the piece is above 63 or the hoard is 0.
    pub fn enter(piece: u8, hoard: u8) -> Result<Command, Error> {
        Command::of(number(1, piece, hoard))
    }

    /// The piece moves to another hoard.
    ///
    /// # Errors
    ///
    /// [`Error::NotACommand`] where the piece is above 63 or the hoard is 0.
    pub fn move_to(piece: u8, hoard: u8) -> Result<Command, Error> {
        Command::of(number(2, piece, hoard))
    }

    /// The piece is struck.
    ///
    /// # Errors
    ///
    /// [`Error::NotACommand`] where the piece is above 63.
    pub fn strike(piece: u8) -> Result<Command, Error> {
        Command::of(number(3, piece, 0))
    }

    /// The command that this number is.
    ///
    /// ```
    /// use register::{Command, Error};
    ///
    /// assert_eq!(Command::of(66_825)?.to_string(), "enter piece 5 hoard 9");
    /// assert_eq!(Command::of(0), Err(Error::NotACommand));
    /// # Ok::<(), Error>(())
    /// ```
    ///
    /// # Errors
    ///
    /// [`Error::NotACommand`] where it is none.
    pub fn of(number: u32) -> Result<Command, Error> {
        let mut room = Room::open_with(1, 1, 1, LARGEST)?;
        room.step(Step::Offer { server: 0, slot: 0, command: number })?;
        Ok(Command(number))
    }

    /// The number.
    #[must_use]
    pub fn number(self) -> u32 {
        self.0
    }

    /// What it asks for the piece.
    #[must_use]
    pub fn kind(self) -> Kind {
        match self.0 >> 16 {
            1 => Kind::Enter,
            2 => Kind::Move,
            _ => Kind::Strike,
        }
    }

    /// The piece.
    #[must_use]
    pub fn piece(self) -> u8 {
        (self.0 >> 8) as u8
    }

    /// The hoard, none for a strike.
    #[must_use]
    pub fn hoard(self) -> Option<u8> {
        (self.kind() != Kind::Strike).then_some(self.0 as u8)
    }
}

/// The number of a kind, a piece and a hoard.
fn number(kind: u32, piece: u8, hoard: u8) -> u32 {
    kind << 16 | u32::from(piece) << 8 | u32::from(hoard)
}

impl TryFrom<u32> for Command {
    type Error = Error;

    fn try_from(number: u32) -> Result<Command, Error> {
        Command::of(number)
    }
}

impl From<Command> for u32 {
    fn from(command: Command) -> u32 {
        command.number()
    }
}

impl fmt::Display for Command {
    fn fmt(&self, f: &mut fmt::Formatter<'_>) -> fmt::Result {
        let piece = self.piece();
        match (self.kind(), self.hoard()) {
            (Kind::Enter, Some(hoard)) => write!(f, "enter piece {piece} hoard {hoard}"),
            (Kind::Move, Some(hoard)) => write!(f, "move piece {piece} hoard {hoard}"),
            _ => write!(f, "strike piece {piece}"),
        }
    }
}
