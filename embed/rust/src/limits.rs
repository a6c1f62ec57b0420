//! The limits of a museum's cabinets.

/// The number of cabinets. Cabinet c has the pieces from 8c to 8c + 7.
pub const CABINETS: usize = 8;

/// The largest hoard of each cabinet. A room is opened with eight, by which its
/// commands are judged from then on; [`Limits::default`] has the usual ones.
///
/// Any numbers can stand here: the room is refused with
/// [`Error::Limits`](crate::Error::Limits) where one is not 1 to 255.
///
/// ```
/// use register::{Error, Limits, Room};
///
/// assert_eq!(Limits::default().numbers(), [255, 255, 200, 200, 120, 120, 60, 60]);
///
/// // The last cabinet of this museum is larger, and so piece 63 can enter hoard 61.
/// let own = Limits::of([255, 255, 200, 200, 120, 120, 60, 90]);
/// let mut room = Room::open_with(2, 3, 4, own)?;
/// assert_eq!(room.put(0, 0, 81_725), Ok(()));
/// assert_eq!(Room::open(2, 3, 4)?.put(0, 0, 81_725), Err(Error::NotACommand));
///
/// assert_eq!(Room::open_with(2, 3, 4, Limits::of([0; 8])), Err(Error::Limits));
/// # Ok::<(), Error>(())
/// ```
#[derive(Clone, Copy, Debug, PartialEq, Eq, Hash)]
pub struct Limits([u32; CABINETS]);

impl Limits {
    /// These limits, that of cabinet 0 first.
    #[must_use]
    pub const fn of(limits: [u32; CABINETS]) -> Limits {
        Limits(limits)
    }

    /// The eight numbers.
    #[must_use]
    pub const fn numbers(self) -> [u32; CABINETS] {
        self.0
    }
}

impl Default for Limits {
    fn default() -> Limits {
        Limits([255, 255, 200, 200, 120, 120, 60, 60])
    }
}

impl From<[u32; CABINETS]> for Limits {
    fn from(limits: [u32; CABINETS]) -> Limits {
        Limits(limits)
    }
}

impl From<Limits> for [u32; CABINETS] {
    fn from(limits: Limits) -> [u32; CABINETS] {
        limits.numbers()
    }
}
