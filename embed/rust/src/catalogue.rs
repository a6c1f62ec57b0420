//! What a catalogue says of the pieces.

/// The number of pieces, and of a catalogue's cells.
pub const PIECES: usize = 64;

/// The cell of a piece that was struck. Every hoard is below it.
pub const STRUCK: u32 = 256;

/// What one server knows of the pieces.
#[derive(Clone, Copy, Debug, PartialEq, Eq)]
#[non_exhaustive]
pub struct Catalogue {
    /// A cell for each piece: its hoard, 0 if it has none, [`STRUCK`] if it was
    /// struck. [`Catalogue::entry`] tells them apart.
    pub cells: [u32; PIECES],
    /// How many commands were taken.
    pub taken: u32,
    /// How many of these were skipped.
    pub skipped: u32,
}

impl Catalogue {
    /// What is known of a piece, none where it is above 63.
    ///
    /// ```
    /// use register::{Entry, Room};
    ///
    /// let catalogue = Room::open(2, 3, 4)?.catalogue(0)?;
    /// assert_eq!(catalogue.entry(63), Some(Entry::Absent));
    /// assert_eq!(catalogue.entry(64), None);
    /// # Ok::<(), register::Error>(())
    /// ```
    #[must_use]
    pub fn entry(&self, piece: u8) -> Option<Entry> {
        self.cells.get(usize::from(piece)).copied().and_then(Entry::of)
    }
}

/// What a catalogue knows of one piece.
#[derive(Clone, Copy, Debug, PartialEq, Eq)]
pub enum Entry {
    /// It was not entered yet.
    Absent,
    /// It is in this hoard.
    Entered(u8),
    /// It was struck, and its number is not used again.
    Struck,
}

impl Entry {
    /// What a catalogue's cell says, none for a number that no catalogue holds.
    ///
    /// ```
    /// use register::{Entry, STRUCK};
    ///
    /// assert_eq!(Entry::of(255), Some(Entry::Entered(255)));
    /// assert_eq!(Entry::of(STRUCK), Some(Entry::Struck));
    /// assert_eq!(Entry::of(STRUCK + 1), None);
    /// ```
    #[must_use]
    pub fn of(cell: u32) -> Option<Entry> {
        match cell {
            0 => Some(Entry::Absent),
            STRUCK => Some(Entry::Struck),
            _ => u8::try_from(cell).ok().map(Entry::Entered),
        }
    }
}
