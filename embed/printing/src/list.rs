//! What is printed of a catalogue: its entered pieces, hoard by hoard.

use crate::{raw, Error};

/// The number of pieces, and of the cells of a catalogue and of a list.
pub const PIECES: usize = 64;

/// The cell of a catalogue for a piece that was struck. Every hoard is below it.
pub const STRUCK: u32 = 256;

/// What stands in each cell of a list after its last piece.
pub const NO_PIECE: u32 = 64;

/// Fills `list` with the entered pieces of a catalogue, by rising hoard, and by rising
/// piece within a hoard; [`NO_PIECE`] stands after them. Answers how many there are.
///
/// # Errors
///
/// [`Error::Length`] where one of both has not [`PIECES`] cells, else [`Error::Cells`]
/// where a cell of the catalogue is above [`STRUCK`]. The list is then as it was.
#[inline]
pub fn hoard_list(catalogue: &[u32], list: &mut [u32]) -> Result<usize, Error> {
    raw::hoard_list(catalogue, list)
}

/// The entered pieces of a catalogue, in the order in which they are printed.
#[derive(Clone, Copy, Debug, PartialEq, Eq)]
pub struct HoardList {
    /// The pieces, of which the first `entered` are listed.
    pieces: [u8; PIECES],
    entered: usize,
    /// The hoard of each piece, 0 where it is in none.
    hoards: [u8; PIECES],
}

impl HoardList {
    /// The list of a catalogue.
    ///
    /// ```
    /// use printing::{Error, HoardList};
    ///
    /// assert_eq!(HoardList::of(&[0; 64])?.pieces(), []);
    /// assert_eq!(HoardList::of(&[257; 64]), Err(Error::Cells));
    /// # Ok::<(), Error>(())
    /// ```
    ///
    /// # Errors
    ///
    /// [`Error::Cells`] where a cell is above [`STRUCK`]. A catalogue that the register
    /// wrote has none.
    pub fn of(catalogue: &[u32; PIECES]) -> Result<HoardList, Error> {
        let mut list = [NO_PIECE; PIECES];
        let entered = hoard_list(catalogue, &mut list)?;
        // A piece is below 64 and what stands for none is 64. The last byte of a hoard
        // is the hoard, and that of STRUCK is 0.
        Ok(HoardList {
            pieces: list.map(|piece| piece as u8),
            entered,
            hoards: catalogue.map(|cell| cell as u8),
        })
    }

    /// All entered pieces, by rising hoard, and by rising piece within a hoard.
    #[must_use]
    pub fn pieces(&self) -> &[u8] {
        &self.pieces[..self.entered]
    }

    /// Each hoard that has a piece, with all of its pieces; both rise.
    pub fn hoards(&self) -> impl Iterator<Item = (u8, &[u8])> {
        let hoard_of = |piece: u8| self.hoards[usize::from(piece)];
        let runs = self.pieces().chunk_by(move |&one, &next| hoard_of(one) == hoard_of(next));
        runs.map(move |pieces| (hoard_of(pieces[0]), pieces))
    }
}
