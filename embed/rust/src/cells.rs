//! Where a server's record and a block stand in a room, and what they and the limits
//! hold.

use crate::raw;
use crate::{Limits, Room};

/// The first cell of the limits, after the sizes and the off marks.
const LIMITS: usize = 4;

/// The first cell of a server's record in a slot, none where the sizes do not fit
/// or the place is beyond the room.
///
/// ```
/// assert_eq!(register::server_at(2, 3, 4, 1, 0), Some(23));
/// assert_eq!(register::server_at(2, 3, 4, 2, 0), None);
/// ```
#[must_use]
pub fn server_at(servers: u32, drives: u32, slots: u32, server: u32, slot: u32) -> Option<usize> {
    place(raw::server_at(servers, drives, slots, server, slot))
}

/// The first cell of a server's block on a drive in a slot, none where the sizes
/// do not fit or the place is beyond the room.
///
/// ```
/// assert_eq!(register::block_at(2, 3, 4, 1, 0, 2), Some(54));
/// assert_eq!(register::block_at(2, 3, 4, 1, 0, 3), None);
/// ```
#[must_use]
pub fn block_at(
    servers: u32,
    drives: u32,
    slots: u32,
    server: u32,
    slot: u32,
    drive: u32,
) -> Option<usize> {
    place(raw::block_at(servers, drives, slots, server, slot, drive))
}

/// A place as the library answers it: 0 is none, since a room's head stands there.
fn place(at: u32) -> Option<usize> {
    (at != 0).then_some(at as usize)
}

/// What a server knows in a slot: the cells of its record.
#[derive(Clone, Copy, Debug, PartialEq, Eq, Hash)]
#[non_exhaustive]
pub struct Server {
    /// 0 after a failure, 1 and 2 on the way, 3 settled.
    pub phase: u32,
    /// The own ballots and command, which a Write puts into the server's block.
    pub own: Own,
    /// The command offered, 0 if none.
    pub offer: u32,
    /// The largest ballot recalled in phase 0.
    pub top: u32,
    /// The best ballot of a block met in this phase.
    pub seenbal: u32,
    /// The command that came with it.
    pub seeninp: u32,
    /// Bit d: drive d was written in this phase.
    pub written: u32,
    /// Bit 4d + q: server q's block on drive d was read in this phase.
    pub read: u32,
    /// The command that was settled, 0 if the server has settled and learned none.
    /// In phase 3 it is what the catalogue takes from the slot.
    pub agreed: u32,
}

/// The ballots and the command of a server in a slot.
#[derive(Clone, Copy, Debug, PartialEq, Eq, Hash)]
#[non_exhaustive]
pub struct Own {
    /// The current ballot.
    pub mbal: u32,
    /// The last ballot in which phase 2 began.
    pub bal: u32,
    /// The command tried in it.
    pub inp: u32,
}

/// What a server has on a drive in a slot: the cells of a block.
#[derive(Clone, Copy, Debug, PartialEq, Eq, Hash)]
#[non_exhaustive]
pub struct Block {
    /// The current ballot.
    pub mbal: u32,
    /// The last ballot in which phase 2 began.
    pub bal: u32,
    /// The command tried in it.
    pub inp: u32,
    /// The command that was settled, 0 if the block does not tell it. Whoever reads
    /// it here learns it.
    pub done: u32,
}

impl<R: AsRef<[u32]>> Room<R> {
    /// The limits of the room's cabinets, as the cells have them; none where the row is
    /// too short. The cells are not judged.
    ///
    /// ```
    /// use register::{Limits, Room};
    ///
    /// assert_eq!(Room::open(2, 3, 4)?.limits(), Some(Limits::default()));
    /// assert_eq!(Room::over([0; 11]).limits(), None);
    /// # Ok::<(), register::Error>(())
    /// ```
    #[must_use]
    pub fn limits(&self) -> Option<Limits> {
        self.cells().get(LIMITS..)?.first_chunk().copied().map(Limits::of)
    }

    /// What a server knows in a slot, as the cells have it; none where there is no
    /// such server or slot. The cells are not judged.
    ///
    /// ```
    /// use register::{Error, Room, Step};
    ///
    /// let mut room = Room::open(2, 3, 4)?;
    /// room.step(Step::Offer { server: 1, slot: 3, command: 66_825 })?;
    /// assert_eq!(room.server(1, 3).map(|server| server.offer), Some(66_825));
    /// assert_eq!(room.server(2, 3), None);
    /// # Ok::<(), Error>(())
    /// ```
    #[must_use]
    pub fn server(&self, server: u32, slot: u32) -> Option<Server> {
        let &[servers, drives, slots, ..] = self.cells() else { return None };
        let at = server_at(servers, drives, slots, server, slot)?;
        let &[phase, mbal, bal, inp, offer, top, seenbal, seeninp, written, read, agreed] =
            self.cells().get(at..)?.first_chunk()?;
        let own = Own { mbal, bal, inp };
        Some(Server { phase, own, offer, top, seenbal, seeninp, written, read, agreed })
    }

    /// What a server has on a drive in a slot, as the cells have it; none where
    /// there is no such server, slot or drive. The cells are not judged.
    ///
    /// ```
    /// use register::{Error, Room};
    ///
    /// let room = Room::open(2, 3, 4)?;
    /// assert_eq!(room.block(1, 3, 2).map(|block| block.mbal), Some(0));
    /// assert_eq!(room.block(1, 3, 3), None);
    /// # Ok::<(), Error>(())
    /// ```
    #[must_use]
    pub fn block(&self, server: u32, slot: u32, drive: u32) -> Option<Block> {
        let &[servers, drives, slots, ..] = self.cells() else { return None };
        let at = block_at(servers, drives, slots, server, slot, drive)?;
        let &[mbal, bal, inp, done] = self.cells().get(at..)?.first_chunk()?;
        Some(Block { mbal, bal, inp, done })
    }
}
