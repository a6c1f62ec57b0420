//! One call that was made.

use register::{Answer, Block, Error, Room, Server, Step};

use super::places::{places, Places};
use crate::scenario::{Call, Sizes};

/// What a call answered.
#[derive(Clone, Copy, Debug, PartialEq, Eq)]
pub enum Reply {
    /// The answer of a step, and the done of a Put.
    Answer(Answer),
    /// The slot that an Ask named.
    Slot(u32),
    /// The call was refused and changed nothing.
    Refused(Error),
}

/// The records that a call concerns, at one moment.
#[derive(Clone, Debug, PartialEq, Eq)]
pub struct Seen {
    /// Bit d: drive d is off.
    pub off: u32,
    /// The server's record with its slot: one, or those of all slots where it fails or asks.
    pub servers: Vec<(u32, Server)>,
    /// The block that is recalled, written or read.
    pub block: Option<Block>,
}

/// A call that was made, and what it did.
#[derive(Clone, Debug, PartialEq, Eq)]
pub struct Event {
    /// Its number in the run, from 1.
    pub number: usize,
    /// Its line in the scenario.
    pub line: usize,
    /// The call.
    pub call: Call,
    /// What it answered.
    pub reply: Reply,
    /// What it concerns, before it.
    pub before: Seen,
    /// The same, after it.
    pub after: Seen,
}

impl Event {
    /// The places that it names.
    pub fn places(&self) -> Places {
        places(self.call)
    }

    /// The server that makes the call.
    pub fn server(&self) -> Option<u32> {
        self.places().server
    }

    /// The slot that it is about, for an Ask the one that it named.
    pub fn slot(&self) -> Option<u32> {
        match self.reply {
            Reply::Slot(slot) => Some(slot),
            _ => self.places().slot,
        }
    }

    /// The drive that it is about.
    pub fn drive(&self) -> Option<u32> {
        self.places().drive
    }

    /// The server whose block it recalls, writes or reads.
    pub fn owner(&self) -> Option<u32> {
        self.places().owner
    }

    /// The server's record in a slot, before and after, where the call concerns it.
    pub fn records(&self, slot: u32) -> Option<(&Server, &Server)> {
        let at = self.before.servers.iter().position(|&(place, _)| place == slot)?;
        Some((&self.before.servers[at].1, &self.after.servers.get(at)?.1))
    }

    /// The server's own ballot after it.
    pub fn own_ballot(&self) -> u32 {
        self.after.servers.first().map_or(0, |(_, server)| server.own.mbal)
    }

    /// Why it was refused, none where it was not.
    pub fn refused(&self) -> Option<Error> {
        match self.reply {
            Reply::Refused(error) => Some(error),
            _ => None,
        }
    }

    /// Whether it is about every slot: a Fail, or the switch of a drive.
    pub fn is_about_all(&self) -> bool {
        let Call::Step(step) = self.call else { return false };
        matches!(step, Step::Fail { .. } | Step::DriveOff { .. } | Step::DriveOn { .. })
    }

    /// Whether it wrote a block.
    pub fn wrote(&self) -> bool {
        matches!(self.call, Call::Step(Step::Write { .. })) && self.refused().is_none()
    }

    /// Whether it recalled or read a block.
    pub fn met(&self) -> bool {
        matches!(self.call, Call::Step(Step::Recall { .. } | Step::Read { .. }))
            && self.refused().is_none()
    }
}

/// What a call concerns, as the room stands.
pub fn seen(room: &Room, sizes: Sizes, call: Call) -> Seen {
    let off = off_marks(room);
    Seen { off, servers: servers(room, sizes, call), block: block(room, call) }
}

/// The off marks: the fourth cell of a room.
pub fn off_marks(room: &Room) -> u32 {
    room.cells().get(3).copied().unwrap_or(0)
}

/// The records of the server that makes the call: the one in the slot that it names, or those of
/// all slots.
fn servers(room: &Room, sizes: Sizes, call: Call) -> Vec<(u32, Server)> {
    let Places { server, slot, .. } = places(call);
    let slots = slot.map_or(0..sizes.slots, |slot| slot..slot + 1);
    let records = slots.filter_map(|slot| Some((slot, room.server(server?, slot)?)));
    records.collect()
}

/// The block that a call is about.
fn block(room: &Room, call: Call) -> Option<Block> {
    let Places { slot, drive, owner, .. } = places(call);
    room.block(owner?, slot?, drive?)
}
