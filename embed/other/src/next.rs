//! Next: the step that a server takes where it is alone in a slot, and the most
//! steps that it then needs.

use crate::ballots::least_own_above;
use crate::records::write_record;
use crate::refusal;
use crate::room::{judge, Sizes, OFF};
use crate::server::{is_majority, Block, Server};
use crate::steps::Step;

/// The next step of `server` in `slot`, none where it has settled the slot, where
/// that step would be refused, or where it has no ballot left. No cell changes.
pub fn next(room: &[u32], server: u32, slot: u32) -> Result<Option<Step>, u32> {
    let sizes = judge(room).ok_or(refusal::RANGE)?;
    let (server, slot) = (server as usize, slot as usize);
    if server >= sizes.servers || slot >= sizes.slots {
        return Err(refusal::BEYOND);
    }
    let used = used_drives(room[OFF], sizes.drives).ok_or(refusal::NO_MAJORITY_ON)?;
    let own = Server::load(room, sizes.server_at(slot, server));
    let alone = Alone { room, sizes, server, slot, used, own };
    Ok(match own.phase {
        0 => alone.recall_or_rejoin(),
        1 | 2 => alone.complete_or_finish(),
        _ => None,
    })
}

/// Writes the record of the next step at the start of `bytes` and answers its
/// length, none where there is no next step.
pub fn next_record(
    room: &[u32],
    server: u32,
    slot: u32,
    bytes: &mut [u8],
) -> Result<Option<usize>, u32> {
    next(room, server, slot)?.map(|step| write_record(step, bytes)).transpose()
}

/// The marks of the drives that are used: those that are on, by rising number, up to
/// the first majority. None where all that are on are no majority.
pub fn used_drives(off: u32, drives: usize) -> Option<u32> {
    let mut used = 0;
    for drive in (0..drives).filter(|drive| off >> drive & 1 == 0) {
        used |= 1 << drive;
        if is_majority(used, drives) {
            return Some(used);
        }
    }
    None
}

/// The most steps to commit for a server that has just failed and then offered a
/// command, that is alone, and that uses `used` drives: of a slot where no mbal on a
/// drive is above 999,990, in a room of so many servers.
pub fn most_steps(used: u32, servers: u32) -> u32 {
    3 + used + 2 * used * servers + used * used * servers * (servers - 1)
}

/// A server that takes the next step, in its slot, on the drives marked in `used`.
struct Alone<'a> {
    room: &'a [u32],
    sizes: Sizes,
    server: usize,
    slot: usize,
    used: u32,
    own: Server,
}

impl Alone<'_> {
    /// Phase 0: recalls the used drives, then rejoins with the least ballot above top.
    fn recall_or_rejoin(&self) -> Option<Step> {
        let (server, slot) = (self.server as u8, self.slot as u8);
        let recalled = self.own.recalled(self.server, self.sizes.drives);
        if let Some(drive) = lowest(self.used & !recalled) {
            return Some(Step::Recall { server, slot, drive: drive as u8 });
        }
        self.own_above(self.own.top).map(|number| Step::Rejoin { server, slot, number })
    }

    /// Phases 1 and 2: completes the used drives one after the other, then finishes.
    fn complete_or_finish(&self) -> Option<Step> {
        let (server, slot) = (self.server as u8, self.slot as u8);
        let Sizes { servers, drives, .. } = self.sizes;
        let completed = self.own.completed(self.server, servers, drives);
        match lowest(self.used & !completed) {
            Some(drive) if self.own.written >> drive & 1 == 0 => {
                Some(Step::Write { server, slot, drive: drive as u8 })
            }
            Some(drive) => self.read(drive),
            // A Finish in phase 1 needs a command.
            None if self.own.phase == 1 && self.own.seeninp == 0 && self.own.offer == 0 => None,
            None => Some(Step::Finish { server, slot }),
        }
    }

    /// The Read of the lowest other server that was not read on the drive. One that
    /// finds no command and leaves no own ballot would be refused.
    fn read(&self, drive: usize) -> Option<Step> {
        let others = ((1 << self.sizes.servers) - 1) & !(1 << self.server);
        let other = lowest(others & !(self.own.read >> (4 * drive)))?;
        let found = Block::load(self.room, self.sizes.block_at(self.slot, drive, other));
        if found.done == 0 && found.mbal >= self.own.mbal {
            self.own_above(found.mbal)?;
        }
        let (server, slot) = (self.server as u8, self.slot as u8);
        Some(Step::Read { server, slot, drive: drive as u8, other: other as u8 })
    }

    /// The server's least ballot above one.
    fn own_above(&self, ballot: u32) -> Option<u32> {
        least_own_above(ballot, self.server as u32, self.sizes.servers as u32)
    }
}

/// The lowest number that is marked.
fn lowest(marks: u32) -> Option<usize> {
    (marks != 0).then(|| marks.trailing_zeros() as usize)
}
