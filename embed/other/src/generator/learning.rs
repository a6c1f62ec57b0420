//! How often servers tell what is settled, and how often others learn it.

use super::replay::Taken;
use crate::room::Sizes;
use crate::server::{Block, Server};
use crate::steps::{Answer, Step};
use crate::{least_own_above, refusal};

/// What became of the cell done, over many steps.
#[derive(Clone, Debug, Default)]
pub struct Learning {
    /// Writes in phase 3, with what is settled.
    pub told: u64,
    /// Writes in phase 1 or 2 over a block that told it.
    pub untold: u64,
    /// Recalls of a block that tells it.
    pub recalled: u64,
    /// Reads that learned it.
    pub learned: u64,
    /// Of these, from a block whose ballot is not below the own one.
    pub not_outbid: u64,
    /// Of these again, where no own ballot above that one was left.
    pub not_refused: u64,
}

impl Learning {
    /// Counts a step.
    pub fn count(&mut self, taken: &Taken) {
        let &Taken { sizes, before, step, answer } = taken;
        match (step, answer) {
            (_, Answer::Refused(_)) => {}
            (Step::Write { server, slot, drive }, _) => {
                let own = own_in(before, sizes, server, slot);
                let old = block_in(before, sizes, server, slot, drive);
                self.told += u64::from(own.phase == 3 && own.agreed != 0);
                self.untold += u64::from(own.phase != 3 && old.done != 0);
            }
            (Step::Recall { server, slot, drive }, _) => {
                let old = block_in(before, sizes, server, slot, drive);
                self.recalled += u64::from(old.done != 0);
            }
            (Step::Read { server, slot, drive, other }, Answer::Committed(_)) => {
                self.learned += 1;
                let own = own_in(before, sizes, server, slot);
                let found = block_in(before, sizes, other, slot, drive);
                let servers = sizes.servers as u32;
                let least = least_own_above(found.mbal, server.into(), servers);
                let over = found.mbal >= own.mbal;
                self.not_outbid += u64::from(over);
                self.not_refused += u64::from(over && least.is_none());
            }
            _ => {}
        }
    }

    /// The least of the counts.
    pub fn least(&self) -> u64 {
        let writes = self.told.min(self.untold).min(self.recalled);
        writes.min(self.learned).min(self.not_outbid).min(self.not_refused)
    }

    /// A line for the Writes and the Recalls, and one for the Reads.
    pub fn report(&self) -> String {
        let Learning { told, untold, recalled, learned, not_outbid, not_refused } = self;
        let refusal = refusal::NO_BALLOT_LEFT;
        format!(
            "settled commands told by a Write {told}, written over {untold}, recalled {recalled}\n\
             learned by a Read {learned}, of these in place of outbid {not_outbid}, \
             of refused {refusal} {not_refused}\n"
        )
    }
}

/// The record of the server of an accepted step.
fn own_in(room: &[u32], sizes: Sizes, server: u8, slot: u8) -> Server {
    Server::load(room, sizes.server_at(slot.into(), server.into()))
}

/// A block that an accepted step reads or writes.
fn block_in(room: &[u32], sizes: Sizes, server: u8, slot: u8, drive: u8) -> Block {
    Block::load(room, sizes.block_at(slot.into(), drive.into(), server.into()))
}
