//! Ask and Put: the lowest slot that is free for a server, and an offer in a
//! slot that is.

use crate::refusal;
use crate::room::{has_command, judge};
use crate::server::Server;

/// The lowest slot that is free for `server`. No cell changes.
pub fn ask(room: &[u32], server: u32) -> Result<u32, u32> {
    let sizes = judge(room).ok_or(refusal::RANGE)?;
    let server = server as usize;
    if server >= sizes.servers {
        return Err(refusal::BEYOND);
    }
    let lowest =
        (0..sizes.slots).find(|&slot| Server::load(room, sizes.server_at(slot, server)).is_free());
    lowest.map(|slot| slot as u32).ok_or(refusal::NO_FREE_SLOT)
}

/// Offers `command` as the step Offer does, but only in a slot that is free for
/// `server`.
pub fn put(room: &mut [u32], server: u32, slot: u32, command: u32) -> Result<(), u32> {
    let sizes = judge(room).ok_or(refusal::RANGE)?;
    let (server, slot) = (server as usize, slot as usize);
    if server >= sizes.servers || slot >= sizes.slots {
        return Err(refusal::BEYOND);
    }
    if !has_command(room, command) {
        return Err(refusal::NOT_A_COMMAND);
    }
    let at = sizes.server_at(slot, server);
    let own = Server::load(room, at);
    if !own.is_free() {
        return Err(refusal::NOT_FREE);
    }
    own.offering(command).store(room, at);
    Ok(())
}
