//! The catalogue: what a server's outputs make of the pieces.

use crate::commands::{hoard, kind, piece, Kind};
use crate::refusal;
use crate::room::judge;
use crate::server::Server;

/// The number of pieces, and of the cells that a catalogue fills.
pub const PIECES: usize = 64;

/// The cell of a piece that was struck. Every hoard is below it.
pub const STRUCK: u32 = 256;

/// Fills `out` with the hoard of each piece, as server `server` knows it: 0
/// where the piece has none, [`STRUCK`] where it was struck.
/// Answers how many commands were taken and how many of these were skipped.
pub fn catalogue(room: &[u32], server: u32, out: &mut [u32]) -> Result<(u32, u32), u32> {
    if out.len() != PIECES {
        return Err(refusal::LENGTH);
    }
    let sizes = judge(room).ok_or(refusal::RANGE)?;
    if server as usize >= sizes.servers {
        return Err(refusal::BEYOND);
    }
    out.fill(0);
    let (mut taken, mut skipped) = (0, 0);
    for slot in 0..sizes.slots {
        let record = Server::load(room, sizes.server_at(slot, server as usize));
        let Some(command) = record.output() else {
            break;
        };
        taken += 1;
        if !apply(out, command) {
            skipped += 1;
        }
    }
    Ok((taken, skipped))
}

/// Does one command to its cell. False where the command is skipped.
fn apply(out: &mut [u32], command: u32) -> bool {
    let cell = &mut out[piece(command) as usize];
    let entered = (1..STRUCK).contains(cell);
    match kind(command) {
        Some(Kind::Enter) if *cell == 0 => *cell = hoard(command),
        Some(Kind::Move) if entered => *cell = hoard(command),
        Some(Kind::Strike) if entered => *cell = STRUCK,
        _ => return false,
    }
    true
}
