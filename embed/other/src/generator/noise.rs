//! Steps of any kind. Most name parts of the room; their phase, drive, ballot
//! or command is often wrong.

use super::chance::Chance;
use crate::commands::cabinet;
use crate::room::{limits_of, Sizes};
use crate::server::Server;
use crate::steps::Step;
use crate::{least_own_above, BALLOT_LIMIT};

/// A step of any kind, for a room with these sizes. Its slot is `slot` more
/// often than another, and its commands are of `pieces` more often than not.
pub fn any_step(
    chance: &mut Chance,
    room: &[u32],
    sizes: Sizes,
    slot: usize,
    pieces: &[u32],
) -> Step {
    let kind = chance.from_to(1, 10);
    let near = if chance.one_in(3) { chance.place(sizes.slots) } else { slot };
    let server = byte(chance, sizes.servers);
    let slot = if chance.one_in(40) { byte(chance, sizes.slots) } else { near as u8 };
    let drive = byte(chance, sizes.drives);
    let other = byte(chance, sizes.servers);
    match kind {
        1 => Step::Offer { server, slot, number: any_command(chance, room, pieces) },
        2 => Step::Recall { server, slot, drive },
        3 => Step::Rejoin { server, slot, number: any_ballot(chance, room, sizes, server, slot) },
        4 => Step::Bid { server, slot, number: any_ballot(chance, room, sizes, server, slot) },
        5 => Step::Write { server, slot, drive },
        6 => Step::Read { server, slot, drive, other },
        7 => Step::Finish { server, slot },
        // Fail and DriveOff undo the work of others, so they are rarer.
        8 if chance.one_in(4) => Step::Fail { server },
        9 if chance.one_in(2) => Step::DriveOff { drive },
        _ => Step::DriveOn { drive },
    }
}

/// A number below `size`, now and then one that is not.
fn byte(chance: &mut Chance, size: usize) -> u8 {
    if chance.one_in(40) {
        let beyond = [size as u8, size as u8 + 1, 16, 127, 128, 255];
        chance.one_of(&beyond)
    } else {
        chance.place(size) as u8
    }
}

/// A command of the room, now and then a number that is none.
pub(super) fn any_command(chance: &mut Chance, room: &[u32], pieces: &[u32]) -> u32 {
    match chance.below(8) {
        0 => wrong_command(chance),
        1 => {
            // The largest hoard of the piece's cabinet, or the one above it.
            let piece = chance.below(64);
            let first = chance.from_to(1, 2) << 16 | piece << 8;
            first.wrapping_add(limit(room, piece)).wrapping_add(chance.below(2))
        }
        _ => good_command(chance, room, pieces),
    }
}

/// The limit of a piece's cabinet. In a row that is no room it may be any number.
fn limit(room: &[u32], piece: u32) -> u32 {
    limits_of(room).map_or(0, |limits| limits[cabinet(piece)])
}

/// A number that is no command, or is only by luck.
fn wrong_command(chance: &mut Chance) -> u32 {
    match chance.below(3) {
        0 => chance.one_of(&[0, 1, 65_536, 65_535, 81_725, 196_609, 196_607, 262_144, u32::MAX]),
        1 => chance.from_to(1, 3) << 16 | chance.from_to(64, 255) << 8 | chance.below(256),
        _ => chance.draw() as u32,
    }
}

/// A command of the room for one of `pieces`. Few hoards, so that commands meet.
pub(super) fn good_command(chance: &mut Chance, room: &[u32], pieces: &[u32]) -> u32 {
    let piece = chance.one_of(pieces);
    let largest = limit(room, piece).clamp(1, 60);
    match chance.below(5) {
        0 | 1 => 1 << 16 | piece << 8 | chance.from_to(1, largest),
        2 | 3 => 2 << 16 | piece << 8 | chance.from_to(1, largest),
        _ => 3 << 16 | piece << 8,
    }
}

/// A ballot near those of the server in the slot, or a number that is none.
fn any_ballot(chance: &mut Chance, room: &[u32], sizes: Sizes, server: u8, slot: u8) -> u32 {
    let (at, p) = (slot as usize, server as usize);
    if at >= sizes.slots || p >= sizes.servers || chance.one_in(8) {
        let edges = [0, BALLOT_LIMIT, BALLOT_LIMIT + 1, BALLOT_LIMIT + 2, u32::MAX];
        return if chance.one_in(2) { chance.one_of(&edges) } else { chance.from_to(1, 40) };
    }
    let own = Server::load(room, sizes.server_at(at, p));
    let known = own.mbal.max(own.top);
    match chance.below(4) {
        // Any owner, a little above or below.
        0 => (known + 3).saturating_sub(chance.below(8)),
        // The own ballot once more, or the one before it.
        1 => known.saturating_sub(chance.below(2) * sizes.servers as u32),
        _ => least_own_above(known, p as u32, sizes.servers as u32).unwrap_or(BALLOT_LIMIT),
    }
}
