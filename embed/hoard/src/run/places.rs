//! The places that a call names.

use register::Step;

use crate::scenario::Call;

/// The places that a call names, each none where it names no such.
#[derive(Clone, Copy, Debug, Default, PartialEq, Eq)]
pub struct Places {
    /// The server that makes the call.
    pub server: Option<u32>,
    /// The slot.
    pub slot: Option<u32>,
    /// The drive.
    pub drive: Option<u32>,
    /// The server whose block is recalled, written or read.
    pub owner: Option<u32>,
}

/// The places that a call names.
pub fn places(call: Call) -> Places {
    match call {
        Call::Ask { server } => Places { server: Some(server.into()), ..Places::default() },
        Call::Put { server, slot, .. } => in_slot(server, slot),
        Call::Step(step) => match step {
            Step::Offer { server, slot, .. }
            | Step::Rejoin { server, slot, .. }
            | Step::Bid { server, slot, .. }
            | Step::Finish { server, slot } => in_slot(server, slot),
            Step::Recall { server, slot, drive } | Step::Write { server, slot, drive } => {
                on_drive(server, slot, drive, server)
            }
            Step::Read { server, slot, drive, other } => on_drive(server, slot, drive, other),
            Step::Fail { server } => Places { server: Some(server.into()), ..Places::default() },
            Step::DriveOff { drive } | Step::DriveOn { drive } => {
                Places { drive: Some(drive.into()), ..Places::default() }
            }
        },
    }
}

/// A server in a slot.
fn in_slot(server: u8, slot: u8) -> Places {
    Places { server: Some(server.into()), slot: Some(slot.into()), ..Places::default() }
}

/// A server in a slot, and a block on a drive.
fn on_drive(server: u8, slot: u8, drive: u8, owner: u8) -> Places {
    Places { drive: Some(drive.into()), owner: Some(owner.into()), ..in_slot(server, slot) }
}
