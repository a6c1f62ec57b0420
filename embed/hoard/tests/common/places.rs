//! The places that a call names.

use other::generator::Call;
use other::Step;

/// The places that a call names, each none where it names no such.
#[derive(Clone, Copy, Debug, Default, PartialEq, Eq)]
pub struct Places {
    /// The server that makes the call.
    pub server: Option<u32>,
    /// The slot.
    pub slot: Option<u32>,
    /// The drive.
    pub drive: Option<u32>,
    /// The server whose block is recalled, written or read.
    pub owner: Option<u32>,
}

/// The places that a call names.
pub fn places(call: Call) -> Places {
    match call {
        Call::Step(step) => of_step(step),
        Call::Ask { server } => Places { server: Some(server), ..Places::default() },
        Call::Put { server, slot, .. } => {
            Places { server: Some(server), slot: Some(slot), ..Places::default() }
        }
    }
}

/// The places that a step names.
fn of_step(step: Step) -> Places {
    let place = |server: u8, slot: u8| Places {
        server: Some(server.into()),
        slot: Some(slot.into()),
        ..Places::default()
    };
    let there = |server, slot, drive: u8, owner: u8| Places {
        drive: Some(drive.into()),
        owner: Some(owner.into()),
        ..place(server, slot)
    };
    match step {
        Step::Offer { server, slot, .. }
        | Step::Rejoin { server, slot, .. }
        | Step::Bid { server, slot, .. }
        | Step::Finish { server, slot } => place(server, slot),
        Step::Recall { server, slot, drive } | Step::Write { server, slot, drive } => {
            there(server, slot, drive, server)
        }
        Step::Read { server, slot, drive, other } => there(server, slot, drive, other),
        Step::Fail { server } => Places { server: Some(server.into()), ..Places::default() },
        Step::DriveOff { drive } | Step::DriveOn { drive } => {
            Places { drive: Some(drive.into()), ..Places::default() }
        }
    }
}
