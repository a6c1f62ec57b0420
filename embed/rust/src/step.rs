//! Steps and their answers.

use crate::raw::Fields;
use crate::Error;

/// One of the ten steps. A server, a slot and a drive count from 0.
#[derive(Clone, Copy, Debug, PartialEq, Eq, Hash)]
pub enum Step {
    /// The server offers a command for the slot.
    Offer {
        /// The server.
        server: u8,
        /// The slot.
        slot: u8,
        /// The number of a [`Command`](crate::Command); the step is refused where it is none
        /// by the room's limits.
        command: u32,
    },
    /// After a failure the server reads its own block on the drive.
    Recall {
        /// The server.
        server: u8,
        /// The slot.
        slot: u8,
        /// The drive.
        drive: u8,
    },
    /// The server goes on after its recalls, with a ballot of its own.
    Rejoin {
        /// The server.
        server: u8,
        /// The slot.
        slot: u8,
        /// A ballot b with (b - 1) mod N the server.
        ballot: u32,
    },
    /// The server begins again with a larger ballot of its own.
    Bid {
        /// The server.
        server: u8,
        /// The slot.
        slot: u8,
        /// A ballot b with (b - 1) mod N the server.
        ballot: u32,
    },
    /// The server writes its block to the drive. Once it has settled the slot, the
    /// block tells others what was settled.
    Write {
        /// The server.
        server: u8,
        /// The slot.
        slot: u8,
        /// The drive.
        drive: u8,
    },
    /// The server reads another server's block on the drive. If the block tells what
    /// was settled, the server has learned it, and the slot is settled for it too.
    Read {
        /// The server.
        server: u8,
        /// The slot.
        slot: u8,
        /// The drive.
        drive: u8,
        /// The server whose block is read.
        other: u8,
    },
    /// The server ends its phase.
    Finish {
        /// The server.
        server: u8,
        /// The slot.
        slot: u8,
    },
    /// The server fails: it forgets everything in every slot.
    Fail {
        /// The server.
        server: u8,
    },
    /// The drive goes off.
    DriveOff {
        /// The drive.
        drive: u8,
    },
    /// The drive goes on.
    DriveOn {
        /// The drive.
        drive: u8,
    },
}

impl Step {
    /// The kind and the fields, 0 where the kind has no such field.
    #[inline]
    pub(crate) fn fields(self) -> Fields {
        let fields = |kind, server, slot, drive, other, number| Fields {
            kind,
            server,
            slot,
            drive,
            other,
            number,
        };
        match self {
            Step::Offer { server, slot, command } => fields(1, server, slot, 0, 0, command),
            Step::Recall { server, slot, drive } => fields(2, server, slot, drive, 0, 0),
            Step::Rejoin { server, slot, ballot } => fields(3, server, slot, 0, 0, ballot),
            Step::Bid { server, slot, ballot } => fields(4, server, slot, 0, 0, ballot),
            Step::Write { server, slot, drive } => fields(5, server, slot, drive, 0, 0),
            Step::Read { server, slot, drive, other } => fields(6, server, slot, drive, other, 0),
            Step::Finish { server, slot } => fields(7, server, slot, 0, 0, 0),
            Step::Fail { server } => fields(8, server, 0, 0, 0, 0),
            Step::DriveOff { drive } => fields(9, 0, 0, drive, 0, 0),
            Step::DriveOn { drive } => fields(10, 0, 0, drive, 0, 0),
        }
    }

    /// The step of a kind from 1 to 10 with these fields.
    #[inline]
    pub(crate) fn of_fields(f: Fields) -> Step {
        let Fields { kind, server, slot, drive, other, number } = f;
        match kind {
            1 => Step::Offer { server, slot, command: number },
            2 => Step::Recall { server, slot, drive },
            3 => Step::Rejoin { server, slot, ballot: number },
            4 => Step::Bid { server, slot, ballot: number },
            5 => Step::Write { server, slot, drive },
            6 => Step::Read { server, slot, drive, other },
            7 => Step::Finish { server, slot },
            8 => Step::Fail { server },
            9 => Step::DriveOff { drive },
            _ => Step::DriveOn { drive },
        }
    }
}

/// What an accepted step answers.
#[derive(Clone, Copy, Debug, PartialEq, Eq, Hash)]
#[non_exhaustive]
pub enum Answer {
    /// The step was done.
    Done,
    /// A Read found this ballot, not below the server's own; it has a new one now.
    Outbid(u32),
    /// A Finish in phase 1 chose this command.
    Chosen(u32),
    /// The slot is settled for the server, with this command: it finished phase 2, or
    /// a Read learned it.
    Committed(u32),
}

impl Answer {
    /// The answer of a word and a number.
    pub(crate) fn of(word: u32, number: u32) -> Result<Answer, Error> {
        match word {
            0 => Ok(Answer::Done),
            1 => Ok(Answer::Outbid(number)),
            2 => Ok(Answer::Chosen(number)),
            3 => Ok(Answer::Committed(number)),
            _ => Err(Error::of(number)),
        }
    }
}
