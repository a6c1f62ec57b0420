//! How a settle ended.

use std::fmt;

use register::Error;

use crate::scenario::command_words;

/// How a settle ended.
#[derive(Clone, Debug, PartialEq, Eq)]
pub enum Ending {
    /// The last of so many steps committed this command.
    Settled {
        /// How many steps were taken.
        steps: usize,
        /// The number of the command.
        command: u32,
    },
    /// There was no next step after so many.
    NoNext {
        /// How many steps were taken.
        steps: usize,
        /// Why there was none.
        why: NoNext,
    },
    /// It was refused.
    Refused {
        /// The refusal.
        error: Error,
        /// What it says of this room.
        reason: String,
    },
}

/// Why there is no next step.
#[derive(Clone, Copy, Debug, PartialEq, Eq)]
pub enum NoNext {
    /// The server is in phase 3.
    Settled,
    /// It offers no command and has seen none. With one it would have a next step.
    NothingOffered,
    /// It has no ballot left.
    NoBallot,
}

impl fmt::Display for Ending {
    fn fmt(&self, f: &mut fmt::Formatter<'_>) -> fmt::Result {
        match self {
            Ending::Settled { steps, command } => {
                write!(f, "settled after {}: {}", steps_words(*steps), command_words(*command))
            }
            Ending::NoNext { steps, why } => {
                let why = match why {
                    NoNext::Settled => "the slot is settled for this server",
                    NoNext::NothingOffered => "no command is offered and none was seen",
                    NoNext::NoBallot => "no ballot is left",
                };
                write!(f, "no next step after {}: {why}", steps_words(*steps))
            }
            Ending::Refused { error, reason } => {
                write!(f, "refused: {reason} ({})", error.number())
            }
        }
    }
}

/// A number of steps.
fn steps_words(steps: usize) -> String {
    let word = if steps == 1 { "step" } else { "steps" };
    format!("{steps} {word}")
}
