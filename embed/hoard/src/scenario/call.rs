//! The calls of a scenario, and how the values of a line and a call are one another.

use std::fmt;

use register::{Command, Step};

use super::forms::{field, form, Field, Verb};
use super::line::{Values, MOST_FIELDS};

/// A call of a run.
#[derive(Clone, Copy, Debug, PartialEq, Eq)]
pub enum Call {
    /// One of the ten steps.
    Step(Step),
    /// Asks for the lowest slot that is free for a server.
    Ask {
        /// The server.
        server: u8,
    },
    /// Offers a command in a slot that is free for the server.
    Put {
        /// The server.
        server: u8,
        /// The slot.
        slot: u8,
        /// The number of the command.
        command: u32,
    },
}

/// What one line of a scenario asks for.
#[derive(Clone, Copy, Debug, PartialEq, Eq)]
pub enum Spoken {
    /// One call.
    Call(Call),
    /// The next step of a server in a slot, until one commits or there is none.
    Settle {
        /// The server.
        server: u8,
        /// The slot.
        slot: u8,
    },
}

impl Spoken {
    /// What a verb with these values asks for, none where it is that of the room or of the
    /// limits.
    pub(crate) fn of(verb: Verb, values: Values) -> Option<Spoken> {
        // What a form has in these places was read as a byte, where it is no command or ballot.
        let byte = |place: usize| values[place] as u8;
        let (server, slot, drive, other) = (byte(0), byte(1), byte(2), byte(3));
        let [_, switch, last, ..] = values;
        let (command, ballot) = (last, last);
        let step = match verb {
            Verb::Room | Verb::Limits => return None,
            Verb::Ask => return Some(Spoken::Call(Call::Ask { server })),
            Verb::Put => return Some(Spoken::Call(Call::Put { server, slot, command })),
            Verb::Settle => return Some(Spoken::Settle { server, slot }),
            Verb::Offer => Step::Offer { server, slot, command },
            Verb::Recall => Step::Recall { server, slot, drive },
            Verb::Rejoin => Step::Rejoin { server, slot, ballot },
            Verb::Bid => Step::Bid { server, slot, ballot },
            Verb::Write => Step::Write { server, slot, drive },
            Verb::Read => Step::Read { server, slot, drive, other },
            Verb::Finish => Step::Finish { server, slot },
            Verb::Fail => Step::Fail { server },
            Verb::Drive => switched(server, switch),
        };
        Some(Spoken::Call(Call::Step(step)))
    }

    /// What it asks for.
    pub(crate) fn verb(self) -> Verb {
        self.values().0
    }

    /// The verb and the values that ask for this.
    fn values(self) -> (Verb, Values) {
        match self {
            Spoken::Call(Call::Step(step)) => step_values(step),
            Spoken::Call(Call::Ask { server }) => (Verb::Ask, filled([server.into()])),
            Spoken::Call(Call::Put { server, slot, command }) => {
                (Verb::Put, filled([server.into(), slot.into(), command]))
            }
            Spoken::Settle { server, slot } => {
                (Verb::Settle, filled([server, slot].map(u32::from)))
            }
        }
    }
}

/// The verb and the values of a step.
fn step_values(step: Step) -> (Verb, Values) {
    let three = |server: u8, slot: u8, last: u32| filled([server.into(), slot.into(), last]);
    match step {
        Step::Offer { server, slot, command } => (Verb::Offer, three(server, slot, command)),
        Step::Recall { server, slot, drive } => (Verb::Recall, three(server, slot, drive.into())),
        Step::Rejoin { server, slot, ballot } => (Verb::Rejoin, three(server, slot, ballot)),
        Step::Bid { server, slot, ballot } => (Verb::Bid, three(server, slot, ballot)),
        Step::Write { server, slot, drive } => (Verb::Write, three(server, slot, drive.into())),
        Step::Read { server, slot, drive, other } => {
            (Verb::Read, filled([server, slot, drive, other].map(u32::from)))
        }
        Step::Finish { server, slot } => (Verb::Finish, filled([server, slot].map(u32::from))),
        Step::Fail { server } => (Verb::Fail, filled([server.into()])),
        Step::DriveOff { drive } => (Verb::Drive, filled([drive.into(), 0])),
        Step::DriveOn { drive } => (Verb::Drive, filled([drive.into(), 1])),
    }
}

/// The step that switches a drive.
fn switched(drive: u8, switch: u32) -> Step {
    if switch == 0 {
        Step::DriveOff { drive }
    } else {
        Step::DriveOn { drive }
    }
}

/// These values, and 0 behind them.
pub fn filled<const COUNT: usize>(first: [u32; COUNT]) -> Values {
    let mut values = [0; MOST_FIELDS];
    values[..COUNT].copy_from_slice(&first);
    values
}

impl fmt::Display for Spoken {
    fn fmt(&self, f: &mut fmt::Formatter<'_>) -> fmt::Result {
        let (verb, values) = self.values();
        f.write_str(&line_words(verb, values))
    }
}

impl fmt::Display for Call {
    fn fmt(&self, f: &mut fmt::Formatter<'_>) -> fmt::Result {
        Spoken::Call(*self).fmt(f)
    }
}

/// The line of a verb and its values, as its form has it.
pub fn line_words(verb: Verb, values: Values) -> String {
    let mut values = values.into_iter();
    let words = form(verb).words.split(' ').map(|word| match field(word) {
        None => word.to_string(),
        Some(kind) => value_words(kind, values.next().unwrap_or_default()),
    });
    words.collect::<Vec<_>>().join(" ")
}

/// A value as it stands in a line.
fn value_words(kind: Field, value: u32) -> String {
    match kind {
        Field::Byte | Field::Number => value.to_string(),
        Field::Command => command_words(value),
        Field::Switch => ["off", "on"][usize::from(value != 0)].to_string(),
    }
}

/// A command in words, and any other number as one.
pub fn command_words(number: u32) -> String {
    match Command::of(number) {
        Ok(command) => command.to_string(),
        Err(_) => format!("number {number}"),
    }
}
