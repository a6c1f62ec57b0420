//! What is written about a call, in two lines.

use register::{Answer, Error, Step};

use crate::run::{ballots, commands, found, is_blank, reason, Event, Reply};
use crate::scenario::{command_words, form, Call, Sizes, Spoken};

/// The two lines of a call: what it is, and what it brings or finds.
pub fn label(event: &Event, sizes: Sizes) -> (String, String) {
    match event.reply {
        Reply::Refused(error) => {
            let call = name(event.call);
            (format!("{call} refused ({})", error.number()), short(event, sizes, error))
        }
        Reply::Slot(slot) => ("ask".to_string(), format!("slot {slot} is free")),
        Reply::Answer(answer) => answered(event, answer),
    }
}

/// Why a call was refused, in few words where the whole reason is long.
fn short(event: &Event, sizes: Sizes, error: Error) -> String {
    let drive = event.drive().unwrap_or(0);
    let words = match error {
        Error::NotACommand => "no command of this room",
        Error::WrongPhase => match event.before.servers.first() {
            Some((_, record)) => return format!("in phase {}", record.phase),
            None => "in another phase",
        },
        Error::NotWritten => return format!("drive {drive} is not written"),
        Error::NoMajority => "no majority",
        Error::NothingOffered => "nothing offered or seen",
        Error::NoBallotLeft => "no ballot left",
        Error::NotFree => "the slot is not free",
        _ => return reason(event, sizes, error),
    };
    words.to_string()
}

/// The lines of an accepted call.
fn answered(event: &Event, answer: Answer) -> (String, String) {
    match answer {
        Answer::Outbid(_) => {
            let (first, found) = held("outbid", event);
            let bids = format!("now bids {}", event.own_ballot());
            (first, if found.is_empty() { bids } else { format!("{found}; {bids}") })
        }
        Answer::Chosen(command) => ("chosen".to_string(), command_words(command)),
        Answer::Committed(_) if event.met() => held("learned", event),
        Answer::Committed(command) => ("committed".to_string(), command_words(command)),
        _ if found(event).is_some() => held(name(event.call), event),
        _ => (name(event.call).to_string(), brought(event.call)),
    }
}

/// The lines of a call that wrote or found a block: its ballots, and its commands.
fn held(word: &str, event: &Event) -> (String, String) {
    match found(event) {
        Some(block) if !is_blank(&block) => {
            (format!("{word}: {}", ballots(&block)), commands(&block))
        }
        _ => (word.to_string(), "blank".to_string()),
    }
}

/// The name of a call: the first word of its line.
pub fn name(call: Call) -> &'static str {
    form(Spoken::Call(call).verb()).name()
}

/// What a call brings.
fn brought(call: Call) -> String {
    match call {
        Call::Step(Step::Offer { command, .. }) | Call::Put { command, .. } => {
            command_words(command)
        }
        Call::Step(Step::Rejoin { ballot, .. } | Step::Bid { ballot, .. }) => {
            format!("ballot {ballot}")
        }
        Call::Step(Step::DriveOff { drive }) => format!("{drive} off"),
        Call::Step(Step::DriveOn { drive }) => format!("{drive} on"),
        Call::Step(Step::Fail { server }) => format!("server {server}"),
        _ => String::new(),
    }
}
