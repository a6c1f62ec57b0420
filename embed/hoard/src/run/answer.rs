//! The answer of a call in words.

use register::{Answer, Block, Step};

use super::block::block_words;
use super::event::{Event, Reply};
use super::reason::reason;
use crate::scenario::{command_words, Call, Sizes};

/// What a call answered, in words: a refusal says why, with its number.
pub fn answer(event: &Event, sizes: Sizes) -> String {
    match event.reply {
        Reply::Answer(Answer::Done) => match found(event) {
            Some(block) => format!("done: {} {}", verb(event), block_words(&block)),
            None => "done".to_string(),
        },
        Reply::Answer(Answer::Outbid(ballot)) => {
            let (server, own) = (event.server().unwrap_or(0), event.own_ballot());
            format!("outbid by ballot {ballot}; server {server} now bids {own}")
        }
        Reply::Answer(Answer::Chosen(command)) => format!("chosen: {}", command_words(command)),
        Reply::Answer(Answer::Committed(command)) => committed(event, command),
        // The package may come to know other answers.
        Reply::Answer(other) => format!("{other:?}"),
        Reply::Slot(slot) => format!("slot {slot} is free"),
        Reply::Refused(error) => {
            format!("refused: {} ({})", reason(event, sizes, error), error.number())
        }
    }
}

/// A committed answer: of a Finish, or of a Read that learned the command.
fn committed(event: &Event, command: u32) -> String {
    let words = command_words(command);
    match event.call {
        Call::Step(Step::Read { .. }) => format!("learned, committed: {words}"),
        _ => format!("committed: {words}"),
    }
}

/// What the call does with the block.
fn verb(event: &Event) -> &'static str {
    if event.wrote() {
        "wrote"
    } else {
        "found"
    }
}

/// The block that a call wrote or met, none where it was refused or is about none.
pub fn found(event: &Event) -> Option<Block> {
    (event.wrote() || event.met()).then_some(event.after.block).flatten()
}
