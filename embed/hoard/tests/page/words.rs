//! What the page should say of a call, written once more from what was asked for.

use other::generator::{Call, Reply};
use other::{Answer, Sizes, Step};

use crate::common::places::places;
use crate::common::play::{Block, Made};
use crate::common::reason::reason;
use crate::common::said::block_words;
use crate::common::speech::command;

/// The name of a call.
pub fn name(call: Call) -> &'static str {
    match call {
        Call::Ask { .. } => "ask",
        Call::Put { .. } => "put",
        Call::Step(step) => match step {
            Step::Offer { .. } => "offer",
            Step::Recall { .. } => "recall",
            Step::Rejoin { .. } => "rejoin",
            Step::Bid { .. } => "bid",
            Step::Write { .. } => "write",
            Step::Read { .. } => "read",
            Step::Finish { .. } => "finish",
            Step::Fail { .. } => "fail",
            Step::DriveOff { .. } | Step::DriveOn { .. } => "drive",
        },
    }
}

/// How a call went, as its mark says.
pub fn outcome(reply: Reply) -> &'static str {
    match reply {
        Reply::Slot(_) | Reply::Answer(Answer::Done) => "done",
        Reply::Answer(Answer::Outbid(_)) => "outbid",
        Reply::Answer(Answer::Chosen(_)) => "chosen",
        Reply::Answer(Answer::Committed(_)) => "committed",
        Reply::Answer(Answer::Refused(_)) => "refused",
    }
}

/// The two lines of a call.
pub fn lines(made: &Made, sizes: Sizes) -> (String, String) {
    let name = name(made.call);
    match made.reply {
        Reply::Slot(slot) => (name.into(), format!("slot {slot} is free")),
        Reply::Answer(Answer::Refused(number)) => {
            (format!("{name} refused ({number})"), short(made, sizes, number))
        }
        Reply::Answer(Answer::Outbid(_)) => {
            let (first, found) = held("outbid", made.after.block.expect("it is read"));
            let bids = format!("now bids {}", made.after.servers[0].1[1]);
            (first, if found.is_empty() { bids } else { format!("{found}; {bids}") })
        }
        Reply::Answer(Answer::Chosen(value)) => ("chosen".into(), command(value)),
        Reply::Answer(Answer::Committed(value)) => match made.after.block {
            Some(block) => held("learned", block),
            None => ("committed".into(), command(value)),
        },
        Reply::Answer(Answer::Done) => match made.after.block {
            Some(block) => held(name, block),
            None => (name.to_string(), brought(made.call)),
        },
    }
}

/// Why a call was refused, in few words where the whole reason is long.
fn short(made: &Made, sizes: Sizes, number: u32) -> String {
    match number {
        5 => "no command of this room".to_string(),
        7 => format!("in phase {}", made.before.servers[0].1[0]),
        9 => {
            let drive = places(made.call).drive.expect("a Read is on a drive");
            format!("drive {drive} is not written")
        }
        10 => "no majority".to_string(),
        12 => "nothing offered or seen".to_string(),
        13 => "no ballot left".to_string(),
        16 => "the slot is not free".to_string(),
        _ => reason(made, sizes, number),
    }
}

/// The two lines of a call that wrote or found a block.
fn held(word: &str, block: Block) -> (String, String) {
    let [mbal, bal, inp, done] = block;
    let settled = format!("settled: {}", if done == 0 { String::new() } else { command(done) });
    let commands = match (inp, done) {
        (0, 0) => String::new(),
        (_, 0) => command(inp),
        (0, _) => settled,
        _ if inp == done => settled,
        _ => format!("{}, {settled}", command(inp)),
    };
    if block == [0; 4] {
        (word.to_string(), "blank".to_string())
    } else {
        (format!("{word}: mbal {mbal}, bal {bal}"), commands)
    }
}

/// What a call brings.
fn brought(call: Call) -> String {
    match call {
        Call::Put { command: value, .. } => command(value),
        Call::Step(Step::Offer { number, .. }) => command(number),
        Call::Step(Step::Rejoin { number, .. } | Step::Bid { number, .. }) => {
            format!("ballot {number}")
        }
        Call::Step(Step::Fail { server }) => format!("server {server}"),
        Call::Step(Step::DriveOff { drive }) => format!("{drive} off"),
        Call::Step(Step::DriveOn { drive }) => format!("{drive} on"),
        _ => String::new(),
    }
}

/// What a call read or wrote, as a sentence; none where it did not.
pub fn told(made: &Made) -> Option<String> {
    let accepted = made.reply.refusal().is_none();
    let places = places(made.call);
    let (server, owner) = (places.server?, places.owner.filter(|_| accepted)?);
    let held = block_words(made.after.block?);
    Some(match name(made.call) {
        "write" => format!("server {server} wrote {held}"),
        "recall" => format!("server {server} recalled its own block and found {held}"),
        _ => format!("server {server} read the block of server {owner} and found {held}"),
    })
}
