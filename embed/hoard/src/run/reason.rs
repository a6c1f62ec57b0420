//! Why a call was refused, in words with the numbers of this call.

use register::{Error, Server, Step};

use super::event::Event;
use super::places::Places;
use crate::scenario::{command_words, Call, Sizes};

/// Why a call was refused, about this call in this room.
pub fn reason(event: &Event, sizes: Sizes, error: Error) -> String {
    let server = event.server().unwrap_or(0);
    let slot = event.slot().unwrap_or(0);
    let drive = event.drive().unwrap_or(0);
    let record = event.before.servers.first().map(|(_, record)| record);
    let place = format!("server {server} in slot {slot}");
    match error {
        Error::Beyond => beyond(event, sizes),
        Error::NotACommand => match offered(event.call) {
            Some(command) => format!("{} is not a command of this room", command_words(command)),
            None => error.text().to_string(),
        },
        Error::NotItsBallot => match ballot(event.call) {
            Some(ballot) => format!("{ballot} is not a ballot of server {server}"),
            None => error.text().to_string(),
        },
        Error::WrongPhase => match record {
            Some(record) => format!("{place} is in phase {}", record.phase),
            None => error.text().to_string(),
        },
        Error::DriveOff => format!("drive {drive} is off"),
        Error::NotWritten => format!("{place} has not written drive {drive} in this phase"),
        Error::NoMajority => no_majority(event, sizes),
        Error::NotAbove => match record {
            Some(record) => format!("the ballot is not above {}", least(event.call, record)),
            None => error.text().to_string(),
        },
        Error::NothingOffered => format!("{place} offers no command and has seen none"),
        Error::NoBallotLeft => format!("outbid, and server {server} has no ballot left"),
        Error::NotFree => format!("slot {slot} is not free for server {server}"),
        Error::NoFreeSlot => format!("no slot is free for server {server}"),
        _ => error.text().to_string(),
    }
}

/// The command that a call offers.
fn offered(call: Call) -> Option<u32> {
    match call {
        Call::Step(Step::Offer { command, .. }) | Call::Put { command, .. } => Some(command),
        _ => None,
    }
}

/// The ballot that a step brings.
fn ballot(call: Call) -> Option<u32> {
    match call {
        Call::Step(Step::Rejoin { ballot, .. } | Step::Bid { ballot, .. }) => Some(ballot),
        _ => None,
    }
}

/// The ballot above which a new one must be.
fn least(call: Call, record: &Server) -> u32 {
    match call {
        Call::Step(Step::Rejoin { .. }) => record.top,
        _ => record.own.mbal,
    }
}

/// Which place the room does not have.
fn beyond(event: &Event, sizes: Sizes) -> String {
    missing(sizes, event.places())
        .unwrap_or_else(|| "a server does not read its own block".to_string())
}

/// The first of these places that the room does not have.
pub fn missing(sizes: Sizes, places: Places) -> Option<String> {
    let places = [
        ("server", places.server, sizes.servers),
        ("slot", places.slot, sizes.slots),
        ("drive", places.drive, sizes.drives),
        ("server", places.owner, sizes.servers),
    ];
    let beyond = |(name, place, size): (&str, Option<u32>, u32)| {
        let place = place.filter(|&place| place >= size)?;
        Some(format!("the room has no {name} {place}"))
    };
    places.into_iter().find_map(beyond)
}

/// Which drives count, where they are no majority.
fn no_majority(event: &Event, sizes: Sizes) -> String {
    let server = event.server().unwrap_or(0);
    let Some((_, record)) = event.before.servers.first() else {
        return Error::NoMajority.text().to_string();
    };
    let rejoins = matches!(event.call, Call::Step(Step::Rejoin { .. }));
    let counts = |&drive: &u32| {
        let read = |server: u32| record.read >> (4 * drive + server) & 1 == 1;
        if rejoins {
            read(server)
        } else {
            let mut others = (0..sizes.servers).filter(|&other| other != server);
            record.written >> drive & 1 == 1 && others.all(read)
        }
    };
    let words = if rejoins {
        ["was recalled", "were recalled"]
    } else {
        ["was written and read", "were written and read"]
    };
    minority(sizes, counts, words)
}

/// Of which drives something is true, where these are no majority; how it is said of one drive,
/// and of several.
pub fn minority(sizes: Sizes, is_true: impl Fn(&u32) -> bool, words: [&str; 2]) -> String {
    let drives: Vec<u32> = (0..sizes.drives).filter(is_true).collect();
    let [one, several] = words;
    let which = match &drives[..] {
        [] => return format!("no drive {one}"),
        [drive] => format!("drive {drive} {one}"),
        _ => {
            let drives: Vec<String> = drives.iter().map(u32::to_string).collect();
            format!("drives {} {several}", drives.join(", "))
        }
    };
    // Half of the drives without drive 0: with it they would be a majority.
    let half = 2 * drives.len() == sizes.drives as usize;
    let half = if half { " without drive 0" } else { "" };
    format!("{which}, no majority of {}{half}", sizes.drives)
}
