//! Why a call is refused, from what the other implementation has in the room. The words are those
//! of the table in `reasons`.

use other::generator::Call;
use other::{Server, Sizes, Step};

use super::places::{places, Places};
use super::play::{End, Made};
use super::speech;

/// The reason of a refusal with this number.
pub fn reason(made: &Made, sizes: Sizes, number: u32) -> String {
    let named = places(made.call);
    let server = named.server.unwrap_or_default();
    let slot = named.slot.unwrap_or_default();
    let drive = named.drive.unwrap_or_default();
    let own = made.before.servers.first().map(|(_, record)| Server::load(record, 0));
    let own = own.unwrap_or_default();
    let place = format!("server {server} in slot {slot}");
    match number {
        4 => beyond(named, sizes),
        5 => format!("{} is not a command of this room", speech::command(number_of(made.call))),
        6 => format!("{} is not a ballot of server {server}", number_of(made.call)),
        7 => format!("{place} is in phase {}", own.phase),
        8 => format!("drive {drive} is off"),
        9 => format!("{place} has not written drive {drive} in this phase"),
        10 => no_majority(made.call, own, server as usize, sizes),
        11 => format!(
            "the ballot is not above {}",
            if rejoins(made.call) { own.top } else { own.mbal }
        ),
        12 => format!("{place} offers no command and has seen none"),
        13 => format!("outbid, and server {server} has no ballot left"),
        16 => format!("slot {slot} is not free for server {server}"),
        17 => format!("no slot is free for server {server}"),
        _ => panic!("{made:?} is not to be refused so"),
    }
}

/// The reason of a settle that is refused.
pub fn settle_reason(end: End, place: (u8, u8), sizes: Sizes) -> String {
    let (server, slot) = (place.0.into(), place.1.into());
    match end {
        End::Refused(4, _) => {
            beyond(Places { server: Some(server), slot: Some(slot), ..Places::default() }, sizes)
        }
        End::Refused(19, off) => minority(!off, sizes, "is on", "are on"),
        _ => panic!("{end:?} is not to be refused so"),
    }
}

/// The command or the ballot that a call brings.
fn number_of(call: Call) -> u32 {
    match call {
        Call::Put { command: number, .. }
        | Call::Step(
            Step::Offer { number, .. } | Step::Rejoin { number, .. } | Step::Bid { number, .. },
        ) => number,
        _ => panic!("{call:?} brings no number"),
    }
}

/// Which place the room does not have: the first that is named.
fn beyond(named: Places, sizes: Sizes) -> String {
    let missing = [
        ("server", named.server, sizes.servers),
        ("slot", named.slot, sizes.slots),
        ("drive", named.drive, sizes.drives),
        ("server", named.owner, sizes.servers),
    ]
    .into_iter()
    .find_map(|(name, place, size)| {
        place.filter(|&place| place as usize >= size).map(|place| (name, place))
    });
    match missing {
        Some((name, place)) => format!("the room has no {name} {place}"),
        None => "a server does not read its own block".to_string(),
    }
}

/// Whether a call is a Rejoin.
fn rejoins(call: Call) -> bool {
    matches!(call, Call::Step(Step::Rejoin { .. }))
}

/// Which drives count, where they are no majority.
fn no_majority(call: Call, own: Server, server: usize, sizes: Sizes) -> String {
    let Sizes { servers, drives, .. } = sizes;
    let (marks, done) = if rejoins(call) {
        (own.recalled(server, drives), "recalled")
    } else {
        (own.completed(server, servers, drives), "written and read")
    };
    minority(marks, sizes, &format!("was {done}"), &format!("were {done}"))
}

/// That the marked drives are no majority.
fn minority(marks: u32, sizes: Sizes, one: &str, several: &str) -> String {
    let drives = sizes.drives;
    let counted =
        (0..drives).filter(|drive| marks >> drive & 1 == 1).map(|drive| drive.to_string());
    let counted: Vec<String> = counted.collect();
    let half = match 2 * counted.len() == drives {
        true => " without drive 0",
        false => "",
    };
    match counted.len() {
        0 => format!("no drive {one}"),
        1 => format!("drive {} {one}, no majority of {drives}{half}", counted[0]),
        _ => format!("drives {} {several}, no majority of {drives}{half}", counted.join(", ")),
    }
}
