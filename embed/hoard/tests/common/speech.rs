//! A scenario in words, written once more from what was asked for.

use other::generator::Call;
use other::{Limits, Sizes, Step};

/// A command in words; a number that is none in any room as such.
pub fn command(value: u32) -> String {
    let (kind, piece, hoard) = (value >> 16, value >> 8 & 255, value & 255);
    match (kind, piece, hoard) {
        (1, 0..=63, 1..=255) => format!("enter piece {piece} hoard {hoard}"),
        (2, 0..=63, 1..=255) => format!("move piece {piece} hoard {hoard}"),
        (3, 0..=63, 0) => format!("strike piece {piece}"),
        _ => format!("number {value}"),
    }
}

/// The line of a step.
pub fn step(step: Step) -> String {
    match step {
        Step::Offer { server, slot, number } => {
            format!("offer {server} slot {slot} {}", command(number))
        }
        Step::Recall { server, slot, drive } => {
            format!("recall {server} slot {slot} drive {drive}")
        }
        Step::Rejoin { server, slot, number } => {
            format!("rejoin {server} slot {slot} ballot {number}")
        }
        Step::Bid { server, slot, number } => format!("bid {server} slot {slot} ballot {number}"),
        Step::Write { server, slot, drive } => format!("write {server} slot {slot} drive {drive}"),
        Step::Read { server, slot, drive, other } => {
            format!("read {server} slot {slot} drive {drive} of {other}")
        }
        Step::Finish { server, slot } => format!("finish {server} slot {slot}"),
        Step::Fail { server } => format!("fail {server}"),
        Step::DriveOff { drive } => format!("drive {drive} off"),
        Step::DriveOn { drive } => format!("drive {drive} on"),
    }
}

/// The line of a call, none where a number is too large for one.
pub fn call(call: Call) -> Option<String> {
    let fits = |number: u32| number <= 255;
    match call {
        Call::Step(next) => Some(step(next)),
        Call::Ask { server } => fits(server).then(|| format!("ask {server}")),
        Call::Put { server, slot, command: value } => (fits(server) && fits(slot))
            .then(|| format!("put {server} slot {slot} {}", command(value))),
    }
}

/// The line of a settle.
pub fn settle(server: u8, slot: u8) -> String {
    format!("settle {server} slot {slot}")
}

/// The line of a room.
pub fn room(sizes: Sizes) -> String {
    let Sizes { servers, drives, slots } = sizes;
    format!("room {servers} servers {drives} drives {slots} slots")
}

/// The line of limits.
pub fn limits(limits: &Limits) -> String {
    limits.iter().fold("limits".to_string(), |line, limit| format!("{line} {limit}"))
}
