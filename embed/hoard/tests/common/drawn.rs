//! Any steps and any sizes, drawn from a seed.

use other::generator::Chance;
use other::{write_record, Limits, Sizes, Step, LONGEST_RECORD};

/// How many different sizes a room can have.
pub const SIZES: usize = 4 * 7 * 16;

/// The sizes with this number, which is below [`SIZES`].
pub fn sizes(number: usize) -> Sizes {
    Sizes { servers: 1 + number % 4, drives: 1 + number / 4 % 7, slots: 1 + number / 28 }
}

/// Any sizes.
pub fn any_sizes(chance: &mut Chance) -> Sizes {
    sizes(chance.place(SIZES))
}

/// A byte, often one at the edges or of a small room.
pub fn byte(chance: &mut Chance) -> u8 {
    match chance.below(3) {
        0 => chance.one_of(&[0, 1, 127, 128, 254, 255]),
        1 => chance.below(16) as u8,
        _ => chance.draw() as u8,
    }
}

/// A number of 32 bits, often a command, near one, or at the edges.
pub fn number(chance: &mut Chance) -> u32 {
    match chance.below(4) {
        0 => chance.one_of(&[0, 1, 255, 65_535, 196_608, 1_000_000, u32::MAX - 1, u32::MAX]),
        1 => chance.below(5) << 16 | chance.below(70) << 8 | chance.below(256),
        2 => chance.below(5) << 16 | chance.below(70) << 8,
        _ => chance.draw() as u32,
    }
}

/// Any step, with any values.
pub fn any_step(chance: &mut Chance) -> Step {
    let (server, slot, drive, other) = (byte(chance), byte(chance), byte(chance), byte(chance));
    let number = number(chance);
    match chance.below(10) {
        0 => Step::Offer { server, slot, number },
        1 => Step::Recall { server, slot, drive },
        2 => Step::Rejoin { server, slot, number },
        3 => Step::Bid { server, slot, number },
        4 => Step::Write { server, slot, drive },
        5 => Step::Read { server, slot, drive, other },
        6 => Step::Finish { server, slot },
        7 => Step::Fail { server },
        8 => Step::DriveOff { drive },
        _ => Step::DriveOn { drive },
    }
}

/// The record of a step.
pub fn record(step: Step) -> Vec<u8> {
    let mut bytes = vec![0; LONGEST_RECORD];
    let length = write_record(step, &mut bytes).expect("the buffer is long enough");
    bytes.truncate(length);
    bytes
}

/// The first bytes of an input for rehearse.
pub fn head(sizes: Sizes) -> Vec<u8> {
    vec![sizes.servers as u8, sizes.drives as u8, sizes.slots as u8]
}

/// Limits, or none that are named.
pub fn limits_or_none(chance: &mut Chance) -> Option<Limits> {
    chance.one_in(2).then(|| other::generator::any_limits(chance))
}
