//! The steps of an input for rehearse, taken once more.

use crate::commands::USUAL_LIMITS;
use crate::records::read_record;
use crate::rehearse::INPUT_LIMIT;
use crate::room::{open, Sizes};
use crate::steps::{step, Answer, Step};

/// A step of an input: the room before it, the step, and its answer.
pub struct Taken<'a> {
    /// The sizes of the room.
    pub sizes: Sizes,
    /// The cells before the step.
    pub before: &'a [u32],
    /// The step.
    pub step: Step,
    /// What it answered.
    pub answer: Answer,
}

/// Takes the steps of an input and shows each to `see`. There are none where the
/// room is not opened; they end where a record can't be read.
pub fn replay(input: &[u8], mut see: impl FnMut(Taken)) {
    let &[servers, drives, slots, ref records @ ..] = input else {
        return;
    };
    let (servers, drives, slots) = (servers.into(), drives.into(), slots.into());
    let Some(sizes) = Sizes::fit(servers, drives, slots) else {
        return;
    };
    let mut room = vec![0; sizes.length()];
    let opened = open(&mut room, servers, drives, slots, &USUAL_LIMITS);
    if input.len() > INPUT_LIMIT || opened.is_err() {
        return;
    }
    let mut before = room.clone();
    let mut left = records;
    while let Ok((next, length)) = read_record(left) {
        before.copy_from_slice(&room);
        let answer = step(&mut room, next);
        see(Taken { sizes, before: &before, step: next, answer });
        left = &left[length..];
    }
}
