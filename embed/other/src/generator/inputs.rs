//! Whole inputs for rehearse: N, D, S, then records.

use super::chance::Chance;
use super::driver::Driver;
use super::habits::Habits;
use crate::commands::USUAL_LIMITS;
use crate::records::{write_record, LONGEST_RECORD};
use crate::rehearse::INPUT_LIMIT;
use crate::room::{open, Sizes};
use crate::steps::{step, Step};

/// The number of different sizes that a room can have.
pub const SIZES: usize = 4 * 7 * 16;

/// The input with number `index` of the set of `seed`. It has no more than
/// `most` records, but for the inputs that are too long.
///
/// Of every fifty inputs one is too short for a room, one has sizes that do
/// not fit, one is too long or has no record, and one is long. Where `most`
/// allows it, input 3 of every set has 65,536 bytes and the largest room.
pub fn make_input(seed: u64, index: u32, most: u32) -> Vec<u8> {
    let mut chance = Chance::of_run(seed, index);
    let round = index / 50;
    match (index % 50, round % 4) {
        (0, _) => (0..round % 3).map(|_| chance.from_to(1, 4) as u8).collect(),
        (1, _) => bad_sizes(&mut chance, round),
        (2, 0) => too_long(&mut chance, round, index),
        (2, _) => head(sizes_of(index)),
        (3, 0 | 2) => {
            let sizes = if round == 0 { largest() } else { sizes_of(index) };
            whole_run(&mut chance, sizes, most)
        }
        (3, _) => {
            let records = chance.from_to(2_500, 12_000);
            ordinary_run(&mut chance, sizes_of(index), records.min(most))
        }
        _ => {
            let long = chance.one_in(10);
            let records = if long { chance.from_to(600, 2_500) } else { chance.from_to(60, 600) };
            ordinary_run(&mut chance, sizes_of(index), records.min(most))
        }
    }
}

/// The sizes of run `index`. Any 448 runs in a row have all of them.
fn sizes_of(index: u32) -> Sizes {
    // 165 has no factor in common with 448, so neighbours differ.
    let number = index as usize * 165 % SIZES;
    Sizes { servers: 4 - number % 4, drives: 1 + number / 4 % 7, slots: 1 + number / 28 }
}

/// The largest sizes.
fn largest() -> Sizes {
    Sizes { servers: 4, drives: 7, slots: 16 }
}

/// The first three bytes of an input.
fn head(sizes: Sizes) -> Vec<u8> {
    vec![sizes.servers as u8, sizes.drives as u8, sizes.slots as u8]
}

/// An input with one size outside its range. Records follow it.
fn bad_sizes(chance: &mut Chance, round: u32) -> Vec<u8> {
    let sizes = sizes_of(chance.below(SIZES as u32));
    let mut input = ordinary_run(chance, sizes, 5);
    let place = (round % 3) as usize;
    input[place] = chance.one_of(&[[0, 5, 255], [0, 8, 128], [0, 17, 255]][place]);
    input
}

/// An input of more than 65,536 bytes, some with sizes that do not fit.
fn too_long(chance: &mut Chance, round: u32, index: u32) -> Vec<u8> {
    let mut input = ordinary_run(chance, sizes_of(index), 20);
    if round % 8 == 4 {
        input[0] = 9;
    }
    let length = INPUT_LIMIT + if round == 0 { 1 } else { chance.from_to(1, 2_000) as usize };
    let rest = [0, 10].iter().copied().cycle().take(length - input.len());
    input.extend(rest);
    input
}

/// The room and the servers of a run, and the bytes made so far.
struct Run {
    room: Vec<u32>,
    driver: Driver,
    input: Vec<u8>,
}

impl Run {
    fn new(chance: &mut Chance, sizes: Sizes) -> Run {
        let mut room = vec![0; sizes.length()];
        let Sizes { servers, drives, slots } = sizes;
        let (servers, drives, slots) = (servers as u32, drives as u32, slots as u32);
        let opened = open(&mut room, servers, drives, slots, &USUAL_LIMITS);
        assert_eq!(opened, Ok(()), "the sizes and the limits fit and the length is exact");
        let habits = Habits::any(chance);
        Run { room, driver: Driver::new(chance, sizes, habits), input: head(sizes) }
    }

    /// The record of the next step.
    fn next_record(&mut self, chance: &mut Chance) -> Vec<u8> {
        let next = self.driver.next_step(chance, &self.room);
        self.driver.hear(step(&mut self.room, next));
        record(next)
    }
}

/// The bytes of a step's record.
fn record(step: Step) -> Vec<u8> {
    let mut bytes = vec![0; LONGEST_RECORD];
    let length = write_record(step, &mut bytes).unwrap_or(0);
    bytes.truncate(length);
    bytes
}

/// A run of `count` records. One in four has a damaged record at its end or,
/// more rarely, somewhere before it.
fn ordinary_run(chance: &mut Chance, sizes: Sizes, count: u32) -> Vec<u8> {
    let damaged = match chance.below(16) {
        0..=2 => count,
        3 => chance.below(count + 1),
        _ => u32::MAX,
    };
    let mut run = Run::new(chance, sizes);
    for index in 0..count {
        if run.input.len() + 2 * LONGEST_RECORD > INPUT_LIMIT {
            break;
        }
        if index == damaged {
            run.input.extend(damaged_record(chance, false));
        }
        let record = run.next_record(chance);
        run.input.extend(record);
    }
    if damaged == count {
        let last = chance.one_in(2);
        run.input.extend(damaged_record(chance, last));
    }
    run.input
}

/// A run of 65,536 bytes, or of `most` records where these are fewer bytes.
fn whole_run(chance: &mut Chance, sizes: Sizes, most: u32) -> Vec<u8> {
    let mut run = Run::new(chance, sizes);
    for _ in 0..most {
        let record = run.next_record(chance);
        let left = INPUT_LIMIT - run.input.len();
        if record.len() == left || record.len() + 2 <= left {
            run.input.extend(record);
            continue;
        }
        // The last bytes are DriveOn of drive 0, and of drive 1 if they are odd.
        let odd: &[u8] = if left % 2 == 1 { &[4, 10, 1] } else { &[] };
        run.input.extend(odd);
        while run.input.len() < INPUT_LIMIT {
            run.input.extend([0, 10]);
        }
        break;
    }
    run.input
}

/// Bytes that are no record. Where they are the last, most are cut short.
fn damaged_record(chance: &mut Chance, last: bool) -> Vec<u8> {
    let high_bit = 32 << chance.below(3);
    let malformed_map = high_bit | chance.below(32) as u8;
    if !last {
        return match chance.below(6) {
            0 => vec![malformed_map, 1, 1, 1, 1],
            1 => vec![0, 0],
            2 => vec![chance.below(32) as u8, chance.from_to(11, 255) as u8, 1, 1, 1, 1],
            3 => chance.one_of(&[[8, 5, 1], [16, 7, 1], [2, 8, 1], [1, 9, 1], [8, 2, 1]]).to_vec(),
            4 => chance.one_of(&[[1, 8, 0], [4, 9, 0], [4, 10, 0], [2, 7, 0], [8, 6, 0]]).to_vec(),
            _ => vec![17, 1, chance.below(2) as u8, 0, 0, 0, 0],
        };
    }
    match chance.below(6) {
        0 => vec![malformed_map],
        1 => vec![31],
        // A field of 0, and the next one missing.
        2 => chance.one_of(&[[3, 7, 0], [7, 5, 0], [17, 3, 0]]).to_vec(),
        _ => {
            let number = chance.draw() as u32 | 1;
            let whole = record(Step::Bid { server: 1, slot: 1, number });
            let length = 1 + chance.place(whole.len() - 1);
            whole[..length].to_vec()
        }
    }
}
