//! The rooms and the steps that are timed.

use other::generator::{Chance, Driver, Habits};
use other::{least_own_above, used_drives, Limits, Sizes, BALLOT_LIMIT, USUAL_LIMITS};

/// A room and records of steps that all are accepted in it, in any order.
pub struct Work {
    pub room: Vec<u32>,
    pub records: Vec<Vec<u8>>,
}

/// Limits of a museum's own: no two cabinets have the same.
const OWN_LIMITS: Limits = [90, 255, 31, 7, 120, 200, 12, 64];

/// A room just opened. Each server recalls its block on each drive in each slot.
pub fn empty(sizes: Sizes) -> Work {
    let steps =
        places(sizes).map(|(server, slot, drive)| other::Step::Recall { server, slot, drive });
    Work { room: opened(sizes, &USUAL_LIMITS), records: steps.map(record).collect() }
}

fn opened(sizes: Sizes, limits: &Limits) -> Vec<u32> {
    let mut room = vec![0; sizes.length()];
    let (servers, drives, slots) = (sizes.servers as u32, sizes.drives as u32, sizes.slots as u32);
    other::open(&mut room, servers, drives, slots, limits).expect("the sizes and the limits fit");
    room
}

/// A room with a command in every cell that can hold one: every server has settled
/// every slot and told it on every drive. Each server writes its block to each drive
/// in each slot once more.
pub fn filled(sizes: Sizes) -> Work {
    filled_by(sizes, &USUAL_LIMITS)
}

/// The same in a room with other limits.
pub fn limited(sizes: Sizes) -> Work {
    filled_by(sizes, &OWN_LIMITS)
}

/// A room in which each server is in this phase, 0 to 2, in each slot, and has an offer there.
/// On the drives that it uses all is marked, but for its last Read in phase 1: it rejoins next
/// in phase 0, reads in phase 1, finishes in phase 2. Where there is one server, there is no
/// Read, and it finishes in phase 1 too.
pub fn in_phase(sizes: Sizes, phase: u32) -> Vec<u32> {
    let mut room = opened(sizes, &USUAL_LIMITS);
    let mut chance = Chance::new(7);
    let used = used_drives(0, sizes.drives).expect("every drive is on");
    let drives = used.count_ones() as usize;
    for slot in 0..sizes.slots {
        for server in 0..sizes.servers {
            let at = sizes.server_at(slot, server);
            let others = (0..sizes.servers).filter(|&other| (other == server) == (phase == 0));
            let mut marks: Vec<usize> =
                others.flat_map(|other| (0..drives).map(move |drive| 4 * drive + other)).collect();
            marks.sort_unstable();
            if phase == 1 {
                marks.pop();
            }
            room[at] = phase;
            room[at + 1] = if phase == 0 { 0 } else { BALLOT_LIMIT };
            room[at + 4] = command(&mut chance, &USUAL_LIMITS);
            room[at + 8] = if phase == 0 { 0 } else { used };
            room[at + 9] = marks.iter().map(|mark| 1 << mark).sum();
        }
    }
    room
}

fn filled_by(sizes: Sizes, limits: &Limits) -> Work {
    let mut room = opened(sizes, limits);
    let mut chance = Chance::new(1);
    for slot in 0..sizes.slots {
        for server in 0..sizes.servers {
            let at = sizes.server_at(slot, server);
            let ballot =
                least_own_above(chance.below(900_000), server as u32, sizes.servers as u32);
            let (ballot, command) = (ballot.unwrap_or(1), command(&mut chance, limits));
            room[at..at + 4].copy_from_slice(&[3, ballot, ballot, command]);
            room[at + 4] = self::command(&mut chance, limits);
            room[at + 6] = ballot;
            room[at + 7] = command;
            room[at + 10] = command;
            for drive in 0..sizes.drives {
                let at = sizes.block_at(slot, drive, server);
                room[at..at + 4].copy_from_slice(&[ballot, ballot, command, command]);
            }
        }
    }
    let steps =
        places(sizes).map(|(server, slot, drive)| other::Step::Write { server, slot, drive });
    Work { room, records: steps.map(record).collect() }
}

/// The same room, but with other ballots and commands in every block: no run leaves the
/// drives so, and no block is like the one on the drive before it.
pub fn mixed(sizes: Sizes) -> Vec<u32> {
    let mut room = filled(sizes).room;
    let mut chance = Chance::new(4);
    for slot in 0..sizes.slots {
        for drive in 0..sizes.drives {
            for server in 0..sizes.servers {
                let at = sizes.block_at(slot, drive, server);
                let ballots = [chance.below(900_000), chance.below(900_000)];
                room[at..at + 2].copy_from_slice(&ballots);
                room[at + 2] = command(&mut chance, &USUAL_LIMITS);
                room[at + 3] = command(&mut chance, &USUAL_LIMITS);
            }
        }
    }
    room
}

/// Two rooms, and the records of the steps that lead from one to the other.
pub struct Run {
    pub first: Vec<u32>,
    pub records: Vec<Vec<u8>>,
    pub last: Vec<u32>,
}

/// 2,000 steps of servers that follow the protocol, from a room just opened.
pub fn run(sizes: Sizes) -> Run {
    let mut chance = Chance::new(3);
    let habits = Habits {
        noise: 20,
        failures: 2,
        switches: 5,
        bids: 2,
        tells: 200,
        turn: 40,
        high: 0,
        half_off: false,
    };
    let mut driver = Driver::new(&mut chance, sizes, habits);
    let first = opened(sizes, &USUAL_LIMITS);
    let mut room = first.clone();
    let mut records = Vec::new();
    for _ in 0..2_000 {
        let step = driver.next_step(&mut chance, &room);
        driver.hear(other::step(&mut room, step));
        records.push(record(step));
    }
    Run { first, records, last: room }
}

/// The record of a step of each kind, with no field of 0.
pub fn one_of_each() -> Vec<Vec<u8>> {
    let (server, slot, drive, number) = (1, 2, 3, 66_825);
    let steps = [
        other::Step::Offer { server, slot, number },
        other::Step::Recall { server, slot, drive },
        other::Step::Rejoin { server, slot, number },
        other::Step::Bid { server, slot, number },
        other::Step::Write { server, slot, drive },
        other::Step::Read { server, slot, drive, other: 2 },
        other::Step::Finish { server, slot },
        other::Step::Fail { server },
        other::Step::DriveOff { drive },
        other::Step::DriveOn { drive },
    ];
    steps.map(record).to_vec()
}

/// Every server, slot and drive, in an order from a seed.
fn places(sizes: Sizes) -> impl Iterator<Item = (u8, u8, u8)> {
    let mut all = Vec::new();
    for slot in 0..sizes.slots as u8 {
        for server in 0..sizes.servers as u8 {
            all.extend((0..sizes.drives as u8).map(|drive| (server, slot, drive)));
        }
    }
    let mut chance = Chance::new(2);
    for last in (1..all.len()).rev() {
        all.swap(last, chance.place(last + 1));
    }
    all.into_iter()
}

/// Any command by these limits.
fn command(chance: &mut Chance, limits: &Limits) -> u32 {
    let piece = chance.below(64);
    match chance.from_to(1, 3) {
        3 => 3 << 16 | piece << 8,
        kind => kind << 16 | piece << 8 | chance.from_to(1, limits[piece as usize / 8]),
    }
}

/// The record of a step.
fn record(step: other::Step) -> Vec<u8> {
    let mut bytes = vec![0; other::LONGEST_RECORD];
    let length = other::write_record(step, &mut bytes).expect("the buffer is long enough");
    bytes.truncate(length);
    bytes
}
