//! The measurements. Each has the register and the other implementation do the same
//! work, and fails where the cells differ afterwards.

use std::hint::black_box;

use other::Sizes;
use register::{Room, Step};

use crate::clock::{side_by_side, Times};
use crate::rooms::{Run, Work};

/// Rounds of a measurement, and how many calls one round makes.
const ROUNDS: u32 = 400;
const CALLS: usize = 400;
/// A call on a record is short, so it has more rounds.
const RECORD_ROUNDS: u32 = 4_000;

/// Piece 5 enters hoard 9.
const COIN: u32 = 66_825;

/// Steps that are accepted in any order.
pub fn steps(work: Work) -> Times {
    let records: Vec<&[u8]> = work.records.iter().map(Vec::as_slice).cycle().take(CALLS).collect();
    let mut mine = Room::over(work.room.clone());
    let mut theirs = work.room;
    let times = side_by_side(
        ROUNDS,
        CALLS,
        || {
            for record in black_box(&records) {
                black_box(mine.step_record(record)).expect("the step is accepted");
            }
        },
        || {
            for record in black_box(&records) {
                let answer = other_step(&mut theirs, record);
                assert!(!matches!(black_box(answer), other::Answer::Refused(_)));
            }
        },
    );
    assert_eq!(mine.cells(), theirs, "the cells differ");
    times
}

/// The steps of a run, from its first room on.
pub fn run(run: Run) -> Times {
    let mut mine = Room::over(run.first.clone());
    let mut theirs = run.first.clone();
    let times = side_by_side(
        ROUNDS / 4,
        run.records.len(),
        || {
            mine = Room::over(run.first.clone());
            for record in black_box(&run.records) {
                let _ = black_box(mine.step_record(record));
            }
        },
        || {
            theirs.copy_from_slice(&run.first);
            for record in black_box(&run.records) {
                black_box(other_step(&mut theirs, record));
            }
        },
    );
    assert_eq!(mine.cells(), theirs, "the cells differ");
    times
}

/// What the register's call does: the record is read, then the step is taken.
fn other_step(room: &mut [u32], record: &[u8]) -> other::Answer {
    match other::read_record(record) {
        Ok((step, _)) => other::step(room, step),
        Err(number) => other::Answer::Refused(number),
    }
}

/// An Ask of server 0, and a Put in the slot that it names, or in slot 0 where it names
/// none. The offer is taken back after each.
pub fn ask_then_put(room: Vec<u32>, sizes: Sizes) -> Times {
    let slot = other::ask(&room, 0).unwrap_or(0);
    let offer = sizes.server_at(slot as usize, 0) + 4;
    let (mut cells, mut theirs) = (room.clone(), room.clone());
    let times = side_by_side(
        ROUNDS,
        CALLS,
        || {
            for _ in 0..CALLS {
                let mut mine = Room::over(black_box(&mut cells[..]));
                let slot = black_box(mine.ask(0)).unwrap_or(0);
                _ = black_box(mine.put(0, slot, COIN));
                cells[offer] = room[offer];
            }
        },
        || {
            for _ in 0..CALLS {
                let slot = black_box(other::ask(black_box(&theirs), 0)).unwrap_or(0);
                _ = black_box(other::put(black_box(&mut theirs), 0, slot, COIN));
                theirs[offer] = room[offer];
            }
        },
    );
    assert_eq!(cells, theirs, "the cells differ");
    times
}

/// The catalogue of server 0.
pub fn catalogue(room: Vec<u32>) -> Times {
    let mine = Room::over(room.clone());
    let (mut cells, mut their_cells) = ([0; 64], [0; 64]);
    let times = side_by_side(
        ROUNDS,
        CALLS,
        || {
            for _ in 0..CALLS {
                black_box(black_box(&mine).catalogue_in(0, &mut cells))
                    .expect("the room is in range");
            }
        },
        || {
            for _ in 0..CALLS {
                black_box(other::catalogue(black_box(&room), 0, &mut their_cells))
                    .expect("the room is in range");
            }
        },
    );
    assert_eq!(cells, their_cells, "the catalogues differ");
    times
}

/// The record of the next step of each server in each slot.
pub fn next(room: Vec<u32>, sizes: Sizes) -> Times {
    let mine = Room::over(room.clone());
    let mut records = vec![[0; other::LONGEST_RECORD]; sizes.servers * sizes.slots];
    let mut their_records = records.clone();
    let times = side_by_side(
        ROUNDS,
        CALLS,
        || {
            each_place(sizes, &mut records, |server, slot, record| {
                _ = black_box(black_box(&mine).next_record(server, slot, record))
                    .expect("a majority is on");
            })
        },
        || {
            each_place(sizes, &mut their_records, |server, slot, record| {
                _ = black_box(other::next_record(black_box(&room), server, slot, record))
                    .expect("a majority is on");
            })
        },
    );
    assert_eq!(records, their_records, "the records differ");
    times
}

/// Does the work for each server in each slot in turn, with bytes of its own, until all calls
/// of a round are made.
fn each_place<T>(sizes: Sizes, values: &mut [T], mut work: impl FnMut(u32, u32, &mut T)) {
    let (mut server, mut slot) = (0, 0);
    for _ in 0..CALLS {
        work(server as u32, slot as u32, &mut values[slot * sizes.servers + server]);
        server += 1;
        if server == sizes.servers {
            (server, slot) = (0, (slot + 1) % sizes.slots);
        }
    }
}

/// Records read.
pub fn reading(records: &[Vec<u8>]) -> Times {
    side_by_side(
        RECORD_ROUNDS,
        CALLS,
        || each(records, |bytes| _ = black_box(Step::read(bytes))),
        || each(records, |bytes| _ = black_box(other::read_record(bytes))),
    )
}

/// The same records written.
pub fn writing(records: &[Vec<u8>]) -> Times {
    let good = "the record is good";
    let mine: Vec<Step> = records.iter().map(|bytes| Step::read(bytes).expect(good).0).collect();
    let theirs: Vec<other::Step> =
        records.iter().map(|bytes| other::read_record(bytes).expect(good).0).collect();
    let (mut buffer, mut their_buffer) = ([0; other::LONGEST_RECORD], [0; other::LONGEST_RECORD]);
    side_by_side(
        RECORD_ROUNDS,
        CALLS,
        || each(&mine, |step| _ = black_box(step.write(black_box(&mut buffer)))),
        || {
            each(&theirs, |&step| {
                _ = black_box(other::write_record(step, black_box(&mut their_buffer)))
            })
        },
    )
}

/// Does the work for each value in turn, until all calls of a round are made.
fn each<T>(values: &[T], mut work: impl FnMut(&T)) {
    for _ in 0..CALLS / values.len() {
        for value in black_box(values) {
            work(value);
        }
    }
}
