//! The range of the cells, judged once more cell by cell, and the refusals of
//! rows that are no room.

use other::generator::{any_limits, Chance};
use other::{ask, catalogue, judge, open, put, room_length, step, Answer, Step, USUAL_LIMITS};

/// Whether every cell of a row with these sizes is in range.
fn legal(row: &[u32], servers: usize, drives: usize) -> bool {
    (3..row.len()).all(|cell| fits(row, cell, servers, drives))
}

/// Whether a cell of the row may hold what it holds.
fn fits(row: &[u32], cell: usize, servers: usize, drives: usize) -> bool {
    let value = row[cell];
    let ballot = value <= 1_000_000;
    let command = value == 0 || is_command(value, &row[4..12]);
    if cell < 12 {
        return if cell == 3 { value < 1 << drives } else { (1..=255).contains(&value) };
    }
    let within = (cell - 12) % (11 * servers + 4 * drives * servers);
    if within >= 11 * servers {
        return if (within - 11 * servers) % 4 >= 2 { command } else { ballot };
    }
    match within % 11 {
        0 => value <= 3,
        1 | 2 | 5 | 6 => ballot,
        3 | 4 | 7 | 10 => command,
        8 => value < 1 << drives,
        _ => (0..32).all(|bit| value >> bit & 1 == 0 || bit / 4 < drives && bit % 4 < servers),
    }
}

/// Whether a number is a command by these limits.
fn is_command(value: u32, limits: &[u32]) -> bool {
    let (kind, piece, hoard) = (value / 65_536, value / 256 % 256, value % 256);
    piece <= 63
        && match kind {
            1 | 2 => hoard >= 1 && hoard <= limits[piece as usize / 8],
            3 => hoard == 0,
            _ => false,
        }
}

/// A value that is near the edge of some range.
fn any_value(chance: &mut Chance) -> u32 {
    match chance.below(8) {
        0 => chance.below(6),
        1 => chance.one_of(&[999_999, 1_000_000, 1_000_001, u32::MAX]),
        2 => chance.one_of(&[65_536, 65_537, 81_724, 81_725, 196_608, 196_609, 212_736, 212_992]),
        3 => 1 << chance.below(32),
        4 => (1 << chance.below(32)) - 1,
        5 => chance.from_to(253, 258),
        6 => chance.from_to(1, 3) << 16 | chance.below(65) << 8 | chance.below(256),
        _ => chance.draw() as u32,
    }
}

#[test]
fn one_spoiled_cell_is_found() {
    let mut chance = Chance::new(3);
    let (mut good, mut bad) = (0, 0);
    for (servers, drives, slots) in [(1, 1, 1), (2, 3, 2), (3, 5, 4), (4, 7, 16), (4, 2, 3)] {
        let mut room = vec![0; room_length(servers, drives, slots) as usize];
        let limits = any_limits(&mut chance);
        assert_eq!(open(&mut room, servers, drives, slots, &limits), Ok(()));
        for _ in 0..4_000 {
            let cell = 3 + chance.place(room.len() - 3);
            let value = any_value(&mut chance);
            let old = std::mem::replace(&mut room[cell], value);
            let fits = legal(&room, servers as usize, drives as usize);
            assert_eq!(judge(&room).is_some(), fits, "cell {cell}, value {value}");
            if fits {
                good += 1;
            } else {
                bad += 1;
                refuses(&mut room);
                room[cell] = old;
            }
        }
    }
    assert!(good > 2_000 && bad > 2_000);
}

/// Asserts that every call refuses the row with 3 and leaves it alone.
fn refuses(row: &mut [u32]) {
    let before = row.to_vec();
    assert_eq!(step(row, Step::Fail { server: 99 }), Answer::Refused(3));
    assert_eq!(ask(row, 99), Err(3));
    assert_eq!(put(row, 99, 99, 0), Err(3));
    assert_eq!(row, before);
    let mut out = [5; 64];
    assert_eq!(catalogue(row, 99, &mut out), Err(3));
    assert_eq!(out, [5; 64]);
}

#[test]
fn rows_of_another_length_are_refused() {
    for (servers, drives, slots) in [(1, 1, 1), (4, 7, 16), (0, 1, 1), (9, 9, 9)] {
        let exact = room_length(servers, drives, slots) as usize;
        let mut row = vec![0; 2_608];
        row[..3].copy_from_slice(&[servers, drives, slots]);
        row[4..12].copy_from_slice(&USUAL_LIMITS);
        for length in 0..=row.len() {
            if length == 0 || length != exact {
                refuses(&mut row[..length]);
            } else {
                assert!(judge(&row[..length]).is_some());
            }
        }
    }
    for huge in [u32::MAX, 1 << 31, 1 << 16] {
        refuses(&mut [huge, huge, huge, 0]);
    }
}

#[test]
fn rooms_that_no_run_reaches_keep_the_rules() {
    // One server, one drive, one slot: the record at cell 12, the block at 23.
    let mut room = vec![0; 27];
    assert_eq!(open(&mut room, 1, 1, 1, &USUAL_LIMITS), Ok(()));
    // Phase 3 without an agreed command is no output, whatever inp is.
    room[12] = 3;
    room[15] = 65_537;
    assert_eq!(catalogue(&room, 0, &mut [0; 64]), Ok((0, 0)));
    // An agreed command is none in another phase.
    room[22] = 65_537;
    for (phase, taken) in [(0, 0), (1, 0), (2, 0), (3, 1)] {
        room[12] = phase;
        assert_eq!(catalogue(&room, 0, &mut [0; 64]), Ok((taken, 0)));
    }
    // Finish in phase 2 without a command commits 0, and an agreed one is gone.
    room[12] = 2;
    room[15] = 0;
    room[20] = 1;
    assert_eq!(step(&mut room, Step::Finish { server: 0, slot: 0 }), Answer::Committed(0));
    assert_eq!((room[12], room[22]), (3, 0));
    assert_eq!(catalogue(&room, 0, &mut [0; 64]), Ok((0, 0)));
    // Finish in phase 1 takes the offer whatever seenbal is.
    room[12] = 1;
    room[16] = 65_537;
    room[18] = 1_000_000;
    room[20] = 1;
    assert_eq!(step(&mut room, Step::Finish { server: 0, slot: 0 }), Answer::Chosen(65_537));
    // A larger bal without a command replaces both.
    room[12] = 0;
    room[18] = 4;
    room[19] = 65_537;
    room[24] = 5;
    assert_eq!(step(&mut room, Step::Recall { server: 0, slot: 0, drive: 0 }), Answer::Done);
    assert_eq!(room[18..20], [5, 0]);
}
