//! The limits of a room's cabinets: what open accepts, and that offers and stored
//! cells are judged by the room's own limits, which no call changes.

use other::{
    ask, catalogue, is_command, judge, limits_of, open, put, room_length, step, Answer, Limits,
    Step, STRUCK, USUAL_LIMITS,
};

/// Piece 5, of cabinet 0, enters hoard 9.
const COIN: u32 = 66_825;

/// Piece 63, of cabinet 7, enters hoard 60, and hoard 61.
const IN_60: u32 = 81_724;
const IN_61: u32 = 81_725;

/// Limits at both ends, and between.
const OWN: Limits = [1, 255, 2, 254, 128, 7, 61, 60];

/// Numbers that are no limit; the last byte of most could be one.
const NO_LIMIT: [u32; 7] = [0, 256, 257, 511, 65_537, 1 << 31, u32::MAX];

/// A new room of 2 servers, 1 drive and 1 slot: records from cell 12, blocks from 34.
fn opened(limits: &Limits) -> Vec<u32> {
    let mut room = vec![7; room_length(2, 1, 1) as usize];
    assert_eq!(open(&mut room, 2, 1, 1, limits), Ok(()));
    room
}

/// What open answers; where it refuses, the row stays.
fn opening(cells: usize, servers: u32, limits: &[u32]) -> Result<(), u32> {
    let mut row: Vec<u32> = (0..cells as u32).map(|cell| cell ^ 0x5555).collect();
    let before = row.clone();
    let answer = open(&mut row, servers, 1, 1, limits);
    assert_eq!(answer.is_err(), row == before, "{cells} cells, limits {limits:?}");
    answer
}

/// Offers a number by a step, and puts it in another room alike.
fn offer(room: &[u32], number: u32) -> Result<(), u32> {
    let (mut one, mut other) = (room.to_vec(), room.to_vec());
    let answer = match step(&mut one, Step::Offer { server: 0, slot: 0, number }) {
        Answer::Done => Ok(()),
        Answer::Refused(refusal) => Err(refusal),
        answer => panic!("{answer:?}"),
    };
    assert_eq!(put(&mut other, 0, 0, number), answer);
    assert_eq!(one, other);
    assert_eq!(answer.is_err(), one == room);
    answer
}

#[test]
fn the_limits_stand_after_the_off_marks() {
    let room = opened(&OWN);
    assert_eq!(room.len(), 12 + 2 * (11 + 4));
    assert_eq!(room[..12], [2, 1, 1, 0, 1, 255, 2, 254, 128, 7, 61, 60]);
    assert!(room[12..].iter().all(|&cell| cell == 0));
    assert_eq!(limits_of(&room), Some(&OWN));
    assert_eq!(limits_of(&room[..12]), Some(&OWN));
    assert_eq!(limits_of(&room[..11]), None);
    assert!(judge(&room).is_some());
}

#[test]
fn limits_from_1_to_255_are_accepted() {
    for limits in [[1; 8], [255; 8], USUAL_LIMITS, OWN] {
        assert_eq!(opening(42, 2, &limits), Ok(()));
    }
    for cabinet in 0..8 {
        for number in NO_LIMIT {
            let mut limits = OWN;
            limits[cabinet] = number;
            assert_eq!(opening(42, 2, &limits), Err(18), "{limits:?}");
        }
    }
    assert_eq!(opening(42, 2, &[0; 8]), Err(18));
}

/// The reason of each refusal stands at first. One after the other is mended, and the
/// next higher refusal appears.
#[test]
fn open_checks_sizes_then_lengths_then_limits() {
    for number in NO_LIMIT {
        let bad = [number; 16];
        for count in (0..8).chain(9..=16) {
            assert_eq!(opening(41, 5, &bad[..count]), Err(1));
            assert_eq!(opening(41, 2, &bad[..count]), Err(2));
            assert_eq!(opening(42, 2, &bad[..count]), Err(2));
            // So many are refused where each is a limit too.
            assert_eq!(opening(42, 2, &[9; 16][..count]), Err(2));
        }
        for cells in [0, 3, 11, 12, 34, 41, 43, 2_508] {
            assert_eq!(opening(cells, 0, &bad[..8]), Err(1));
            assert_eq!(opening(cells, 2, &bad[..8]), Err(2));
        }
        assert_eq!(opening(42, 2, &bad[..8]), Err(18));
    }
    assert_eq!(opening(42, 2, &OWN), Ok(()));
}

/// Each call refuses a room in which a limit is none, before all else.
#[test]
fn a_stored_number_that_is_no_limit_is_out_of_range() {
    for cell in 4..12 {
        for number in NO_LIMIT {
            let mut room = opened(&OWN);
            room[cell] = number;
            let before = room.clone();
            assert_eq!(judge(&room), None);
            assert_eq!(step(&mut room, Step::DriveOn { drive: 0 }), Answer::Refused(3));
            assert_eq!(step(&mut room, Step::Fail { server: 9 }), Answer::Refused(3));
            assert_eq!(ask(&room, 0), Err(3));
            assert_eq!(put(&mut room, 0, 0, COIN), Err(3));
            assert_eq!(catalogue(&room, 0, &mut [0; 64]), Err(3));
            assert_eq!(catalogue(&room, 0, &mut [0; 63]), Err(2));
            assert_eq!(room, before);
            // Open does not heed what stood there.
            assert_eq!(open(&mut room, 2, 1, 1, &OWN), Ok(()));
            assert_eq!(room, opened(&OWN));
        }
    }
}

#[test]
fn one_command_is_accepted_in_one_room_and_refused_in_another() {
    let (small, large) = (opened(&USUAL_LIMITS), opened(&[255, 255, 200, 200, 120, 120, 60, 61]));
    assert_eq!((offer(&small, IN_60), offer(&large, IN_60)), (Ok(()), Ok(())));
    assert_eq!((offer(&small, IN_61), offer(&large, IN_61)), (Err(5), Ok(())));
    assert_eq!((offer(&small, IN_61 + 1), offer(&large, IN_61 + 1)), (Err(5), Err(5)));
    let eight = opened(&[8, 255, 255, 255, 255, 255, 255, 255]);
    assert_eq!((offer(&small, COIN), offer(&eight, COIN)), (Ok(()), Err(5)));
    // A move has the same limit, and a strike none.
    assert_eq!((offer(&small, COIN + 65_536), offer(&eight, COIN + 65_536)), (Ok(()), Err(5)));
    assert_eq!((offer(&small, 197_888), offer(&eight, 197_888)), (Ok(()), Ok(())));
    assert_eq!((offer(&small, 197_889), offer(&eight, 197_889)), (Err(5), Err(5)));
}

/// Every number up to beyond the last strike, offered and stored, by several tables.
#[test]
fn every_number_is_judged_by_the_limit_of_its_cabinet() {
    for limits in [[1; 8], [255; 8], USUAL_LIMITS, OWN, [1, 2, 3, 4, 5, 6, 7, 8]] {
        let (mut room, mut commands) = (opened(&limits), 0);
        for value in 0..300_000 {
            let (kind, piece, hoard) = (value / 65_536, value / 256 % 256, value % 256);
            let legal = match (kind, piece) {
                (1 | 2, 0..=63) => hoard >= 1 && hoard <= limits[piece as usize / 8],
                (3, 0..=63) => hoard == 0,
                _ => false,
            };
            assert_eq!(is_command(value, &limits), legal, "{value} by {limits:?}");
            room[STORED[0]] = value;
            assert_eq!(judge(&room).is_some(), legal || value == 0, "{value} by {limits:?}");
            commands += u32::from(legal);
        }
        // Two kinds with eight pieces in each cabinet, and 64 strikes.
        assert_eq!(commands, 16 * limits.iter().sum::<u32>() + 64);
        for value in [1 << 18 | COIN, 1 << 31 | COIN, u32::MAX - 65_535 + COIN % 65_536] {
            assert!(!is_command(value, &limits), "{value}");
        }
    }
}

/// The cells of server 1's record and of its block that hold a command or none.
const STORED: [usize; 6] = [23 + 3, 23 + 4, 23 + 7, 23 + 10, 38 + 2, 38 + 3];

#[test]
fn stored_cells_are_judged_by_the_limits_of_their_room() {
    for cell in STORED {
        let mut room = opened(&[60, 60, 60, 60, 60, 60, 60, 61]);
        room[cell] = IN_61;
        assert!(judge(&room).is_some(), "cell {cell}");
        room[11] = 60;
        assert_eq!(judge(&room), None, "cell {cell}");
        assert_eq!(ask(&room, 0), Err(3));
        room[cell] = IN_60;
        assert!(judge(&room).is_some(), "cell {cell}");
        // The limits of the other cabinets do not matter to it.
        room[4..11].fill(1);
        assert!(judge(&room).is_some(), "cell {cell}");
        room[11] = 59;
        assert_eq!(judge(&room), None, "cell {cell}");
    }
}

#[test]
fn no_step_alters_the_limits() {
    let (server, slot, drive, other) = (0, 0, 0, 1);
    let mut room = opened(&OWN);
    let write = Step::Write { server, slot, drive };
    let read = Step::Read { server, slot, drive, other };
    let finish = Step::Finish { server, slot };
    let steps = [
        Step::Offer { server, slot, number: 65_537 },
        Step::Recall { server, slot, drive },
        Step::Rejoin { server, slot, number: 1 },
        Step::Bid { server, slot, number: 3 },
        write,
        read,
        finish,
        write,
        read,
        finish,
        write,
        Step::Fail { server },
        Step::DriveOff { drive },
        Step::DriveOn { drive },
    ];
    for next in steps {
        assert!(!matches!(step(&mut room, next), Answer::Refused(_)), "{next:?}");
        assert_eq!(room[4..12], OWN, "{next:?}");
    }
    assert_eq!(put(&mut room, 1, 0, 65_537), Ok(()));
    assert_eq!(room[4..12], OWN);
}

/// The largest hoard of all, in the last cabinet, and a struck piece beside it.
#[test]
fn a_catalogue_shows_hoards_up_to_the_rooms_own_limits() {
    let mut room = vec![0; room_length(1, 1, 4) as usize];
    assert_eq!(open(&mut room, 1, 1, 4, &[255; 8]), Ok(()));
    let commands = [65_536 + 63 * 256 + 255, 65_536 + 62 * 256 + 255, 196_608 + 62 * 256];
    for (slot, command) in commands.into_iter().enumerate() {
        (room[12 + 15 * slot], room[12 + 15 * slot + 10]) = (3, command);
    }
    let mut out = [7; 64];
    assert_eq!(catalogue(&room, 0, &mut out), Ok((3, 0)));
    assert_eq!(out[60..], [0, 0, STRUCK, 255]);
    room[11] = 254;
    assert_eq!(catalogue(&room, 0, &mut out), Err(3));
}
