//! Next: the steps that a server takes alone, worked out by hand; where there is
//! none; the refusals in their order; and how many steps it needs.

use other::{
    most_steps, next, next_record, open, room_length, step, used_drives, Answer, Sizes, Step,
    USUAL_LIMITS,
};

/// Piece 5 enters hoard 9, and hoard 8.
const COIN: u32 = 66_825;
const OTHER_COIN: u32 = 66_824;

/// The cells of a server record.
const PHASE: usize = 0;
const MBAL: usize = 1;
const OFFER: usize = 4;
const TOP: usize = 5;
const SEENINP: usize = 7;
const WRITTEN: usize = 8;
const READ: usize = 9;

/// The largest mbal from which a server surely gets through.
const SURE: u32 = 999_990;

/// Numbers beyond the room; the last byte of some is not.
const BEYOND: [u32; 8] = [3, 4, 16, 255, 256, 65_537, 1 << 31, u32::MAX];

fn sizes(servers: usize, drives: usize) -> Sizes {
    Sizes { servers, drives, slots: 2 }
}

/// A new room of two slots with these off marks, where server 0 offers the coin in
/// slot 1.
fn offered(servers: u32, drives: u32, off: u32) -> Vec<u32> {
    let mut room = vec![7; room_length(servers, drives, 2) as usize];
    assert_eq!(open(&mut room, servers, drives, 2, &USUAL_LIMITS), Ok(()));
    room[3] = off;
    let offer = Step::Offer { server: 0, slot: 1, number: COIN };
    assert_eq!(step(&mut room, offer), Answer::Done);
    room
}

/// The same, with these cells of server 0's record in slot 1.
fn with(servers: u32, drives: u32, off: u32, cells: &[(usize, u32)]) -> Vec<u32> {
    let mut room = offered(servers, drives, off);
    let at = sizes(servers as usize, drives as usize).server_at(1, 0);
    for &(cell, value) in cells {
        room[at + cell] = value;
    }
    room
}

/// Follows server 0 in slot 1 to a committed answer. The steps.
fn follow(room: &mut [u32]) -> Vec<Step> {
    let mut steps = Vec::new();
    while let Some(next) = next(room, 0, 1).expect("the drives on are a majority") {
        steps.push(next);
        match step(room, next) {
            Answer::Committed(_) => return steps,
            Answer::Refused(number) => panic!("{next:?} is refused with {number}"),
            _ => {}
        }
    }
    panic!("there is no next step after {steps:?}")
}

fn recall(drive: u8) -> Step {
    Step::Recall { server: 0, slot: 1, drive }
}

fn rejoin(number: u32) -> Step {
    Step::Rejoin { server: 0, slot: 1, number }
}

fn write(drive: u8) -> Step {
    Step::Write { server: 0, slot: 1, drive }
}

fn read(drive: u8, other: u8) -> Step {
    Step::Read { server: 0, slot: 1, drive, other }
}

const FINISH: Step = Step::Finish { server: 0, slot: 1 };

#[test]
fn one_server_and_one_drive_need_six_steps() {
    let mut room = offered(1, 1, 0);
    let steps = [recall(0), rejoin(1), write(0), FINISH, write(0), FINISH];
    assert_eq!(follow(&mut room), steps);
    assert_eq!(most_steps(1, 1), 6);
    assert_eq!(next(&room, 0, 1), Ok(None));
}

/// Drives 1 and 4 are off: 0, 2 and 3 are used.
#[test]
fn the_drives_that_are_on_are_taken_in_turn() {
    let mut room = offered(3, 5, 0b10010);
    let mut steps = vec![recall(0), recall(2), recall(3), rejoin(1)];
    for _ in 0..2 {
        for drive in [0, 2, 3] {
            steps.extend([write(drive), read(drive, 1), read(drive, 2)]);
        }
        steps.push(FINISH);
    }
    assert_eq!(follow(&mut room), steps);
}

/// One of two servers finds the largest mbal from which it surely gets through.
#[test]
fn two_servers_and_one_drive_need_ten_steps() {
    let mut room = offered(2, 1, 0);
    room[sizes(2, 1).block_at(1, 0, 1)] = SURE;
    let begin = [recall(0), rejoin(1), write(0), read(0, 1)];
    let phase = [write(0), read(0, 1), FINISH];
    assert_eq!(follow(&mut room), [&begin[..], &phase, &phase].concat());
    assert_eq!(most_steps(1, 2), 10);
}

/// For every number of drives and every off marks: no more drives than needed, the
/// first ones, and half of them only with drive 0.
#[test]
fn the_used_drives_are_the_first_majority() {
    for drives in 1..=7 {
        for off in 0..1_u32 << drives {
            let on: Vec<u32> = (0..drives).filter(|drive| off & 1 << drive == 0).collect();
            let half = drives % 2 == 0 && on.first() == Some(&0);
            let many = if half { drives / 2 } else { drives / 2 + 1 } as usize;
            let marks = on.get(..many).map(|used| used.iter().map(|drive| 1 << drive).sum());
            assert_eq!(used_drives(off, drives as usize), marks, "{drives} drives, off {off:b}");
        }
    }
    assert_eq!(used_drives(0b01, 2), None);
    assert_eq!(used_drives(0b10, 2), Some(0b01));
    assert_eq!(used_drives(0b0001, 4), Some(0b1110));
}

#[test]
fn it_is_refused_in_order() {
    let mut room = offered(2, 3, 0b011);
    for (server, slot) in [(0, 0), (0, 1), (1, 0), (1, 1)] {
        assert_eq!(next(&room, server, slot), Err(19));
    }
    // In phase 3 too.
    room[sizes(2, 3).server_at(1, 0) + PHASE] = 3;
    assert_eq!(next(&room, 0, 1), Err(19));
    for far in BEYOND {
        assert_eq!(next(&room, far, 0), Err(4));
        assert_eq!(next(&room, 0, far), Err(4));
    }
    assert_eq!((next(&room, 2, 0), next(&room, 0, 2)), (Err(4), Err(4)));
    for length in 0..room.len() {
        assert_eq!(next(&room[..length], 2, 2), Err(3));
    }
    room[3] = 0b1000;
    assert_eq!(next(&room, 2, 2), Err(3));
}

/// The length of the buffer is judged last, and only where there is a step.
#[test]
fn a_record_that_does_not_fit_is_refused_last() {
    let room = offered(1, 3, 0b001);
    for length in 0..=16 {
        let mut bytes = vec![7; length];
        if length < 4 {
            assert_eq!(next_record(&room, 0, 1, &mut bytes), Err(2));
            assert_eq!(bytes, vec![7; length]);
        } else {
            assert_eq!(next_record(&room, 0, 1, &mut bytes), Ok(Some(4)));
            assert_eq!(bytes[..4], [0x06, 0x02, 1, 1]);
            assert_eq!(bytes[4..], vec![7; length - 4]);
        }
        let mut bytes = vec![7; length];
        assert_eq!(next_record(&offered(1, 3, 0b101), 0, 1, &mut bytes), Err(19));
        let settled = with(1, 3, 0, &[(PHASE, 3)]);
        assert_eq!(next_record(&settled, 0, 1, &mut bytes), Ok(None));
        assert_eq!(bytes, vec![7; length]);
    }
}

#[test]
fn nothing_is_left_in_phase_3() {
    for offer in [0, COIN] {
        assert_eq!(next(&with(2, 3, 0, &[(PHASE, 3), (OFFER, offer)]), 0, 1), Ok(None));
    }
}

/// A Finish with nothing to choose, but only in phase 1.
#[test]
fn a_finish_that_would_be_refused_is_none() {
    let complete = [(WRITTEN, 0b011), (READ, 0x022)];
    for (phase, offer, seen, finishes) in
        [(1, 0, 0, false), (1, COIN, 0, true), (1, 0, OTHER_COIN, true), (2, 0, 0, true)]
    {
        let cells = [(PHASE, phase), (OFFER, offer), (SEENINP, seen)];
        let room = with(2, 3, 0, &[&complete[..], &cells].concat());
        assert_eq!(next(&room, 0, 1), Ok(finishes.then_some(FINISH)));
    }
    // Before it, what is missing is done all the same.
    let room = with(2, 3, 0, &[(PHASE, 1), (OFFER, 0), (WRITTEN, 0b011), (READ, 0x002)]);
    assert_eq!(next(&room, 0, 1), Ok(Some(read(1, 1))));
}

/// A Read that leaves no ballot, unless it learns.
#[test]
fn a_read_that_would_be_refused_is_none() {
    let block = sizes(2, 1).block_at(1, 0, 1);
    for (own, found, done, reads) in [
        (1, 999_998, 0, true),
        (1, 999_999, 0, false),
        (1, 1_000_000, 0, false),
        (1, 1_000_000, COIN, true),
        (999_999, 999_998, 0, true),
        (999_999, 999_999, 0, false),
    ] {
        let mut room = with(2, 1, 0, &[(PHASE, 2), (MBAL, own), (WRITTEN, 1)]);
        room[block] = found;
        room[block + 3] = done;
        assert_eq!(next(&room, 0, 1), Ok(reads.then_some(read(0, 1))), "{own} {found} {done}");
        let refused = step(&mut room, read(0, 1)) == Answer::Refused(13);
        assert_eq!(refused, !reads);
    }
}

#[test]
fn a_rejoin_without_a_ballot_is_none() {
    for (top, rejoins) in [(999_998, Some(999_999)), (999_999, None), (1_000_000, None)] {
        let room = with(2, 1, 0, &[(TOP, top), (READ, 1)]);
        assert_eq!(next(&room, 0, 1), Ok(rejoins.map(rejoin)));
    }
    let room = with(2, 1, 0, &[(TOP, 1_000_000)]);
    assert_eq!(next(&room, 0, 1), Ok(Some(recall(0))));
}

/// Marks are passed over, those of a Read also where the drive is not written.
#[test]
fn what_is_marked_is_passed_over() {
    for (cells, expected) in [
        ([(READ, 0x011), (PHASE, 0), (WRITTEN, 0)], rejoin(1)),
        ([(READ, 0x010), (PHASE, 0), (WRITTEN, 0)], recall(0)),
        ([(READ, 0x001), (PHASE, 0), (WRITTEN, 0)], recall(1)),
        // Marks of other servers recall nothing.
        ([(READ, 0x061), (PHASE, 0), (WRITTEN, 0)], recall(1)),
        ([(READ, 0x666), (PHASE, 1), (WRITTEN, 0)], write(0)),
        ([(READ, 0x666), (PHASE, 1), (WRITTEN, 0b001)], write(1)),
        ([(READ, 0x062), (PHASE, 1), (WRITTEN, 0b001)], read(0, 2)),
        ([(READ, 0x064), (PHASE, 2), (WRITTEN, 0b011)], read(0, 1)),
        ([(READ, 0x064), (PHASE, 2), (WRITTEN, 0b010)], write(0)),
        ([(READ, 0x066), (PHASE, 2), (WRITTEN, 0b011)], FINISH),
        // Its own mark reads nothing.
        ([(READ, 0x055), (PHASE, 1), (WRITTEN, 0b011)], read(0, 1)),
        // Drives 1 and 2 would do, but drive 0 is one of the used.
        ([(READ, 0x660), (PHASE, 1), (WRITTEN, 0b110)], write(0)),
    ] {
        let mut room = with(3, 3, 0, &cells);
        room[sizes(3, 3).server_at(1, 0) + MBAL] = 1;
        assert_eq!(next(&room, 0, 1), Ok(Some(expected)), "{cells:?}");
        // Where drive 0 is off, drives 1 and 2 are used.
        room[3] = 0b001;
        let moved = next(&room, 0, 1).expect("two of three drives are on");
        let drive_0 = [Some(recall(0)), Some(write(0)), Some(read(0, 1)), Some(read(0, 2))];
        assert!(!drive_0.contains(&moved), "{cells:?}");
    }
}

#[test]
fn what_is_told_is_learned() {
    let mut room = offered(2, 3, 0);
    room[sizes(2, 3).block_at(1, 1, 1) + 3] = OTHER_COIN;
    let begin = [recall(0), recall(1), rejoin(1), write(0), read(0, 1), write(1), read(1, 1)];
    assert_eq!(follow(&mut room), begin);
    assert_eq!(next(&room, 0, 1), Ok(None));
}

/// Every block that is read is found a ballot higher than the one before it: the
/// longest runs that are known. With one server, and with two and one drive, they are as
/// long as the bound.
#[test]
fn the_longest_runs() {
    for servers in 1..=4 {
        for drives in 1..=7 {
            let sizes = sizes(servers as usize, drives as usize);
            let mut room = offered(servers, drives, 0);
            let used = used_drives(0, sizes.drives).expect("every drive is on").count_ones();
            let reads = used * (servers - 1);
            for place in 0..reads {
                let (drive, other) = (place / (servers - 1), 1 + place % (servers - 1));
                let block = sizes.block_at(1, drive as usize, other as usize);
                room[block] = SURE - servers * (reads - 1 - place);
            }
            let steps = follow(&mut room).len() as u32;
            let (m, n) = (used, servers);
            let outbid = n * (n - 1) * m * (m - 1) / 2 + m * (n - 1) * (n + 2) / 2;
            assert_eq!(steps, 3 + m + 2 * m * n + outbid, "{sizes:?}");
            assert!(steps <= most_steps(m, n));
            assert_eq!(steps == most_steps(m, n), n == 1 || n == 2 && m == 1);
        }
    }
    assert_eq!(most_steps(4, 4), 231);
}
