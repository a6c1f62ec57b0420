//! Where several refusals apply to a step, the lowest is given. Each list
//! below mends the reason of one refusal, and the next higher one appears.

use other::{open, room_length, step, Answer, Step, USUAL_LIMITS};

/// The cells of a server record.
const PHASE: usize = 0;
const MBAL: usize = 1;
const OFFER: usize = 4;
const TOP: usize = 5;
const WRITTEN: usize = 8;
const READ: usize = 9;
const AGREED: usize = 10;

/// The cells of a block.
const DONE: usize = 3;

/// The first cells of server 0's record and of server 1's block on drive 0, in
/// a room of 2 servers, 3 drives and 2 slots, slot 0.
const SERVER_0: usize = 12;
const BLOCK_1: usize = 12 + 2 * 11 + 4;

fn opened() -> Vec<u32> {
    let mut room = vec![0; room_length(2, 3, 2) as usize];
    assert_eq!(open(&mut room, 2, 3, 2, &USUAL_LIMITS), Ok(()));
    room
}

/// Asserts that the step is refused so and changes nothing.
fn refuse(room: &mut [u32], next: Step, number: u32) {
    let before = room.to_vec();
    assert_eq!(step(room, next), Answer::Refused(number), "{next:?}");
    assert_eq!(room, before, "{next:?}");
}

/// The room with one cell of server 0's record changed.
fn set(room: &mut [u32], cell: usize, value: u32) {
    room[SERVER_0 + cell] = value;
}

#[test]
fn every_kind_names_parts_of_the_room() {
    let mut room = opened();
    let number = 0;
    for (server, slot) in [(2, 0), (255, 0), (0, 2), (0, 16), (0, 255), (2, 2)] {
        refuse(&mut room, Step::Offer { server, slot, number }, 4);
        refuse(&mut room, Step::Recall { server, slot, drive: 0 }, 4);
        refuse(&mut room, Step::Rejoin { server, slot, number }, 4);
        refuse(&mut room, Step::Bid { server, slot, number }, 4);
        refuse(&mut room, Step::Write { server, slot, drive: 0 }, 4);
        refuse(&mut room, Step::Read { server, slot, drive: 0, other: 1 }, 4);
        refuse(&mut room, Step::Finish { server, slot }, 4);
    }
    for drive in [3, 4, 7, 8, 31, 32, 255] {
        refuse(&mut room, Step::Recall { server: 0, slot: 0, drive }, 4);
        refuse(&mut room, Step::Write { server: 0, slot: 0, drive }, 4);
        refuse(&mut room, Step::Read { server: 0, slot: 0, drive, other: 1 }, 4);
        refuse(&mut room, Step::DriveOff { drive }, 4);
        refuse(&mut room, Step::DriveOn { drive }, 4);
    }
    for other in [0, 2, 3, 255] {
        refuse(&mut room, Step::Read { server: 0, slot: 0, drive: 0, other }, 4);
    }
    refuse(&mut room, Step::Fail { server: 2 }, 4);
    room[3] = 8;
    refuse(&mut room, Step::Fail { server: 2 }, 3);
}

#[test]
fn recall_and_write_check_the_phase_first() {
    let mut room = opened();
    let recall = Step::Recall { server: 0, slot: 0, drive: 1 };
    let write = Step::Write { server: 0, slot: 0, drive: 1 };
    assert_eq!(step(&mut room, Step::DriveOff { drive: 1 }), Answer::Done);
    assert_eq!(step(&mut room, Step::DriveOff { drive: 1 }), Answer::Done);
    for phase in 1..=3 {
        set(&mut room, PHASE, phase);
        refuse(&mut room, recall, 7);
        refuse(&mut room, write, 8);
    }
    set(&mut room, PHASE, 0);
    refuse(&mut room, write, 7);
    refuse(&mut room, recall, 8);
    assert_eq!(step(&mut room, Step::DriveOn { drive: 1 }), Answer::Done);
    assert_eq!(room[3], 0);
    assert_eq!(step(&mut room, recall), Answer::Done);
    assert_eq!(room[SERVER_0 + READ], 1 << 4);
}

#[test]
fn rejoin_checks_the_run_after_the_ballot() {
    let mut room = opened();
    let rejoin = |number| Step::Rejoin { server: 0, slot: 0, number };
    set(&mut room, PHASE, 2);
    set(&mut room, TOP, 9);
    for number in [0, 2, 1_000_000, 1_000_001, u32::MAX] {
        refuse(&mut room, rejoin(number), 6);
    }
    refuse(&mut room, rejoin(9), 7);
    set(&mut room, PHASE, 0);
    refuse(&mut room, rejoin(9), 10);
    // Another server's marks do not count.
    set(&mut room, READ, 0x221);
    refuse(&mut room, rejoin(9), 10);
    set(&mut room, READ, 0x101);
    refuse(&mut room, rejoin(9), 11);
    // A drive that went off after it was recalled still counts.
    room[3] = 7;
    assert_eq!(step(&mut room, rejoin(11)), Answer::Done);
    assert_eq!(room[SERVER_0..SERVER_0 + 11], [1, 11, 0, 0, 0, 0, 0, 0, 0, 0, 0]);
}

#[test]
fn bid_checks_the_run_after_the_ballot() {
    let mut room = opened();
    let bid = |number| Step::Bid { server: 0, slot: 0, number };
    set(&mut room, MBAL, 9);
    for phase in [0, 3] {
        set(&mut room, PHASE, phase);
        refuse(&mut room, bid(2), 6);
        refuse(&mut room, bid(9), 7);
    }
    set(&mut room, PHASE, 2);
    refuse(&mut room, bid(9), 11);
    refuse(&mut room, bid(7), 11);
    assert_eq!(step(&mut room, bid(999_999)), Answer::Done);
    refuse(&mut room, bid(999_999), 11);
}

/// The block's done is looked at after the drive and before the ballots: what is
/// settled is learned also where no own ballot is above the one found.
#[test]
fn read_checks_the_drive_before_the_block() {
    let read = Step::Read { server: 0, slot: 0, drive: 0, other: 1 };
    for done in [0, 65_537] {
        let mut room = opened();
        room[3] = 1;
        room[BLOCK_1] = 1_000_000;
        room[BLOCK_1 + DONE] = done;
        for phase in [0, 3] {
            set(&mut room, PHASE, phase);
            refuse(&mut room, read, 7);
        }
        set(&mut room, PHASE, 1);
        set(&mut room, MBAL, 999_999);
        refuse(&mut room, read, 8);
        room[3] = 0;
        refuse(&mut room, read, 9);
        set(&mut room, WRITTEN, 6);
        refuse(&mut room, read, 9);
        set(&mut room, WRITTEN, 7);
        if done == 0 {
            refuse(&mut room, read, 13);
        } else {
            assert_eq!(step(&mut room, read), Answer::Committed(done));
            let record = [3, 999_999, 0, 0, 0, 0, 0, 0, 0, 0, done];
            assert_eq!(room[SERVER_0..SERVER_0 + 11], record);
        }
    }
}

/// No run reaches it.
#[test]
fn an_equal_ballot_is_outbid() {
    let mut room = opened();
    set(&mut room, PHASE, 1);
    set(&mut room, MBAL, 6);
    set(&mut room, WRITTEN, 1);
    room[BLOCK_1] = 6;
    let read = Step::Read { server: 0, slot: 0, drive: 0, other: 1 };
    assert_eq!(step(&mut room, read), Answer::Outbid(6));
    assert_eq!(room[SERVER_0 + MBAL], 7);
}

#[test]
fn finish_checks_the_majority_before_the_command() {
    let mut room = opened();
    let finish = Step::Finish { server: 0, slot: 0 };
    for phase in [0, 3] {
        set(&mut room, PHASE, phase);
        refuse(&mut room, finish, 7);
    }
    set(&mut room, PHASE, 1);
    set(&mut room, MBAL, 3);
    // Two drives written, two read, only one of them both.
    set(&mut room, WRITTEN, 3);
    set(&mut room, READ, 0x220);
    refuse(&mut room, finish, 10);
    set(&mut room, READ, 0x022);
    refuse(&mut room, finish, 12);
    set(&mut room, OFFER, 65_537);
    room[3] = 7;
    assert_eq!(step(&mut room, finish), Answer::Chosen(65_537));
    refuse(&mut room, finish, 10);
    set(&mut room, WRITTEN, 5);
    set(&mut room, READ, 0x202);
    assert_eq!(step(&mut room, finish), Answer::Committed(65_537));
    let record = [3, 3, 3, 65_537, 65_537, 0, 3, 65_537, 0, 0, 65_537];
    assert_eq!(room[SERVER_0..SERVER_0 + 11], record);
}

#[test]
fn fail_empties_one_server_in_every_slot() {
    let mut room = opened();
    let slot_length = 2 * (11 + 4 * 3);
    for cell in [SERVER_0, SERVER_0 + 11, SERVER_0 + slot_length, BLOCK_1, BLOCK_1 + slot_length] {
        room[cell..cell + 2].copy_from_slice(&[3, 7]);
    }
    for record in [SERVER_0, SERVER_0 + 11, SERVER_0 + slot_length] {
        room[record + AGREED] = 65_537;
    }
    room[BLOCK_1 - 4 + DONE] = 65_537;
    let mut expected = room.clone();
    for record in [SERVER_0, SERVER_0 + slot_length] {
        expected[record..record + 11].fill(0);
    }
    assert_eq!(step(&mut room, Step::Fail { server: 0 }), Answer::Done);
    assert_eq!(room, expected);
}
