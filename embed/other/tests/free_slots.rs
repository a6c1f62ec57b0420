//! Ask and Put: which slots are free for a server, and the refusals in their
//! order.

use other::{ask, open, put, room_length, step, Answer, Step, USUAL_LIMITS};

/// Piece 5 enters hoard 9, and hoard 8.
const COIN: u32 = 66_825;
const OTHER_COIN: u32 = 66_824;

/// Piece 63 in hoard 61, which its cabinet lacks.
const NO_COMMAND: u32 = 81_725;

/// The cells of a server record.
const PHASE: usize = 0;
const OFFER: usize = 4;

/// Numbers beyond the room; the last byte of some is not.
const BEYOND: [u32; 8] = [3, 4, 16, 255, 256, 65_537, 1 << 31, u32::MAX];

/// A new room of 2 servers, 1 drive and 3 slots.
fn opened() -> Vec<u32> {
    let mut room = vec![7; room_length(2, 1, 3) as usize];
    assert_eq!(open(&mut room, 2, 1, 3, &USUAL_LIMITS), Ok(()));
    room
}

/// The first cell of server 0's record in a slot.
fn server_0(slot: usize) -> usize {
    12 + slot * 2 * (11 + 4)
}

/// A Put of server 0 that is refused with `number` and changes nothing.
fn refuse(room: &mut [u32], slot: u32, command: u32, number: u32) {
    let before = room.to_vec();
    assert_eq!(put(room, 0, slot, command), Err(number));
    assert_eq!(room, before);
}

/// Server 0 settles a slot on the one drive with its ballot; the command.
fn settle(room: &mut [u32], slot: u8, ballot: u32) -> u32 {
    let (server, drive) = (0, 0);
    let write = Step::Write { server, slot, drive };
    let read = Step::Read { server, slot, drive, other: 1 };
    let finish = Step::Finish { server, slot };
    let recall = Step::Recall { server, slot, drive };
    let rejoin = Step::Rejoin { server, slot, number: ballot };
    for next in [recall, rejoin, write, read, finish, write, read] {
        assert!(!matches!(step(room, next), Answer::Refused(_)), "{next:?}");
    }
    match step(room, finish) {
        Answer::Committed(command) => command,
        answer => panic!("{answer:?}"),
    }
}

#[test]
fn ask_names_the_lowest_slot_that_is_free() {
    let mut room = opened();
    assert_eq!(ask(&room, 0), Ok(0));
    assert_eq!(put(&mut room, 0, 0, COIN), Ok(()));
    assert_eq!(ask(&room, 0), Ok(1));
    assert_eq!(put(&mut room, 0, 2, COIN), Ok(()));
    assert_eq!(ask(&room, 0), Ok(1));
    assert_eq!(put(&mut room, 0, 1, COIN), Ok(()));
    assert_eq!(ask(&room, 0), Err(17));
    // The slots are still free for the other server.
    assert_eq!(ask(&room, 1), Ok(0));
    assert_eq!(put(&mut room, 1, 2, COIN), Ok(()));
    assert_eq!(ask(&room, 1), Ok(0));
}

#[test]
fn put_does_what_offer_does() {
    for slot in 0..3 {
        let (mut one, mut other) = (opened(), opened());
        assert_eq!(put(&mut one, 1, slot.into(), COIN), Ok(()));
        let offer = Step::Offer { server: 1, slot, number: COIN };
        assert_eq!(step(&mut other, offer), Answer::Done);
        assert_eq!(one, other);
        assert_ne!(one, opened());
    }
}

#[test]
fn ask_is_refused_in_order() {
    let mut room = opened();
    for slot in 0..3 {
        assert_eq!(put(&mut room, 0, slot, COIN), Ok(()));
    }
    assert_eq!(ask(&room, 0), Err(17));
    for server in BEYOND.into_iter().chain([2]) {
        assert_eq!(ask(&room, server), Err(4), "server {server}");
    }
    room[3] = 2;
    for server in [0, 1, 2, u32::MAX] {
        assert_eq!(ask(&room, server), Err(3));
    }
    for length in 0..room.len() {
        assert_eq!(ask(&opened()[..length], 0), Err(3));
    }
}

/// The reason of each refusal stands at first. One after the other is mended, and
/// the next higher refusal appears.
#[test]
fn put_is_refused_in_order() {
    let mut room = opened();
    room[server_0(1) + OFFER] = COIN;
    room[3] = 2;
    refuse(&mut room, 3, NO_COMMAND, 3);
    room[3] = 0;
    for far in BEYOND {
        refuse(&mut room, far, NO_COMMAND, 4);
        let before = room.clone();
        assert_eq!(put(&mut room, far, 1, NO_COMMAND), Err(4));
        assert_eq!(put(&mut room, far, far, NO_COMMAND), Err(4));
        assert_eq!(room, before);
    }
    assert_eq!(put(&mut room, 2, 0, COIN), Err(4));
    for number in [0, 1, NO_COMMAND, 196_609, 262_144, u32::MAX] {
        refuse(&mut room, 1, number, 5);
        refuse(&mut room, 0, number, 5);
    }
    refuse(&mut room, 1, COIN, 16);
    refuse(&mut room, 1, OTHER_COIN, 16);
    room[server_0(1) + OFFER] = 0;
    assert_eq!(put(&mut room, 0, 1, COIN), Ok(()));
    refuse(&mut room, 1, COIN, 16);
}

/// Also in rooms that no run reaches.
#[test]
fn a_slot_is_free_without_an_offer_and_outside_phase_3() {
    for phase in 0..=3 {
        for offer in [0, COIN] {
            let mut room = opened();
            room[server_0(0) + PHASE] = phase;
            room[server_0(0) + OFFER] = offer;
            if phase != 3 && offer == 0 {
                assert_eq!(ask(&room, 0), Ok(0));
                assert_eq!(put(&mut room, 0, 0, OTHER_COIN), Ok(()));
                assert_eq!(room[server_0(0) + PHASE], phase);
            } else {
                assert_eq!(ask(&room, 0), Ok(1));
                refuse(&mut room, 0, OTHER_COIN, 16);
            }
        }
    }
}

#[test]
fn a_settled_slot_is_free_again_after_a_failure() {
    let mut room = opened();
    assert_eq!(put(&mut room, 0, 0, COIN), Ok(()));
    assert_eq!(settle(&mut room, 0, 1), COIN);
    assert_eq!(ask(&room, 0), Ok(1));
    refuse(&mut room, 0, OTHER_COIN, 16);
    assert_eq!(step(&mut room, Step::Fail { server: 0 }), Answer::Done);
    assert_eq!(ask(&room, 0), Ok(0));
    assert_eq!(put(&mut room, 0, 0, OTHER_COIN), Ok(()));
    // What was settled stays so, whatever is put there later.
    assert_eq!(settle(&mut room, 0, 3), COIN);
}

#[test]
fn a_slot_that_was_learned_is_not_free() {
    let mut room = opened();
    // Server 1's block on the drive, behind two records and a block, tells it.
    room[server_0(0) + 2 * 11 + 4 + 3] = COIN;
    let (server, slot, drive) = (0, 0, 0);
    for next in [
        Step::Recall { server, slot, drive },
        Step::Rejoin { server, slot, number: 1 },
        Step::Write { server, slot, drive },
    ] {
        assert_eq!(step(&mut room, next), Answer::Done);
    }
    assert_eq!(ask(&room, 0), Ok(0));
    let read = Step::Read { server, slot, drive, other: 1 };
    assert_eq!(step(&mut room, read), Answer::Committed(COIN));
    assert_eq!(ask(&room, 0), Ok(1));
    refuse(&mut room, 0, OTHER_COIN, 16);
    assert_eq!(step(&mut room, Step::Fail { server }), Answer::Done);
    assert_eq!(ask(&room, 0), Ok(0));
}

#[test]
fn offer_remains_as_it_was() {
    let mut room = opened();
    let offer = |number| Step::Offer { server: 0, slot: 0, number };
    assert_eq!(put(&mut room, 0, 0, COIN), Ok(()));
    refuse(&mut room, 0, OTHER_COIN, 16);
    assert_eq!(step(&mut room, offer(OTHER_COIN)), Answer::Done);
    assert_eq!(room[server_0(0) + OFFER], OTHER_COIN);
    assert_eq!(settle(&mut room, 0, 1), OTHER_COIN);
    refuse(&mut room, 0, COIN, 16);
    assert_eq!(step(&mut room, offer(COIN)), Answer::Done);
    assert_eq!(room[server_0(0) + OFFER], COIN);
}
