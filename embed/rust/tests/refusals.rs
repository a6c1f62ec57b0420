//! Every refusal is met, and has its number and a text of its own.

use std::collections::BTreeSet;

use register::{Answer, Error, Limits, Room, Step};

/// Piece 5 enters hoard 9.
const COIN: u32 = 66_825;

/// A room of two servers, one drive and one slot in which server 0 is in phase 1.
fn bidding(ballot: u32) -> Room {
    let mut room = Room::open(2, 1, 1).expect("the sizes fit");
    for step in
        [Step::Recall { server: 0, slot: 0, drive: 0 }, Step::Rejoin { server: 0, slot: 0, ballot }]
    {
        assert_eq!(room.step(step), Ok(Answer::Done));
    }
    room
}

/// A room in which server 0 is in phase 1 and server 1 has written a larger ballot.
fn outbid(ballot: u32, larger: u32) -> Room {
    let mut room = bidding(ballot);
    for step in [
        Step::Recall { server: 1, slot: 0, drive: 0 },
        Step::Rejoin { server: 1, slot: 0, ballot: larger },
        Step::Write { server: 1, slot: 0, drive: 0 },
        Step::Write { server: 0, slot: 0, drive: 0 },
    ] {
        assert_eq!(room.step(step), Ok(Answer::Done));
    }
    room
}

/// The refusal of a step, which leaves every cell as it was.
fn refusal(mut room: Room, step: Step) -> Error {
    let before = room.clone();
    let error = room.step(step).expect_err("the step is refused");
    assert_eq!(room, before);
    error
}

/// The refusal of a put, which leaves every cell as it was.
fn put_refusal(room: &mut Room, server: u32, slot: u32, command: u32) -> Error {
    let before = room.clone();
    let error = room.put(server, slot, command).expect_err("the put is refused");
    assert_eq!(*room, before);
    error
}

#[test]
fn each_is_met() {
    let (server, slot, drive, other) = (0, 0, 0, 1);
    let finish = Step::Finish { server, slot };
    let read = Step::Read { server, slot, drive, other };
    let mut off = bidding(1);
    assert_eq!(off.step(Step::DriveOff { drive }), Ok(Answer::Done));
    let mut silent = bidding(1);
    assert_eq!(silent.step(Step::Write { server, slot, drive }), Ok(Answer::Done));
    assert_eq!(silent.step(read), Ok(Answer::Done));
    let mut full = bidding(1);
    assert_eq!(full.put(0, 0, COIN), Ok(()));
    let met = [
        Room::open(1, 8, 1).expect_err("eight drives are too many"),
        Room::open_in(vec![0; 28], 1, 1, 1).expect_err("a room of one has 27 cells").error,
        refusal(Room::over(vec![9; 27]), Step::Fail { server }),
        refusal(bidding(1), Step::Read { server, slot, drive, other: server }),
        refusal(bidding(1), Step::Offer { server, slot, command: 81_725 }),
        refusal(bidding(1), Step::Bid { server, slot, ballot: 2 }),
        refusal(bidding(1), Step::Recall { server, slot, drive }),
        refusal(off.clone(), Step::Write { server, slot, drive }),
        refusal(bidding(1), read),
        refusal(bidding(1), finish),
        refusal(bidding(3), Step::Bid { server, slot, ballot: 3 }),
        refusal(silent, finish),
        refusal(outbid(1, 1_000_000), read),
        bidding(1).step_record(&[0x01, 0x07]).expect_err("a byte is missing"),
        bidding(1).step_record(&[0x20, 0x07]).expect_err("bit 5 stands"),
        put_refusal(&mut full, 0, 0, COIN),
        full.ask(0).expect_err("the one slot has an offer"),
        Room::open_with(1, 1, 1, Limits::of([0; 8])).expect_err("no cabinet has a hoard"),
        off.next(0, 0).expect_err("the one drive is off"),
    ];
    for (place, error) in met.into_iter().enumerate() {
        assert_eq!(error.number(), place as u32 + 1, "{error}");
        assert_eq!(Error::of(error.number()), error);
    }
}

#[test]
fn each_has_a_text_of_its_own() {
    let texts: BTreeSet<String> = (1..=19).map(|number| Error::of(number).to_string()).collect();
    assert_eq!(texts.len(), 19);
    for number in 1..=19 {
        assert!(Error::of(number).to_string().ends_with(&format!(" (refusal {number})")));
    }
    assert_eq!(Error::of(0), Error::Unknown(0));
}

/// The refusals of ask and put in their order.
#[test]
fn ask_and_put_in_order() {
    let far = [2, 3, 255, 256, 1 << 31, u32::MAX];
    let mut row = Room::over(vec![9; 27]);
    let mut full = bidding(1);
    assert_eq!(full.put(0, 0, COIN), Ok(()));
    for server in far {
        assert_eq!(row.ask(server), Err(Error::Cells));
        assert_eq!(put_refusal(&mut row, server, 9, 0), Error::Cells);
        assert_eq!(full.ask(server), Err(Error::Beyond));
        assert_eq!(put_refusal(&mut full, server, 0, 0), Error::Beyond);
        assert_eq!(put_refusal(&mut full, 0, server, 0), Error::Beyond);
    }
    assert_eq!(put_refusal(&mut full, 0, 0, 0), Error::NotACommand);
    assert_eq!(put_refusal(&mut full, 0, 0, COIN), Error::NotFree);
    assert_eq!(full.ask(0), Err(Error::NoFreeSlot));
    // The cells may be lent to look at.
    assert_eq!(Room::over(full.cells()).ask(1), Ok(0));
}

/// Two servers, one slot, every answer that a step can have.
#[test]
fn each_answer() {
    let mut room = outbid(1, 4);
    let (server, slot, drive, other) = (0, 0, 0, 1);
    assert_eq!(room.step(Step::Read { server, slot, drive, other }), Ok(Answer::Outbid(4)));
    assert_eq!(room.step(Step::Offer { server, slot, command: COIN }), Ok(Answer::Done));
    for answer in [Answer::Chosen(COIN), Answer::Committed(COIN)] {
        assert_eq!(room.step(Step::Write { server, slot, drive }), Ok(Answer::Done));
        assert_eq!(room.step(Step::Read { server, slot, drive, other }), Ok(Answer::Done));
        assert_eq!(room.step(Step::Finish { server, slot }), Ok(answer));
    }
    let catalogue = room.catalogue(0).expect("the room is in range");
    assert_eq!((catalogue.taken, catalogue.skipped, catalogue.cells[5]), (1, 0, 9));
}
