//! A shelf of two drives: drive 0 alone is enough, and drive 1 alone is not.

use register::{Answer, Error, Room, Step};

/// Piece 5 enters hoard 9, and hoard 8.
const COIN: u32 = 66_825;
const OTHER_COIN: u32 = 66_824;

/// The server recalls a drive and rejoins with its ballot.
fn rejoin(room: &mut Room, server: u8, drive: u8, ballot: u32) -> Result<Answer, Error> {
    room.step(Step::Recall { server, slot: 0, drive })?;
    room.step(Step::Rejoin { server, slot: 0, ballot })
}

/// The server writes a drive, reads the other server's block there, and finishes.
fn finish(room: &mut Room, server: u8, drive: u8) -> Result<Answer, Error> {
    room.step(Step::Write { server, slot: 0, drive })?;
    room.step(Step::Read { server, slot: 0, drive, other: 1 - server })?;
    room.step(Step::Finish { server, slot: 0 })
}

#[test]
fn what_drive_0_settled_stays_settled() -> Result<(), Error> {
    let mut room = Room::open(2, 2, 1)?;
    room.step(Step::DriveOff { drive: 1 })?;
    room.step(Step::Offer { server: 0, slot: 0, command: COIN })?;
    assert_eq!(rejoin(&mut room, 0, 0, 1), Ok(Answer::Done));
    assert_eq!(finish(&mut room, 0, 0), Ok(Answer::Chosen(COIN)));
    assert_eq!(finish(&mut room, 0, 0), Ok(Answer::Committed(COIN)));

    // Server 1 has begun when the drives change places.
    room.step(Step::Offer { server: 1, slot: 0, command: OTHER_COIN })?;
    assert_eq!(rejoin(&mut room, 1, 0, 2), Ok(Answer::Done));
    room.step(Step::DriveOn { drive: 1 })?;
    room.step(Step::DriveOff { drive: 0 })?;
    assert_eq!(finish(&mut room, 1, 1), Err(Error::NoMajority));
    room.step(Step::Fail { server: 1 })?;
    assert_eq!(rejoin(&mut room, 1, 1, 4), Err(Error::NoMajority));

    room.step(Step::DriveOn { drive: 0 })?;
    room.step(Step::Offer { server: 1, slot: 0, command: OTHER_COIN })?;
    assert_eq!(rejoin(&mut room, 1, 0, 4), Ok(Answer::Done));
    assert_eq!(finish(&mut room, 1, 0), Ok(Answer::Chosen(COIN)));
    assert_eq!(finish(&mut room, 1, 0), Ok(Answer::Committed(COIN)));
    Ok(())
}
