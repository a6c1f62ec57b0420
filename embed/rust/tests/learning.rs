//! What one server has settled, the others learn by a Read.

use register::{Answer, Entry, Error, Room, Step};

/// Piece 5 enters hoard 9, and hoard 8.
const COIN: u32 = 66_825;
const OTHER_COIN: u32 = 66_824;

/// The server recalls the drive, rejoins with its ballot and writes the drive.
fn begin(room: &mut Room, server: u8, ballot: u32) -> Result<Answer, Error> {
    room.step(Step::Recall { server, slot: 0, drive: 0 })?;
    room.step(Step::Rejoin { server, slot: 0, ballot })?;
    room.step(Step::Write { server, slot: 0, drive: 0 })
}

/// The server reads another server's block.
fn read(room: &mut Room, server: u8, other: u8) -> Result<Answer, Error> {
    room.step(Step::Read { server, slot: 0, drive: 0, other })
}

/// The server writes its block.
fn write(room: &mut Room, server: u8) -> Result<Answer, Error> {
    room.step(Step::Write { server, slot: 0, drive: 0 })
}

/// A room of two servers and one drive where server 0 has settled the coin, with
/// ballot 3.
fn settled() -> Result<Room, Error> {
    let mut room = Room::open(2, 1, 1)?;
    room.put(0, 0, COIN)?;
    begin(&mut room, 0, 3)?;
    read(&mut room, 0, 1)?;
    assert_eq!(room.step(Step::Finish { server: 0, slot: 0 }), Ok(Answer::Chosen(COIN)));
    write(&mut room, 0)?;
    read(&mut room, 0, 1)?;
    assert_eq!(room.step(Step::Finish { server: 0, slot: 0 }), Ok(Answer::Committed(COIN)));
    Ok(room)
}

#[test]
fn a_late_server_learns_and_tells_it_in_turn() -> Result<(), Error> {
    let mut room = settled()?;
    assert_eq!(write(&mut room, 0), Ok(Answer::Done));
    room.put(1, 0, OTHER_COIN)?;
    begin(&mut room, 1, 2)?;
    // Ballot 2 is below ballot 3, but what is settled comes first.
    assert_eq!(read(&mut room, 1, 0), Ok(Answer::Committed(COIN)));
    assert_eq!(room.catalogue(1)?.entry(5), Some(Entry::Entered(9)));
    assert_eq!(room.ask(1), Err(Error::NoFreeSlot));
    let server = room.server(1, 0).expect("the room has the server");
    assert_eq!((server.phase, server.own.mbal, server.own.inp), (3, 2, 0));
    assert_eq!((server.offer, server.agreed), (OTHER_COIN, COIN));
    let done = |room: &Room, server| room.block(server, 0, 0).map(|block| block.done);
    assert_eq!((done(&room, 0), done(&room, 1)), (Some(COIN), Some(0)));
    assert_eq!(write(&mut room, 1), Ok(Answer::Done));
    assert_eq!(done(&room, 1), Some(COIN));

    // Server 0 fails. Its own block does not bring the command back; the other's does.
    room.step(Step::Fail { server: 0 })?;
    begin(&mut room, 0, 5)?;
    assert_eq!(room.server(0, 0).map(|server| server.agreed), Some(0));
    assert_eq!(room.catalogue(0)?.taken, 0);
    assert_eq!(done(&room, 0), Some(0));
    assert_eq!(read(&mut room, 0, 1), Ok(Answer::Committed(COIN)));
    assert_eq!(room.catalogue(0)?, room.catalogue(1)?);
    Ok(())
}

#[test]
fn what_is_not_told_is_not_learned() -> Result<(), Error> {
    let mut room = settled()?;
    begin(&mut room, 1, 2)?;
    assert_eq!(read(&mut room, 1, 0), Ok(Answer::Outbid(3)));
    assert_eq!(room.catalogue(1)?.taken, 0);
    // A server that has settled the slot does no more than write.
    assert_eq!(read(&mut room, 0, 1), Err(Error::WrongPhase));
    assert_eq!(room.step(Step::Finish { server: 0, slot: 0 }), Err(Error::WrongPhase));
    assert_eq!(room.step(Step::Bid { server: 0, slot: 0, ballot: 5 }), Err(Error::WrongPhase));
    room.step(Step::DriveOff { drive: 0 })?;
    assert_eq!(write(&mut room, 0), Err(Error::DriveOff));
    Ok(())
}
