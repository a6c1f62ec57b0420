//! A server on its own: its next step, and settling by such steps.

use register::{Answer, Error, Room, Step, LONGEST_RECORD};

/// Piece 5 enters hoard 9, and hoard 8.
const COIN: u32 = 66_825;
const OTHER_COIN: u32 = 66_824;

/// Takes the next step until one commits; how many were taken.
fn steps_to_commit<R: AsRef<[u32]> + AsMut<[u32]>>(
    room: &mut Room<R>,
    server: u32,
    slot: u32,
) -> Result<u32, Error> {
    let mut steps = 0;
    while let Some(step) = room.next(server, slot)? {
        steps += 1;
        if let Answer::Committed(_) = room.step(step)? {
            return Ok(steps);
        }
    }
    panic!("there is no next step after {steps}")
}

/// A room of two servers, one drive and two slots where server 1's block in slot 0 has this
/// mbal, and server 0 offers the coin.
fn outbidding(mbal: u32) -> Result<Room, Error> {
    let mut room = Room::open(2, 1, 2)?;
    let at = register::block_at(2, 1, 2, 1, 0, 0).expect("the room has the block");
    let mut cells = room.into_row();
    cells[at] = mbal;
    room = Room::over(cells);
    room.put(0, 0, COIN)?;
    Ok(room)
}

#[test]
fn it_settles_on_the_drives_that_are_on() -> Result<(), Error> {
    let mut room = Room::open(3, 5, 2)?;
    room.step(Step::DriveOff { drive: 0 })?;
    room.step(Step::DriveOff { drive: 3 })?;
    room.put(2, 1, COIN)?;
    assert_eq!(room.next(2, 1)?, Some(Step::Recall { server: 2, slot: 1, drive: 1 }));
    // Three drives are recalled; then in each phase each is written and two blocks are read
    // there.
    assert_eq!(steps_to_commit(&mut room, 2, 1)?, 4 + 2 * (3 * 3 + 1));
    assert_eq!(room.next(2, 1)?, None);
    let written = |drive| room.block(2, 1, drive).map(|block| block.inp);
    assert_eq!([0, 1, 2, 3, 4].map(written), [0, COIN, COIN, 0, COIN].map(Some));
    Ok(())
}

/// Six steps are needed with one server, and ten where the other of two has the largest mbal
/// from which it is sure to get through.
#[test]
fn the_smallest_rooms_need_as_many_steps_as_the_bound_says() -> Result<(), Error> {
    let mut room = Room::open(1, 1, 1)?;
    room.put(0, 0, COIN)?;
    assert_eq!(steps_to_commit(&mut room, 0, 0)?, 6);
    assert_eq!(steps_to_commit(&mut outbidding(999_990)?, 0, 0)?, 10);
    Ok(())
}

#[test]
fn settle_follows_next() -> Result<(), Error> {
    let mut room = outbidding(999_990)?;
    let mut followed = room.clone();
    assert_eq!(room.settle(0, 0)?, Some(COIN));
    steps_to_commit(&mut followed, 0, 0)?;
    assert_eq!(room, followed);
    // It is settled, and nothing more is done.
    assert_eq!(room.settle(0, 0)?, None);
    assert_eq!(room, followed);
    // The other server offers another command, and learns what was settled.
    room.step(Step::Write { server: 0, slot: 0, drive: 0 })?;
    room.put(1, 0, OTHER_COIN)?;
    assert_eq!(room.settle(1, 0)?, Some(COIN));
    assert_eq!(room.catalogue(1)?, room.catalogue(0)?);
    Ok(())
}

/// Where there is no step before one commits, those that were taken stay.
#[test]
fn settle_ends_where_there_is_no_step() -> Result<(), Error> {
    // Nothing is offered, and nothing was seen.
    let mut room = Room::open(2, 1, 1)?;
    assert_eq!(room.settle(0, 0)?, None);
    assert_eq!(room.server(0, 0).map(|server| (server.phase, server.read)), Some((1, 0b10)));
    room.put(0, 0, COIN)?;
    assert_eq!(room.settle(0, 0)?, Some(COIN));
    // The ballot that is found leaves none.
    let mut room = outbidding(1_000_000)?;
    assert_eq!(room.settle(0, 0)?, None);
    let read = Step::Read { server: 0, slot: 0, drive: 0, other: 1 };
    assert_eq!(room.step(read), Err(Error::NoBallotLeft));
    assert_eq!(room.settle(0, 0)?, None);
    Ok(())
}

#[test]
fn they_are_refused_in_order() -> Result<(), Error> {
    let mut room = Room::open(1, 2, 1)?;
    room.step(Step::DriveOff { drive: 0 })?;
    // Drive 1 alone is no majority. The buffer is judged last.
    let kept = room.clone();
    let mut buffer = [7; LONGEST_RECORD];
    for error in [Error::NoMajorityOn, Error::Beyond, Error::Cells] {
        let (server, slot) = if error == Error::NoMajorityOn { (0, 0) } else { (0, 1 << 16) };
        let mut room = kept.clone();
        if error == Error::Cells {
            room = Room::over(vec![9; 27]);
        }
        let before = room.clone();
        assert_eq!(room.next(server, slot), Err(error));
        assert_eq!(room.next_record(server, slot, &mut buffer[..0]), Err(error));
        assert_eq!(room.settle(server, slot), Err(error));
        assert_eq!(room, before);
    }
    for far in [1, 256, 1 << 31, u32::MAX] {
        assert_eq!(room.next(far, 0), Err(Error::Beyond));
    }
    room.step(Step::DriveOn { drive: 0 })?;
    // 00 02, a Recall by server 0 in slot 0 of drive 0.
    for length in 0..2 {
        assert_eq!(room.next_record(0, 0, &mut buffer[..length]), Err(Error::Length));
    }
    assert_eq!(buffer, [7; LONGEST_RECORD]);
    assert_eq!(room.next_record(0, 0, &mut buffer), Ok(Some(2)));
    assert_eq!(buffer, [0, 2, 7, 7, 7, 7, 7, 7]);
    room.put(0, 0, COIN)?;
    assert_eq!(room.settle(0, 0)?, Some(COIN));
    assert_eq!(room.next_record(0, 0, &mut buffer[..0]), Ok(None));
    Ok(())
}

/// A room may be lent, to look at or to work on.
#[test]
fn rooms_that_are_lent() -> Result<(), Error> {
    let mut cells = Room::open(1, 1, 1)?.into_row();
    let recall = Some(Step::Recall { server: 0, slot: 0, drive: 0 });
    assert_eq!(Room::over(&cells[..]).next(0, 0)?, recall);
    let mut room = Room::over(&mut cells[..]);
    room.put(0, 0, COIN)?;
    assert_eq!(steps_to_commit(&mut room, 0, 0)?, 6);
    room.step(Step::Fail { server: 0 })?;
    assert_eq!(room.settle(0, 0)?, Some(COIN));
    assert_eq!(Room::over(&cells[..]).next(0, 0)?, None);
    Ok(())
}
