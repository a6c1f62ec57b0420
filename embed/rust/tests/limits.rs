//! Rooms with limits of a museum's own.

use register::{Catalogue, Command, Entry, Error, Limits, Room, Step, CABINETS};

/// Limits at both ends, and between.
const OWN: Limits = Limits::of([1, 255, 2, 254, 128, 7, 61, 60]);

/// Numbers that are no limit; the last byte of most could be one.
const NO_LIMIT: [u32; 7] = [0, 256, 257, 511, 65_537, 1 << 31, u32::MAX];

/// Limits of which one is not 1 to 255.
fn bad_limits() -> impl Iterator<Item = Limits> {
    (0..CABINETS).flat_map(|cabinet| {
        NO_LIMIT.map(|number| {
            let mut limits = OWN.numbers();
            limits[cabinet] = number;
            Limits::of(limits)
        })
    })
}

#[test]
fn they_stand_in_the_room() -> Result<(), Error> {
    let room = Room::open_with(1, 1, 1, OWN)?;
    assert_eq!(room.cells()[..12], [1, 1, 1, 0, 1, 255, 2, 254, 128, 7, 61, 60]);
    assert_eq!(room.limits(), Some(OWN));
    let usual = [255, 255, 200, 200, 120, 120, 60, 60];
    assert_eq!(Room::open(1, 1, 1)?.cells()[4..12], usual);
    assert_eq!(Room::open_in([7; 27], 1, 1, 1)?.cells()[4..12], usual);
    assert_eq!(Limits::default(), Limits::from(usual));
    assert_eq!(<[u32; CABINETS]>::from(OWN), OWN.numbers());
    Ok(())
}

/// Sizes are judged first, then the length, then the limits; the row comes back.
#[test]
fn open_refuses_in_order() {
    for limits in bad_limits() {
        for (cells, drives, error) in [(28, 8, Error::Sizes), (28, 1, Error::Length)] {
            let not_opened = Room::open_in_with(vec![7; cells], 1, drives, 1, limits).unwrap_err();
            assert_eq!((not_opened.error, not_opened.row), (error, vec![7; cells]));
        }
        let not_opened = Room::open_in_with([7; 27], 1, 1, 1, limits).unwrap_err();
        assert_eq!((not_opened.error, not_opened.row), (Error::Limits, [7; 27]));
        assert_eq!(Room::open_with(1, 1, 1, limits), Err(Error::Limits));
        assert_eq!(Room::open_with(1, 1, 0, limits), Err(Error::Sizes));
    }
}

/// A stored number that is no limit makes the row no room, for every call.
#[test]
fn a_row_with_a_bad_limit_is_no_room() -> Result<(), Error> {
    for limits in bad_limits() {
        let mut row = Room::open(1, 1, 1)?.into_row();
        row[4..12].copy_from_slice(&limits.numbers());
        let mut room = Room::over(row.clone());
        assert_eq!(room.limits(), Some(limits));
        assert_eq!(room.step(Step::DriveOn { drive: 0 }), Err(Error::Cells));
        assert_eq!(room.ask(0), Err(Error::Cells));
        assert_eq!(room.put(0, 0, 196_608), Err(Error::Cells));
        assert_eq!(room.catalogue(0), Err(Error::Cells));
        assert_eq!(room.into_row(), row);
    }
    Ok(())
}

/// Every piece in the largest hoard of its cabinet, and in the one above it.
#[test]
fn a_command_is_judged_by_the_room_where_it_is_offered() -> Result<(), Error> {
    for limits in [OWN, Limits::default(), Limits::of([254; CABINETS])] {
        for piece in 0..64 {
            let largest = limits.numbers()[usize::from(piece) / 8];
            let mut room = Room::open_with(1, 1, 2, limits)?;
            for hoard in 1..=255 {
                let command = Command::move_to(piece, hoard)?.number();
                let offer = Step::Offer { server: 0, slot: 1, command };
                match u32::from(hoard) <= largest {
                    true => assert!(room.step(offer).is_ok(), "{piece} {hoard} {limits:?}"),
                    false => assert_eq!(room.step(offer), Err(Error::NotACommand)),
                }
            }
            assert_eq!(room.limits(), Some(limits));
        }
    }
    Ok(())
}

/// The largest hoard that a museum can have, in the last cabinet.
#[test]
fn a_catalogue_shows_the_hoards_of_the_rooms_own_limits() -> Result<(), Error> {
    let (server, slot, drive) = (0, 0, 0);
    let mut room = Room::open_with(1, 1, 1, Limits::of([255; CABINETS]))?;
    room.put(0, 0, Command::enter(63, 255)?.number())?;
    for step in [
        Step::Recall { server, slot, drive },
        Step::Rejoin { server, slot, ballot: 1 },
        Step::Write { server, slot, drive },
        Step::Finish { server, slot },
        Step::Write { server, slot, drive },
        Step::Finish { server, slot },
    ] {
        room.step(step)?;
    }
    let Catalogue { taken, skipped, .. } = room.catalogue(0)?;
    assert_eq!((taken, skipped), (1, 0));
    assert_eq!(room.catalogue(0)?.entry(63), Some(Entry::Entered(255)));
    Ok(())
}
