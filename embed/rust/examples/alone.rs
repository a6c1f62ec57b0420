//! One of two servers is awake, and two of five drives are off. The server settles three
//! entries by the step that [`Room::next`] gives it each time, and prints each step, and at the
//! end what it knows.

use register::{Answer, Command, Entry, Error, Room, Step, PIECES};

/// The server that is awake.
const AWAKE: u32 = 0;

fn main() -> Result<(), Error> {
    let mut room = Room::open(2, 5, 4)?;
    for drive in [1, 3] {
        room.step(Step::DriveOff { drive })?;
        println!("drive {drive} is off");
    }
    for entry in [Command::enter(5, 9)?, Command::enter(40, 31)?, Command::move_to(5, 12)?] {
        let slot = room.ask(AWAKE)?;
        room.put(AWAKE, slot, entry.number())?;
        println!("slot {slot}, {entry}");
        let settled = follow(&mut room, slot)?;
        assert_eq!(settled, Some(entry.number()), "another entry was settled, or none");
    }
    let catalogue = room.catalogue(AWAKE)?;
    println!("catalogue: taken {}, skipped {}", catalogue.taken, catalogue.skipped);
    for piece in 0..PIECES as u8 {
        if let Some(Entry::Entered(hoard)) = catalogue.entry(piece) {
            println!("  piece {piece} is in hoard {hoard}");
        }
    }
    assert_eq!(catalogue.entry(5), Some(Entry::Entered(12)));
    assert_eq!(catalogue.entry(40), Some(Entry::Entered(31)));
    Ok(())
}

/// Takes the next step until one commits, as [`Room::settle`] does, and prints each.
fn follow(room: &mut Room, slot: u32) -> Result<Option<u32>, Error> {
    while let Some(step) = room.next(AWAKE, slot)? {
        let answer = room.step(step)?;
        println!("  {step:?}: {answer:?}");
        if let Answer::Committed(command) = answer {
            return Ok(Some(command));
        }
    }
    Ok(None)
}
