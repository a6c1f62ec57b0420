//! The rule for one command and one cell, by all short lists of commands.

use register::{Entry, Limits, Room, STRUCK};
use tests::Pair;

/// Enter, move and strike of piece 5, and an enter of piece 6. The largest hoard of
/// these is 12.
const COMMANDS: [u32; 6] = [66_825, 66_826, 132_359, 132_364, 197_888, 67_081];

/// Limits that are no more than these commands ask for.
const TIGHT: [u32; 8] = [12, 1, 1, 1, 1, 1, 1, 1];

/// The slots of the room, which are more than the commands of a list.
const SLOTS: usize = 6;

/// What the server tried in every slot: piece 0 enters hoard 1. It learned another
/// command, so this one is in no catalogue.
const TRIED: u32 = 65_537;

/// A room of one server and one drive with these limits and outputs.
fn room_with(limits: Limits, commands: &[u32]) -> Vec<u32> {
    let sizes = (1, 1, SLOTS as u32);
    let room = Room::open_with(sizes.0, sizes.1, sizes.2, limits);
    let mut room = room.expect("the sizes and the limits fit").into_row();
    for (slot, &command) in commands.iter().enumerate() {
        let at = register::server_at(sizes.0, sizes.1, sizes.2, 0, slot as u32);
        let at = at.expect("the room has the slot");
        room[at] = 3;
        room[at + 3] = TRIED;
        room[at + 10] = command;
    }
    room
}

#[test]
fn every_short_list_of_commands() {
    every_list(Limits::default());
}

#[test]
fn every_short_list_in_a_room_with_other_limits() {
    every_list(Limits::of(TIGHT));
    // The commands are none by a limit that is one lower.
    let mut lower = TIGHT;
    lower[0] = 11;
    let room = Pair::over(room_with(Limits::of(lower), &COMMANDS[3..4]));
    assert_eq!(room.catalogue(0, 64), Err(3));
}

/// Every list of fewer commands than slots: the counts and all cells are those of
/// the other implementation, and each cell is what the typed catalogue says.
fn every_list(limits: Limits) {
    let mut lists = vec![Vec::new()];
    let mut seen = [0; 3];
    while let Some(list) = lists.pop() {
        let room = room_with(limits, &list);
        let counts = Pair::over(room.clone()).catalogue(0, 64);
        let catalogue = Room::over(room).catalogue(0).expect("the room is in range");
        assert_eq!(counts, Ok((catalogue.taken, catalogue.skipped)), "{list:?}");
        assert_eq!(catalogue.taken as usize, list.len());
        assert_eq!(catalogue.entry(0), Some(Entry::Absent));
        for (piece, &cell) in catalogue.cells.iter().enumerate() {
            let entry = match cell {
                0 => Entry::Absent,
                1..=255 => Entry::Entered(cell as u8),
                _ => Entry::Struck,
            };
            assert!(cell <= STRUCK, "{list:?}");
            assert_eq!(catalogue.entry(piece as u8), Some(entry), "{list:?}");
        }
        seen[(catalogue.cells[5] > 0) as usize + (catalogue.cells[5] == STRUCK) as usize] += 1;
        if list.len() + 1 < SLOTS {
            lists.extend(COMMANDS.map(|next| [&list[..], &[next]].concat()));
        }
    }
    println!("piece 5 absent, entered, struck: {seen:?}");
    assert_eq!(seen.iter().sum::<u32>(), 1 + 6 + 36 + 216 + 1_296 + 7_776);
    assert!(seen.iter().all(|&count| count > 100));
}
