//! The values that 01 works out, and the examples of 02.

use other::{
    catalogue, is_command, is_majority, least_own_above, open, owner, room_length, step, Answer,
    Server, Sizes, Step, STRUCK, USUAL_LIMITS,
};

/// A new room with the limits of 01.
fn opened(servers: u32, drives: u32, slots: u32) -> Vec<u32> {
    let mut room = vec![7; room_length(servers, drives, slots) as usize];
    assert_eq!(open(&mut room, servers, drives, slots, &USUAL_LIMITS), Ok(()));
    room
}

/// Takes steps that are all done.
fn take(room: &mut [u32], steps: &[Step]) {
    for &next in steps {
        assert_eq!(step(room, next), Answer::Done, "{next:?}");
    }
}

/// Takes a step that is refused with `number` and changes nothing.
fn refuse(room: &mut [u32], next: Step, number: u32) {
    let before = room.to_vec();
    assert_eq!(step(room, next), Answer::Refused(number), "{next:?}");
    assert_eq!(room, before, "{next:?}");
}

fn server(room: &[u32], slot: usize, server: usize) -> Server {
    let sizes = other::judge(room).expect("a room in range");
    Server::load(room, sizes.server_at(slot, server))
}

/// Puts mbal, bal and inp into a block.
fn put_block(room: &mut [u32], drive: usize, server: usize, block: [u32; 3]) {
    let at = other::judge(room).expect("a room in range").block_at(0, drive, server);
    room[at..at + 3].copy_from_slice(&block);
}

/// Puts commands into the slots of a room of one server and one drive, as its outputs.
fn put_outputs(room: &mut [u32], commands: &[u32]) {
    for (slot, &command) in commands.iter().enumerate() {
        let at = 12 + 15 * slot;
        room[at] = 3;
        room[at + 10] = command;
    }
}

#[test]
fn the_room_has_its_length() {
    assert_eq!(room_length(1, 1, 1), 27);
    assert_eq!(room_length(4, 7, 16), 2_508);
    let sizes = Sizes::fit(2, 3, 2).expect("sizes that fit");
    assert_eq!(sizes.server_at(0, 1), 23);
    assert_eq!(sizes.block_at(0, 0, 0), 34);
    assert_eq!(sizes.block_at(0, 1, 1), 46);
    assert_eq!(sizes.server_at(1, 0), 58);
    let mut room = opened(2, 3, 2);
    assert_eq!(room.len(), 12 + 2 * (11 * 2 + 4 * 3 * 2));
    assert_eq!(room[..12], [2, 3, 2, 0, 255, 255, 200, 200, 120, 120, 60, 60]);
    assert!(room[12..].iter().all(|&cell| cell == 0));
    room[3] = 8;
    refuse(&mut room, Step::Fail { server: 0 }, 3);
}

#[test]
fn open_refuses_sizes_before_length() {
    let bad = [(0, 1, 1), (5, 1, 1), (1, 0, 1), (1, 8, 1), (1, 1, 0), (1, 1, 17)];
    for (servers, drives, slots) in bad.into_iter().chain([(u32::MAX, u32::MAX, u32::MAX)]) {
        for length in [0, 3, 27, 2_508] {
            let mut row = vec![9; length];
            assert_eq!(open(&mut row, servers, drives, slots, &USUAL_LIMITS), Err(1));
            assert!(row.iter().all(|&cell| cell == 9));
        }
        assert_eq!(room_length(servers, drives, slots), 0);
    }
    for length in [0, 3, 17, 19, 26, 28, 2_508] {
        let mut row = vec![9; length];
        assert_eq!(open(&mut row, 1, 1, 1, &USUAL_LIMITS), Err(2));
        assert!(row.iter().all(|&cell| cell == 9));
    }
}

#[test]
fn commands_end_at_their_limits() {
    assert!(is_command(81_724, &USUAL_LIMITS) && is_command(196_608, &USUAL_LIMITS));
    let mut room = opened(1, 1, 1);
    take(&mut room, &[Step::Offer { server: 0, slot: 0, number: 81_724 }]);
    refuse(&mut room, Step::Offer { server: 0, slot: 0, number: 81_725 }, 5);
    take(&mut room, &[Step::Offer { server: 0, slot: 0, number: 196_608 }]);
    refuse(&mut room, Step::Offer { server: 0, slot: 0, number: 196_609 }, 5);
    refuse(&mut room, Step::Offer { server: 0, slot: 0, number: 0 }, 5);
    let limits = [255, 255, 200, 200, 120, 120, 60, 60];
    for value in 0..=300_000 {
        let (kind, piece, hoard) = (value / 65_536, value / 256 % 256, value % 256);
        let stored = |limit: &u32| hoard >= 1 && hoard <= *limit;
        let legal = match kind {
            1 | 2 => limits.get(piece as usize / 8).is_some_and(stored),
            3 => piece <= 63 && hoard == 0,
            _ => false,
        };
        assert_eq!(is_command(value, &limits), legal, "{value}");
    }
}

#[test]
fn ballots_have_owners_and_a_limit() {
    assert_eq!(owner(1_000_000, 2), Some(1));
    assert_eq!(owner(1_000_001, 2), None);
    assert_eq!(owner(0, 2), None);
    let mut room = opened(2, 1, 1);
    let rejoin = |server, number| Step::Rejoin { server, slot: 0, number };
    take(&mut room, &[Step::Recall { server: 1, slot: 0, drive: 0 }]);
    refuse(&mut room, rejoin(1, 1_000_001), 6);
    refuse(&mut room, rejoin(1, 0), 6);
    refuse(&mut room, rejoin(0, 1_000_000), 6);
    take(&mut room, &[rejoin(1, 1_000_000)]);
    for servers in 1..=4 {
        for own in 0..servers {
            for found in (0..=40).chain(999_980..=1_000_000) {
                let least = (found + 1..=1_000_000).find(|&b| owner(b, servers) == Some(own));
                assert_eq!(least_own_above(found, own, servers), least);
            }
        }
    }
}

/// The sets of two and of four drives that are a majority, as marks.
const OF_TWO: [u32; 2] = [0b01, 0b11];
const OF_FOUR: [u32; 8] = [0b0011, 0b0101, 0b1001, 0b0111, 0b1011, 0b1101, 0b1110, 0b1111];

#[test]
fn half_of_the_drives_counts_where_drive_0_is_in_it() {
    for (drives, sets) in [(2, &OF_TWO[..]), (4, &OF_FOUR[..])] {
        for marks in 0..1 << drives {
            assert_eq!(is_majority(marks, drives), sets.contains(&marks), "{marks:b} of {drives}");
        }
    }
    for (drives, least) in [(1, 1), (3, 2), (5, 3), (7, 4)] {
        for marks in 0..1_u32 << drives {
            assert_eq!(is_majority(marks, drives), marks.count_ones() >= least);
        }
    }
}

#[test]
fn two_majorities_share_a_drive() {
    for drives in 1..=7 {
        let all = (1_u32 << drives) - 1;
        let (counting, rest): (Vec<u32>, Vec<u32>) =
            (0..=all).partition(|&marks| is_majority(marks, drives));
        // Of a set and the drives that it lacks, exactly one counts.
        assert!(counting.iter().all(|marks| rest.contains(&(all & !marks))));
        assert_eq!(counting.len(), rest.len());
        for one in &counting {
            assert!(counting.iter().all(|other| one & other != 0));
        }
    }
}

#[test]
fn a_server_outbid_takes_its_next_ballot() {
    let mut room = opened(4, 1, 1);
    put_block(&mut room, 0, 2, [7, 0, 0]);
    let read = Step::Read { server: 1, slot: 0, drive: 0, other: 2 };
    take(
        &mut room,
        &[
            Step::Recall { server: 1, slot: 0, drive: 0 },
            Step::Rejoin { server: 1, slot: 0, number: 2 },
        ],
    );
    refuse(&mut room, read, 9);
    take(&mut room, &[Step::Write { server: 1, slot: 0, drive: 0 }]);
    assert_eq!(step(&mut room, read), Answer::Outbid(7));
    let own = server(&room, 0, 1);
    assert_eq!((own.phase, own.mbal, own.written, own.read), (1, 10, 0, 0));
}

#[test]
fn no_ballot_is_left_at_the_limit() {
    let mut room = opened(2, 1, 1);
    put_block(&mut room, 0, 1, [999_999, 0, 0]);
    take(
        &mut room,
        &[
            Step::Recall { server: 0, slot: 0, drive: 0 },
            Step::Rejoin { server: 0, slot: 0, number: 1 },
            Step::Write { server: 0, slot: 0, drive: 0 },
        ],
    );
    refuse(&mut room, Step::Read { server: 0, slot: 0, drive: 0, other: 1 }, 13);
    put_block(&mut room, 0, 1, [999_998, 0, 0]);
    let read = Step::Read { server: 0, slot: 0, drive: 0, other: 1 };
    assert_eq!(step(&mut room, read), Answer::Outbid(999_998));
    assert_eq!(server(&room, 0, 0).mbal, 999_999);
}

#[test]
fn rejoin_keeps_the_largest_bal() {
    for first in [0, 1] {
        let mut room = opened(2, 2, 1);
        put_block(&mut room, 0, 0, [1, 1, 66_825]);
        put_block(&mut room, 1, 0, [1, 0, 0]);
        for drive in [first, 1 - first] {
            take(&mut room, &[Step::Recall { server: 0, slot: 0, drive }]);
        }
        refuse(&mut room, Step::Rejoin { server: 0, slot: 0, number: 1 }, 11);
        take(&mut room, &[Step::Rejoin { server: 0, slot: 0, number: 3 }]);
        let own = server(&room, 0, 0);
        assert_eq!((own.mbal, own.bal, own.inp), (3, 1, 66_825));
        assert_eq!((own.top, own.seenbal, own.seeninp), (0, 1, 66_825));
    }
}

#[test]
fn finish_chooses_by_bal_and_clears_the_marks() {
    let mut room = opened(3, 1, 1);
    put_block(&mut room, 0, 1, [5, 2, 66_825]);
    put_block(&mut room, 0, 2, [3, 3, 66_826]);
    let (server_0, slot) = (0, 0);
    take(
        &mut room,
        &[
            Step::Offer { server: server_0, slot, number: 66_827 },
            Step::Recall { server: server_0, slot, drive: 0 },
            Step::Rejoin { server: server_0, slot, number: 7 },
            Step::Write { server: server_0, slot, drive: 0 },
            Step::Read { server: server_0, slot, drive: 0, other: 1 },
        ],
    );
    let finish = Step::Finish { server: server_0, slot };
    refuse(&mut room, finish, 10);
    take(&mut room, &[Step::Read { server: server_0, slot, drive: 0, other: 2 }]);
    assert_eq!(step(&mut room, finish), Answer::Chosen(66_826));
    let own = server(&room, 0, 0);
    assert_eq!((own.mbal, own.bal, own.inp), (7, 7, 66_826));
    refuse(&mut room, finish, 10);
    // The own block is among those seen after a new ballot.
    take(&mut room, &[Step::Bid { server: server_0, slot, number: 10 }]);
    let own = server(&room, 0, 0);
    assert_eq!((own.phase, own.seenbal, own.seeninp), (1, 7, 66_826));
}

#[test]
fn catalogue_skips_what_does_not_apply() {
    let (enter, to, strike) = (65_536 + 9, 131_072 + 5, 196_608);
    let commands = [to, strike, enter, enter + 1, to, strike, strike, enter];
    let mut room = opened(1, 1, 9);
    put_outputs(&mut room, &commands);
    let mut out = [7; 64];
    assert_eq!(catalogue(&room, 0, &mut out), Ok((8, 5)));
    assert_eq!(out[0], STRUCK);
    assert!(out[1..].iter().all(|&cell| cell == 0));
    assert_eq!(catalogue(&room, 1, &mut out), Err(4));
    assert_eq!(catalogue(&room[1..], 1, &mut out), Err(3));
    assert_eq!(catalogue(&room[1..], 1, &mut out[1..]), Err(2));
    assert_eq!(out[0], STRUCK);
    // A slot in phase 2 ends the outputs.
    room[12 + 15 * 3] = 2;
    assert_eq!(catalogue(&room, 0, &mut out), Ok((3, 2)));
    assert_eq!(out[0], 9);
}

/// A strike; then an enter, a move and a strike of the same number.
#[test]
fn a_struck_number_stays_struck() {
    assert_eq!(STRUCK, 256);
    let (enter, to, strike) = (66_825, 132_364, 197_888);
    let commands = [enter, strike, enter, to, strike, enter + 256];
    // The counts and the cells of pieces 5 and 6 after the first commands.
    let expected = [
        (1, 0, 9, 0),
        (2, 0, STRUCK, 0),
        (3, 1, STRUCK, 0),
        (4, 2, STRUCK, 0),
        (5, 3, STRUCK, 0),
        (6, 3, STRUCK, 9),
    ];
    for (taken, skipped, piece_5, piece_6) in expected {
        let mut room = opened(1, 1, 7);
        put_outputs(&mut room, &commands[..taken as usize]);
        let (mut out, mut left) = ([7; 64], [0; 64]);
        (left[5], left[6]) = (piece_5, piece_6);
        assert_eq!(catalogue(&room, 0, &mut out), Ok((taken, skipped)));
        assert_eq!(out, left);
    }
}
