//! What is settled is told by the cell done and learned by a Read: the examples of
//! 02, and each rule in rooms that no run reaches.

use other::{
    ask, catalogue, judge, open, room_length, step, Answer, Block, Server, Step, USUAL_LIMITS,
};

/// Piece 5 enters hoard 9, and hoard 8; piece 6 enters hoard 9.
const COIN: u32 = 66_825;
const OTHER_COIN: u32 = 66_824;
const THIRD_COIN: u32 = 67_081;

/// The first cell of server 0's record, and of server 1's block on drive 0, in a
/// room of 2 servers, 3 drives and 1 slot.
const SERVER_0: usize = 12;
const BLOCK_1: usize = 12 + 2 * 11 + 4;

fn opened() -> Vec<u32> {
    let mut room = vec![7; room_length(2, 3, 1) as usize];
    assert_eq!(open(&mut room, 2, 3, 1, &USUAL_LIMITS), Ok(()));
    room
}

/// A room with this record of server 0.
fn with_record(record: [u32; 11]) -> Vec<u32> {
    let mut room = opened();
    room[SERVER_0..SERVER_0 + 11].copy_from_slice(&record);
    room
}

fn record_0(room: &[u32]) -> &[u32] {
    &room[SERVER_0..SERVER_0 + 11]
}

fn server(room: &[u32], server: usize) -> Server {
    Server::load(room, judge(room).expect("a room in range").server_at(0, server))
}

/// The mbal, bal, inp and done of a block.
fn block(room: &[u32], drive: usize, server: usize) -> [u32; 4] {
    let at = judge(room).expect("a room in range").block_at(0, drive, server);
    let Block { mbal, bal, inp, done } = Block::load(room, at);
    [mbal, bal, inp, done]
}

fn recall(server: u8, drive: u8) -> Step {
    Step::Recall { server, slot: 0, drive }
}

fn rejoin(server: u8, number: u32) -> Step {
    Step::Rejoin { server, slot: 0, number }
}

fn write(server: u8, drive: u8) -> Step {
    Step::Write { server, slot: 0, drive }
}

/// Reads the other server's block.
fn read(server: u8, drive: u8) -> Step {
    Step::Read { server, slot: 0, drive, other: 1 - server }
}

fn finish(server: u8) -> Step {
    Step::Finish { server, slot: 0 }
}

/// Takes steps that are all done.
fn take(room: &mut [u32], steps: &[Step]) {
    for &next in steps {
        assert_eq!(step(room, next), Answer::Done, "{next:?}");
    }
}

fn refuse(room: &mut [u32], next: Step, number: u32) {
    let before = room.to_vec();
    assert_eq!(step(room, next), Answer::Refused(number), "{next:?}");
    assert_eq!(room, before, "{next:?}");
}

/// Server 0 settles the coin on drives 0 and 1 with this ballot.
fn settle(room: &mut [u32], ballot: u32) {
    let both = [write(0, 0), read(0, 0), write(0, 1), read(0, 1)];
    take(room, &[Step::Offer { server: 0, slot: 0, number: COIN }, recall(0, 0), recall(0, 1)]);
    take(room, &[rejoin(0, ballot)]);
    take(room, &both);
    assert_eq!(step(room, finish(0)), Answer::Chosen(COIN));
    take(room, &both);
    assert_eq!(step(room, finish(0)), Answer::Committed(COIN));
}

/// The server's catalogue has taken the coin alone.
fn shows_the_coin(room: &[u32], server: u32) {
    let mut out = [7; 64];
    assert_eq!(catalogue(room, server, &mut out), Ok((1, 0)));
    assert!(out.iter().enumerate().all(|(piece, &cell)| cell == if piece == 5 { 9 } else { 0 }));
}

#[test]
fn a_server_that_settled_tells_it_to_the_drives() {
    let mut room = opened();
    settle(&mut room, 1);
    assert_eq!(record_0(&room), [3, 1, 1, COIN, COIN, 0, 1, COIN, 0, 0, COIN]);
    // In phases 1 and 2 nothing was told.
    assert_eq!(block(&room, 0, 0), [1, 1, COIN, 0]);
    take(&mut room, &[write(0, 0), write(0, 2)]);
    assert_eq!(server(&room, 0).written, 0b101);
    assert_eq!(block(&room, 0, 0), [1, 1, COIN, COIN]);
    assert_eq!(block(&room, 1, 0), [1, 1, COIN, 0]);
    assert_eq!(block(&room, 2, 0), [1, 1, COIN, COIN]);
    // A Write may be repeated. A drive that is off is not written.
    take(&mut room, &[write(0, 0), Step::DriveOff { drive: 1 }]);
    refuse(&mut room, write(0, 1), 8);
    shows_the_coin(&room, 0);
}

/// A late server learns the entry without a Finish; then the first one fails, and
/// learns it from the late one.
#[test]
fn a_late_server_learns_without_a_finish() {
    let mut room = opened();
    settle(&mut room, 1);
    take(&mut room, &[write(0, 0)]);
    take(&mut room, &[recall(1, 0), recall(1, 1), rejoin(1, 2), write(1, 1), read(1, 1)]);
    assert_eq!(catalogue(&room, 1, &mut [0; 64]), Ok((0, 0)));
    take(&mut room, &[write(1, 0)]);
    assert_eq!(step(&mut room, read(1, 0)), Answer::Committed(COIN));
    // It keeps its own ballot, and has tried no command.
    let learned = Server { phase: 3, mbal: 2, agreed: COIN, ..Server::default() };
    assert_eq!(server(&room, 1), learned);
    shows_the_coin(&room, 1);
    assert_eq!(ask(&room, 1), Err(17));
    for next in [finish(1), read(1, 0), Step::Bid { server: 1, slot: 0, number: 4 }, rejoin(1, 4)] {
        refuse(&mut room, next, 7);
    }
    // What it has on the drives does not tell it yet.
    assert_eq!(block(&room, 0, 1), [2, 0, 0, 0]);
    take(&mut room, &[write(1, 0)]);
    assert_eq!(block(&room, 0, 1), [2, 0, 0, COIN]);

    take(&mut room, &[Step::Fail { server: 0 }]);
    assert_eq!(server(&room, 0), Server::default());
    take(&mut room, &[recall(0, 0), recall(0, 1)]);
    assert_eq!(catalogue(&room, 0, &mut [0; 64]), Ok((0, 0)));
    take(&mut room, &[rejoin(0, 3), write(0, 0)]);
    assert_eq!(block(&room, 0, 0), [3, 1, COIN, 0]);
    assert_eq!(step(&mut room, read(0, 0)), Answer::Committed(COIN));
    assert_eq!(record_0(&room), [3, 3, 1, COIN, 0, 0, 1, COIN, 0, 0, COIN]);
    shows_the_coin(&room, 0);
}

#[test]
fn a_larger_ballot_does_not_hide_what_is_settled() {
    let mut room = opened();
    settle(&mut room, 999_999);
    take(&mut room, &[recall(1, 0), recall(1, 1), rejoin(1, 2), write(1, 0), write(1, 1)]);
    let mut outbid = room.clone();
    assert_eq!(step(&mut outbid, read(1, 1)), Answer::Outbid(999_999));
    take(&mut room, &[write(0, 1)]);
    assert_eq!(step(&mut room, read(1, 1)), Answer::Committed(COIN));
    assert_eq!(server(&room, 1).mbal, 2);
    shows_the_coin(&room, 1);
}

#[test]
fn write_tells_what_is_agreed_in_phase_3_alone() {
    for (phase, agreed) in [(1, COIN), (2, COIN), (3, COIN), (3, 0)] {
        let old = [phase, 5, 3, OTHER_COIN, THIRD_COIN, 7, 9, THIRD_COIN, 0b100, 0x220, agreed];
        let mut room = with_record(old);
        // Another command was told there.
        room[BLOCK_1 - 4..BLOCK_1].copy_from_slice(&[1, 1, COIN, THIRD_COIN]);
        take(&mut room, &[write(0, 0)]);
        let done = if phase == 3 { agreed } else { 0 };
        assert_eq!(block(&room, 0, 0), [5, 3, OTHER_COIN, done]);
        let mut new = old;
        new[8] = 0b101;
        assert_eq!(record_0(&room), new);
    }
}

#[test]
fn a_learner_keeps_its_own_block_and_marks_nothing() {
    let old = [5, 3, OTHER_COIN, THIRD_COIN, 7, 4, THIRD_COIN, 0b111, 0x220, THIRD_COIN];
    let new = [3, 5, 3, OTHER_COIN, THIRD_COIN, 0, 3, OTHER_COIN, 0, 0, COIN];
    // A ballot below the own one, the same, and one that leaves none above it.
    for found in [0, 4, 5, 6, 1_000_000] {
        for phase in [1, 2] {
            let mut room = opened();
            room[SERVER_0] = phase;
            room[SERVER_0 + 1..SERVER_0 + 11].copy_from_slice(&old);
            room[BLOCK_1..BLOCK_1 + 4].copy_from_slice(&[found, 1_000_000, THIRD_COIN, COIN]);
            assert_eq!(step(&mut room, read(0, 0)), Answer::Committed(COIN));
            assert_eq!(record_0(&room), new);
            assert_eq!(block(&room, 0, 1), [found, 1_000_000, THIRD_COIN, COIN]);
        }
    }
}

#[test]
fn recall_ignores_done() {
    let mut room = with_record([0, 5, 3, 0, 0, 0, 0, 0, 0, 0, 0]);
    room[BLOCK_1 - 4..BLOCK_1].copy_from_slice(&[9, 4, OTHER_COIN, COIN]);
    take(&mut room, &[recall(0, 0)]);
    assert_eq!(record_0(&room), [0, 5, 3, 0, 0, 9, 4, OTHER_COIN, 0, 1, 0]);
    // Not even a block that tells something and has nothing else.
    let mut room = opened();
    room[BLOCK_1 - 1] = COIN;
    take(&mut room, &[recall(0, 0)]);
    assert_eq!(record_0(&room), [0, 0, 0, 0, 0, 0, 0, 0, 0, 1, 0]);
}

/// A command that is agreed stays in every step but Fail, a Finish in phase 2 and a
/// Read that learns. It is no output outside phase 3.
#[test]
fn other_steps_leave_agreed_alone() {
    let all = 0x222;
    let steps = [
        (0, recall(0, 0), Answer::Done),
        (0, rejoin(0, 7), Answer::Done),
        (1, Step::Bid { server: 0, slot: 0, number: 7 }, Answer::Done),
        (2, Step::Bid { server: 0, slot: 0, number: 7 }, Answer::Done),
        (1, write(0, 0), Answer::Done),
        (2, Step::Offer { server: 0, slot: 0, number: OTHER_COIN }, Answer::Done),
        (1, read(0, 0), Answer::Done),
        (2, read(0, 1), Answer::Outbid(6)),
        (1, finish(0), Answer::Chosen(OTHER_COIN)),
    ];
    for (phase, next, answer) in steps {
        let marks = if phase == 0 { 0x111 } else { all };
        let mut room = with_record([phase, 5, 0, 0, OTHER_COIN, 0, 0, 0, 0b111, marks, COIN]);
        // Server 1's block on drive 1.
        room[BLOCK_1 + 8] = 6;
        assert_eq!(step(&mut room, next), answer, "{next:?}");
        assert_eq!(server(&room, 0).agreed, COIN, "{next:?}");
        assert_eq!(catalogue(&room, 0, &mut [0; 64]), Ok((0, 0)), "{next:?}");
    }
}

#[test]
fn a_finish_in_phase_2_agrees_on_inp_whatever_stood_there() {
    for inp in [COIN, 0] {
        for agreed in [0, OTHER_COIN] {
            let mut room = with_record([2, 5, 5, inp, 0, 0, 5, inp, 0b011, 0x022, agreed]);
            assert_eq!(step(&mut room, finish(0)), Answer::Committed(inp));
            assert_eq!(record_0(&room), [3, 5, 5, inp, 0, 0, 5, inp, 0, 0, inp]);
        }
    }
}

#[test]
fn the_output_is_agreed_and_not_inp() {
    let mut room = with_record([3, 5, 5, OTHER_COIN, 0, 0, 5, OTHER_COIN, 0, 0, COIN]);
    shows_the_coin(&room, 0);
    room[SERVER_0 + 10] = 0;
    assert_eq!(catalogue(&room, 0, &mut [0; 64]), Ok((0, 0)));
}
