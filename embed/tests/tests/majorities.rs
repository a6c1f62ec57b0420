//! Every set of drives, of every number of drives: which are enough for Rejoin and
//! for Finish.

use other::{Answer, Step, USUAL_LIMITS};
use tests::Pair;

/// Piece 5 enters hoard 9.
const COIN: u32 = 66_825;

/// A step of server 0 in slot 0.
fn recall(drive: u8) -> Step {
    Step::Recall { server: 0, slot: 0, drive }
}

fn write(drive: u8) -> Step {
    Step::Write { server: 0, slot: 0, drive }
}

const REJOIN: Step = Step::Rejoin { server: 0, slot: 0, number: 1 };
const FINISH: Step = Step::Finish { server: 0, slot: 0 };

/// A room of one slot where server 0 offers, and has recalled these drives.
fn recalled(servers: u32, drives: u8, set: u32) -> Pair {
    let cells = other::room_length(servers, drives.into(), 1) as usize;
    let mut pair = Pair::over(vec![5; cells]);
    pair.open(servers, drives.into(), 1, USUAL_LIMITS).expect("the sizes fit");
    assert_eq!(pair.step(Step::Offer { server: 0, slot: 0, number: COIN }), Answer::Done);
    each(&mut pair, drives, set, recall);
    pair
}

/// Takes a step for each drive of the set.
fn each(pair: &mut Pair, drives: u8, set: u32, step: fn(u8) -> Step) {
    for drive in (0..drives).filter(|drive| set >> drive & 1 == 1) {
        assert_eq!(pair.step(step(drive)), Answer::Done);
    }
}

/// Writes the drives of the set, and reads every other server's block there.
fn complete(pair: &mut Pair, servers: u32, drives: u8, set: u32) {
    each(pair, drives, set, write);
    for other in 1..servers as u8 {
        for drive in (0..drives).filter(|drive| set >> drive & 1 == 1) {
            assert_eq!(pair.step(Step::Read { server: 0, slot: 0, drive, other }), Answer::Done);
        }
    }
}

/// Rejoins and finishes both phases with the drives of the set alone.
fn settles(servers: u32, drives: u8, set: u32) {
    let mut pair = recalled(servers, drives, set);
    assert_eq!(pair.step(REJOIN), Answer::Done);
    complete(&mut pair, servers, drives, set);
    assert_eq!(pair.step(FINISH), Answer::Chosen(COIN));
    complete(&mut pair, servers, drives, set);
    assert_eq!(pair.step(FINISH), Answer::Committed(COIN));
}

/// Neither Rejoin nor Finish, in either phase, is accepted with the drives of the
/// set; with all drives each is.
fn stays(servers: u32, drives: u8, set: u32) {
    let all = (1 << drives) - 1;
    let mut pair = recalled(servers, drives, set);
    assert_eq!(pair.step(REJOIN), Answer::Refused(10));
    each(&mut pair, drives, all, recall);
    assert_eq!(pair.step(REJOIN), Answer::Done);
    complete(&mut pair, servers, drives, set);
    assert_eq!(pair.step(FINISH), Answer::Refused(10));
    complete(&mut pair, servers, drives, all);
    assert_eq!(pair.step(FINISH), Answer::Chosen(COIN));
    complete(&mut pair, servers, drives, set);
    assert_eq!(pair.step(FINISH), Answer::Refused(10));
}

#[test]
fn every_set_of_drives() {
    for drives in 1..=7_u8 {
        for set in 0..1_u32 << drives {
            let (size, all) = (set.count_ones(), u32::from(drives));
            // 02: more than half, or of an even number exactly half with drive 0.
            let majority = match all % 2 {
                0 if size == all / 2 => set % 2 == 1,
                _ => size > all / 2,
            };
            for servers in 1..=4 {
                match majority {
                    true => settles(servers, drives, set),
                    false => stays(servers, drives, set),
                }
            }
        }
    }
}
