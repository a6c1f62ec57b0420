//! What is told and learned, by every small case: two servers and one drive, with
//! each phase, and each command that the cells inp, agreed and done can hold.

use other::{Answer, Sizes, Step, USUAL_LIMITS};
use tests::Pair;

/// None, piece 5 enters hoard 9, and hoard 8.
const VALUES: [u32; 3] = [0, 66_825, 66_824];

/// The own ballot, which is server 0's, and ballots found: none, one below it, the
/// same, the next, and one that leaves server 0 none.
const BALLOT: u32 = 5;
const FOUND: [u32; 5] = [0, 4, 5, 6, 1_000_000];

const SIZES: Sizes = Sizes { servers: 2, drives: 1, slots: 1 };

/// A case: the cells of server 0, its own block on the drive, and the other's.
#[derive(Clone, Copy, Debug)]
struct Case {
    phase: u32,
    inp: u32,
    agreed: u32,
    /// Whether the drive is written, and the blocks there read.
    marked: bool,
    own_done: u32,
    found: u32,
    done: u32,
}

impl Case {
    fn room(self) -> Vec<u32> {
        let mut room = vec![0; SIZES.length()];
        other::open(&mut room, 2, 1, 1, &USUAL_LIMITS).expect("the sizes fit");
        let (written, read) = if self.marked { (1, 3) } else { (0, 0) };
        let (at, inp) = (SIZES.server_at(0, 0), self.inp);
        let record = [self.phase, BALLOT, 3, inp, VALUES[1], 0, 3, inp, written, read, self.agreed];
        room[at..at + 11].copy_from_slice(&record);
        let at = SIZES.block_at(0, 0, 0);
        room[at..at + 4].copy_from_slice(&[1, 1, VALUES[2], self.own_done]);
        let at = SIZES.block_at(0, 0, 1);
        room[at..at + 4].copy_from_slice(&[self.found, 4, VALUES[2], self.done]);
        room
    }

    /// What a Read of the other's block answers, where the drive is on.
    fn read(self) -> Answer {
        match self {
            Case { phase: 0 | 3, .. } => Answer::Refused(7),
            Case { marked: false, .. } => Answer::Refused(9),
            Case { done: 1.., .. } => Answer::Committed(self.done),
            Case { found: 0..BALLOT, .. } => Answer::Done,
            Case { found: 1_000_000, .. } => Answer::Refused(13),
            Case { found, .. } => Answer::Outbid(found),
        }
    }

    /// What the server's catalogue takes.
    fn taken(self) -> u32 {
        u32::from(self.phase == 3 && self.agreed != 0)
    }

    /// The own block's done after a Write.
    fn told(self) -> u32 {
        match self.phase {
            0 => self.own_done,
            3 => self.agreed,
            _ => 0,
        }
    }
}

fn every_case() -> impl Iterator<Item = Case> {
    let cells = (0..81).map(|n| [n / 27, n / 9 % 3, n / 3 % 3, n % 3].map(|at| VALUES[at]));
    cells.flat_map(|[inp, agreed, own_done, done]| {
        FOUND.into_iter().flat_map(move |found| {
            (0..8).map(move |n| {
                let (phase, marked) = (n / 2, n % 2 == 1);
                Case { phase, inp, agreed, marked, own_done, found, done }
            })
        })
    })
}

/// Takes a step in the room of a case, with the drive off or on; then every catalogue
/// is made.
fn step(case: Case, off: bool, step: Step) -> (Answer, Pair) {
    let mut room = case.room();
    room[3] = off.into();
    let mut pair = Pair::over(room);
    let answer = pair.step(step);
    for server in 0..2 {
        pair.catalogue(server, 64).expect("the room is in range");
    }
    (answer, pair)
}

const READ: Step = Step::Read { server: 0, slot: 0, drive: 0, other: 1 };
const WRITE: Step = Step::Write { server: 0, slot: 0, drive: 0 };
const FINISH: Step = Step::Finish { server: 0, slot: 0 };

/// The steps that neither tell nor learn anything.
const OTHERS: [Step; 7] = [
    Step::Offer { server: 0, slot: 0, number: VALUES[2] },
    Step::Recall { server: 0, slot: 0, drive: 0 },
    Step::Rejoin { server: 0, slot: 0, number: 7 },
    Step::Bid { server: 0, slot: 0, number: 7 },
    FINISH,
    Step::Fail { server: 0 },
    Step::Fail { server: 1 },
];

#[test]
fn every_step_of_every_case() {
    let mut cases = 0;
    for case in every_case() {
        cases += 1;
        assert_eq!(Pair::over(case.room()).catalogue(0, 64), Ok((case.taken(), 0)), "{case:?}");
        let (answer, pair) = step(case, false, READ);
        assert_eq!(answer, case.read(), "{case:?}");
        if let Answer::Committed(command) = answer {
            let learned = [3, BALLOT, 3, case.inp, VALUES[1], 0, 3, case.inp, 0, 0, command];
            assert_eq!(pair.cells()[12..23], learned, "{case:?}");
        }
        let (answer, pair) = step(case, false, WRITE);
        assert_eq!(answer == Answer::Done, case.phase != 0, "{case:?}");
        let at = SIZES.block_at(0, 0, 0);
        assert_eq!(pair.cells()[at + 3], case.told(), "{case:?}");
        for next in OTHERS {
            step(case, false, next);
        }
        for next in [READ, WRITE].into_iter().chain(OTHERS) {
            step(case, true, next);
        }
    }
    assert_eq!(cases, 4 * 2 * 81 * 5);
}
