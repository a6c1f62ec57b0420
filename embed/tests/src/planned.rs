//! What a server alone takes next, said once more: of the steps of its phase, in their
//! order, the first that is not marked, where a call of it would be accepted.

use other::{is_majority, least_own_above, owner, Answer, Server, Sizes, Step, BALLOT_LIMIT};

use crate::Pair;

/// What was found for a server in a slot.
#[derive(Clone, Copy, Debug, PartialEq, Eq, PartialOrd, Ord)]
pub enum Look {
    /// A step of this kind is next.
    Step(&'static str),
    /// Nothing is next in phase 3.
    Settled,
    /// Nothing is next, for the step would be refused with this number.
    Stuck(u32),
    /// Next is refused with this number.
    Refused(u32),
}

/// Looks at the next step of a server in a slot of a room in range, by both
/// implementations. It is the planned one where that is accepted, and else there is none.
pub fn look(pair: &mut Pair, sizes: Sizes, (server, slot): (usize, usize), length: usize) -> Look {
    let next = pair.next(server as u32, slot as u32, length);
    if used(pair.cells()[3], sizes.drives).is_none() {
        assert_eq!(next, Err(19), "{sizes:?}");
        return Look::Refused(19);
    }
    let Some(step) = planned(pair.cells(), sizes, server, slot) else {
        assert_eq!(next, Ok(None), "{sizes:?} in phase 3");
        return Look::Settled;
    };
    match Pair::over(pair.cells().to_vec()).step(step) {
        Answer::Refused(number) => {
            assert_eq!(next, Ok(None), "{sizes:?}: {step:?} is refused with {number}");
            Look::Stuck(number)
        }
        _ => {
            assert_eq!(next, Ok(Some(step)), "{sizes:?}");
            Look::Step(kind(step))
        }
    }
}

/// The marks of the shortest run of drives that are on, by rising number, that is a
/// majority.
pub fn used(off: u32, drives: usize) -> Option<u32> {
    let up_to = |last: usize| !off & ((2 << last) - 1);
    (0..drives).map(up_to).find(|&marks| is_majority(marks, drives))
}

/// The step that is planned, whether it would be accepted or not; none in phase 3. Where
/// no ballot is left the last one stands in the Rejoin, and it is refused.
fn planned(cells: &[u32], sizes: Sizes, server: usize, slot: usize) -> Option<Step> {
    let own = Server::load(cells, sizes.server_at(slot, server));
    let marks = used(cells[3], sizes.drives)?;
    let drives = (0..sizes.drives).filter(|drive| marks >> drive & 1 == 1);
    let read = |drive: usize, of: usize| own.read >> (4 * drive + of) & 1 == 1;
    let (p, slot) = (server as u8, slot as u8);
    let mut steps = Vec::new();
    for drive in drives {
        let d = drive as u8;
        if own.phase == 0 {
            steps.push((read(drive, server), Step::Recall { server: p, slot, drive: d }));
            continue;
        }
        let written = own.written >> drive & 1 == 1;
        steps.push((written, Step::Write { server: p, slot, drive: d }));
        for other in (0..sizes.servers).filter(|&other| other != server) {
            let step = Step::Read { server: p, slot, drive: d, other: other as u8 };
            steps.push((read(drive, other), step));
        }
    }
    let last = match own.phase {
        0 => Step::Rejoin { server: p, slot, number: ballot(own.top, p.into(), sizes) },
        1 | 2 => Step::Finish { server: p, slot },
        _ => return None,
    };
    let missing = steps.into_iter().find(|&(marked, _)| !marked);
    Some(missing.map_or(last, |(_, step)| step))
}

/// The server's least ballot above one, or its last one where none is left.
fn ballot(above: u32, server: u32, sizes: Sizes) -> u32 {
    let servers = sizes.servers as u32;
    let last = || (0..=BALLOT_LIMIT).rev().find(|&b| owner(b, servers) == Some(server));
    least_own_above(above, server, servers).or_else(last).unwrap_or(0)
}

fn kind(step: Step) -> &'static str {
    match step {
        Step::Recall { .. } => "recall",
        Step::Rejoin { .. } => "rejoin",
        Step::Write { .. } => "write",
        Step::Read { .. } => "read",
        Step::Finish { .. } => "finish",
        _ => panic!("a step that is never planned: {step:?}"),
    }
}
