//! How often exactly half of the drives decide a step.

use super::replay::Taken;
use crate::refusal;
use crate::room::Sizes;
use crate::server::Server;
use crate::steps::{Answer, Step};

/// The numbers of drives of which a set can be exactly half.
const EVEN: [usize; 3] = [2, 4, 6];

/// Rejoins and Finishes that half of the drives decided, for 2, 4 and 6 drives.
#[derive(Clone, Debug, Default)]
pub struct Halves {
    /// Accepted: drive 0 was in the half.
    accepted: [u64; 3],
    /// Refused for want of a majority: it was not.
    refused: [u64; 3],
}

impl Halves {
    /// Counts a step, if half of the drives decided it.
    pub fn count(&mut self, taken: &Taken) {
        let &Taken { sizes, before, step, answer } = taken;
        let place = EVEN.iter().position(|&even| even == sizes.drives);
        let (Some(place), Some(half)) = (place, decisive_half(before, sizes, step)) else {
            return;
        };
        match (half & 1, answer) {
            (0, Answer::Refused(refusal::NO_MAJORITY)) => self.refused[place] += 1,
            (1, Answer::Done | Answer::Chosen(_) | Answer::Committed(_)) => {
                self.accepted[place] += 1;
            }
            _ => {}
        }
    }

    /// The least of the counts.
    pub fn least(&self) -> u64 {
        self.accepted.iter().chain(&self.refused).copied().min().unwrap_or(0)
    }

    /// A line for each number of drives.
    pub fn report(&self) -> String {
        let line = |place: usize| {
            let (accepted, refused) = (self.accepted[place], self.refused[place]);
            format!("half of {} drives: accepted {accepted}, refused {refused}\n", EVEN[place])
        };
        (0..EVEN.len()).map(line).collect()
    }
}

/// The marks of the drives that a Rejoin or a Finish has, where they are exactly
/// half of all and the server is in a phase for the step.
fn decisive_half(room: &[u32], sizes: Sizes, next: Step) -> Option<u32> {
    let (Step::Rejoin { server, slot, .. } | Step::Finish { server, slot }) = next else {
        return None;
    };
    let (server, slot) = (server as usize, slot as usize);
    if server >= sizes.servers || slot >= sizes.slots {
        return None;
    }
    let own = Server::load(room, sizes.server_at(slot, server));
    let marks = match (next, own.phase) {
        (Step::Rejoin { .. }, 0) => own.recalled(server, sizes.drives),
        (Step::Finish { .. }, 1 | 2) => own.completed(server, sizes.servers, sizes.drives),
        _ => return None,
    };
    (2 * marks.count_ones() as usize == sizes.drives).then_some(marks)
}
