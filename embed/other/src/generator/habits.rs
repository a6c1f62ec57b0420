//! How a run goes.

use super::chance::Chance;

/// How a run goes. The rates are of a thousand steps, that of `tells` of a
/// thousand turns.
#[derive(Clone, Copy, Debug)]
pub struct Habits {
    /// Steps of any kind.
    pub noise: u32,
    /// Failures of a server.
    pub failures: u32,
    /// Switches of a drive.
    pub switches: u32,
    /// Bids without need.
    pub bids: u32,
    /// Turns of a server that writes what it knows to be settled to the drives,
    /// so that others learn it there.
    pub tells: u32,
    /// About how many steps a server takes before another does.
    pub turn: u32,
    /// The slots where ballots are near the limit, as marks.
    pub high: u32,
    /// Whether half of the drives, rounded down, are off from the start, and
    /// later, now and then, another half.
    pub half_off: bool,
}

impl Habits {
    /// Habits of every sort.
    pub fn any(chance: &mut Chance) -> Habits {
        let high = if chance.one_in(3) { chance.draw() as u32 & chance.draw() as u32 } else { 0 };
        Habits {
            noise: chance.one_of(&[10, 40, 100, 250]),
            failures: chance.one_of(&[0, 2, 8, 20]),
            switches: chance.one_of(&[0, 5, 30]),
            bids: chance.one_of(&[0, 2, 10]),
            tells: chance.one_of(&[0, 100, 300, 800]),
            turn: chance.one_of(&[3, 8, 20, 40, 80]),
            high,
            half_off: chance.one_in(2),
        }
    }
}
