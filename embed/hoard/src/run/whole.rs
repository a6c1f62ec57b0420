//! A whole run, once it was played.

use std::convert::Infallible;

use register::{Answer, Catalogue, Error};

use super::ending::Ending;
use super::event::{Event, Reply};
use super::player::{Moment, Player};
use crate::scenario::{Scenario, Sizes};

/// A run that was played.
#[derive(Clone, Debug)]
pub struct Run {
    /// The first lines of its scenario: the room, and its limits where they are named.
    pub opening: String,
    /// The sizes of its room.
    pub sizes: Sizes,
    /// The calls that were made.
    pub events: Vec<Event>,
    /// The settles that settled nothing, each in words with its line and how it ended.
    pub open: Vec<String>,
    /// The catalogue of each server at the end.
    pub catalogues: Vec<Catalogue>,
}

impl Run {
    /// Plays a scenario; `progress` is told before each line how many lines were played.
    ///
    /// # Errors
    ///
    /// What the library says of sizes or limits that it refuses.
    pub fn of(scenario: &Scenario, mut progress: impl FnMut(usize)) -> Result<Run, Error> {
        let mut player = Player::open(scenario)?;
        let (mut events, mut open) = (Vec::new(), Vec::new());
        for (played, &(line, spoken)) in scenario.lines.iter().enumerate() {
            progress(played);
            let Ok(()) = player.play(line, spoken, &mut |moment| {
                match moment {
                    Moment::Made(event) => events.push(event),
                    Moment::Begins { .. } | Moment::Ends(Ending::Settled { .. }) => {}
                    Moment::Ends(ending) => open.push(format!("line {line}, {spoken}: {ending}")),
                }
                Ok::<(), Infallible>(())
            });
        }
        let sizes = scenario.sizes;
        let catalogues = (0..sizes.servers).map(|server| player.catalogue(server));
        let catalogues = catalogues.collect::<Result<_, _>>()?;
        Ok(Run { opening: scenario.opening(), sizes, events, open, catalogues })
    }

    /// How many calls were made, refused and answered committed.
    pub fn summary(&self) -> String {
        let count =
            |test: fn(&Event) -> bool| self.events.iter().filter(|event| test(event)).count();
        let refused = count(|event| event.refused().is_some());
        let committed = count(|event| matches!(event.reply, Reply::Answer(Answer::Committed(_))));
        format!("{} calls, {refused} refused, {committed} committed", self.events.len())
    }
}
