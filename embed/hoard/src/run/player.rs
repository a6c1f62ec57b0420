//! Makes the calls of a scenario, one after the other, in a room of the proved library.

use register::{Answer, Catalogue, Command, Error, Room, Step};

use super::ending::{Ending, NoNext};
use super::event::{off_marks, seen, Event, Reply};
use super::places::Places;
use super::reason::{minority, missing};
use crate::scenario::{Call, Scenario, Sizes, Spoken};

/// What is shown of a run, in its order.
#[derive(Clone, Debug, PartialEq, Eq)]
pub enum Moment {
    /// A Settle begins: its steps follow.
    Begins {
        /// The server.
        server: u8,
        /// The slot.
        slot: u8,
    },
    /// A call was made.
    Made(Event),
    /// A Settle ends.
    Ends(Ending),
}

/// The room of a scenario while it is played.
pub struct Player {
    room: Room,
    sizes: Sizes,
    /// How many calls were made.
    made: usize,
}

impl Player {
    /// Opens the room of a scenario.
    ///
    /// # Errors
    ///
    /// What the library says of sizes or limits that it refuses. A scenario that was read has
    /// none of these.
    pub fn open(scenario: &Scenario) -> Result<Player, Error> {
        let Sizes { servers, drives, slots } = scenario.sizes;
        let room = Room::open_with(servers, drives, slots, scenario.room_limits())?;
        Ok(Player { room, sizes: scenario.sizes, made: 0 })
    }

    /// Does what one line asks for, and shows what happens.
    ///
    /// # Errors
    ///
    /// Those of `show`.
    pub fn play<E>(
        &mut self,
        line: usize,
        spoken: Spoken,
        show: &mut impl FnMut(Moment) -> Result<(), E>,
    ) -> Result<(), E> {
        match spoken {
            Spoken::Call(call) => show(Moment::Made(self.make(line, call))),
            Spoken::Settle { server, slot } => {
                show(Moment::Begins { server, slot })?;
                let ending = self.settle(line, server, slot, show)?;
                show(Moment::Ends(ending))
            }
        }
    }

    /// The catalogue of a server.
    ///
    /// # Errors
    ///
    /// [`Error::Beyond`] where the room has no such server.
    pub fn catalogue(&self, server: u32) -> Result<Catalogue, Error> {
        self.room.catalogue(server)
    }

    /// Follows the next step of a server in a slot until one commits or there is none.
    fn settle<E>(
        &mut self,
        line: usize,
        server: u8,
        slot: u8,
        show: &mut impl FnMut(Moment) -> Result<(), E>,
    ) -> Result<Ending, E> {
        let before = self.made;
        loop {
            let steps = self.made - before;
            let step = match self.room.next(server.into(), slot.into()) {
                Err(error) => return Ok(self.refused(error, server, slot)),
                Ok(None) => return Ok(Ending::NoNext { steps, why: self.why_none(server, slot) }),
                Ok(Some(step)) => step,
            };
            let event = self.make(line, Call::Step(step));
            let reply = event.reply;
            show(Moment::Made(event))?;
            if let Reply::Answer(Answer::Committed(command)) = reply {
                return Ok(Ending::Settled { steps: steps + 1, command });
            }
        }
    }

    /// That a settle was refused, and why.
    fn refused(&self, error: Error, server: u8, slot: u8) -> Ending {
        let places =
            Places { server: Some(server.into()), slot: Some(slot.into()), ..Places::default() };
        let off = off_marks(&self.room);
        let reason = match error {
            Error::Beyond => missing(self.sizes, places),
            Error::NoMajorityOn => {
                let is_on = |drive: &u32| off >> drive & 1 == 0;
                Some(minority(self.sizes, is_on, ["is on", "are on"]))
            }
            _ => None,
        };
        Ending::Refused { error, reason: reason.unwrap_or_else(|| error.text().to_string()) }
    }

    /// Why a server has no next step in a slot: in a copy of the room it offers a command, and has
    /// a step then where that was missing.
    fn why_none(&self, server: u8, slot: u8) -> NoNext {
        let record = self.room.server(server.into(), slot.into());
        if record.is_some_and(|record| record.phase == 3) {
            return NoNext::Settled;
        }
        // Every room has this command.
        let command = Command::enter(0, 1).map_or(0, Command::number);
        let mut copy = self.room.clone();
        let offered = copy.step(Step::Offer { server, slot, command });
        match offered.and_then(|_| copy.next(server.into(), slot.into())) {
            Ok(Some(_)) => NoNext::NothingOffered,
            _ => NoNext::NoBallot,
        }
    }

    /// Makes a call.
    fn make(&mut self, line: usize, call: Call) -> Event {
        let before = seen(&self.room, self.sizes, call);
        let reply = self.reply(call);
        let after = seen(&self.room, self.sizes, call);
        self.made += 1;
        Event { number: self.made, line, call, reply, before, after }
    }

    /// What the library answers.
    fn reply(&mut self, call: Call) -> Reply {
        let answered = match call {
            Call::Step(step) => self.room.step(step).map(Reply::Answer),
            Call::Ask { server } => self.room.ask(server.into()).map(Reply::Slot),
            Call::Put { server, slot, command } => self
                .room
                .put(server.into(), slot.into(), command)
                .map(|()| Reply::Answer(Answer::Done)),
        };
        answered.unwrap_or_else(Reply::Refused)
    }
}
