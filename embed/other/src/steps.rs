//! The ten steps. Each rule has its checks first and its effect after.

use crate::ballots::{least_own_above, owner};
use crate::refusal;
use crate::room::{has_command, judge, Sizes, OFF};
use crate::server::{is_majority, Block, Server};

/// A step. A number is a command in Offer, a ballot in Rejoin and Bid.
#[derive(Clone, Copy, Debug, PartialEq, Eq)]
#[allow(missing_docs)]
pub enum Step {
    Offer { server: u8, slot: u8, number: u32 },
    Recall { server: u8, slot: u8, drive: u8 },
    Rejoin { server: u8, slot: u8, number: u32 },
    Bid { server: u8, slot: u8, number: u32 },
    Write { server: u8, slot: u8, drive: u8 },
    Read { server: u8, slot: u8, drive: u8, other: u8 },
    Finish { server: u8, slot: u8 },
    Fail { server: u8 },
    DriveOff { drive: u8 },
    DriveOn { drive: u8 },
}

/// What a step answers.
#[derive(Clone, Copy, Debug, PartialEq, Eq)]
pub enum Answer {
    /// The step was done.
    Done,
    /// A Read found this ballot, not below the own one.
    Outbid(u32),
    /// A Finish in phase 1 took this command.
    Chosen(u32),
    /// A Finish in phase 2 put out this command, or a Read learned it.
    Committed(u32),
    /// Nothing changed, for the reason with this number.
    Refused(u32),
}

/// Judges the room, then takes one step in it.
pub fn step(room: &mut [u32], step: Step) -> Answer {
    let Some(sizes) = judge(room) else {
        return Answer::Refused(refusal::RANGE);
    };
    let mut view = View { room, sizes };
    let result = match step {
        Step::Offer { server, slot, number } => view.offer(server, slot, number),
        Step::Recall { server, slot, drive } => view.recall(server, slot, drive),
        Step::Rejoin { server, slot, number } => view.rejoin(server, slot, number),
        Step::Bid { server, slot, number } => view.bid(server, slot, number),
        Step::Write { server, slot, drive } => view.write(server, slot, drive),
        Step::Read { server, slot, drive, other } => view.read(server, slot, drive, other),
        Step::Finish { server, slot } => view.finish(server, slot),
        Step::Fail { server } => view.fail(server),
        Step::DriveOff { drive } => view.switch(drive, true),
        Step::DriveOn { drive } => view.switch(drive, false),
    };
    result.unwrap_or_else(Answer::Refused)
}

/// An answer that is no refusal, or the number of one.
type Outcome = Result<Answer, u32>;

/// Refuses with `number` unless `holds`.
fn check(holds: bool, number: u32) -> Result<(), u32> {
    if holds {
        Ok(())
    } else {
        Err(number)
    }
}

/// Refuses a server outside phases 1 and 2.
fn check_running(own: &Server) -> Result<(), u32> {
    check(own.phase == 1 || own.phase == 2, refusal::PHASE)
}

/// A server in a slot, and the first cell of its record.
#[derive(Clone, Copy)]
struct Place {
    server: usize,
    slot: usize,
    at: usize,
}

/// A room in range and its sizes.
struct View<'a> {
    room: &'a mut [u32],
    sizes: Sizes,
}

impl View<'_> {
    fn offer(&mut self, server: u8, slot: u8, command: u32) -> Outcome {
        let place = self.place(server, slot)?;
        check(has_command(self.room, command), refusal::NOT_A_COMMAND)?;
        let own = self.load(place);
        self.store(place, own.offering(command));
        Ok(Answer::Done)
    }

    fn recall(&mut self, server: u8, slot: u8, drive: u8) -> Outcome {
        let place = self.place(server, slot)?;
        let drive = self.drive(drive)?;
        let mut own = self.load(place);
        check(own.phase == 0, refusal::PHASE)?;
        self.check_on(drive)?;
        let block = self.block(place.slot, drive, place.server);
        own.read |= 1 << (4 * drive + place.server);
        own.top = own.top.max(block.mbal);
        own.meet(block);
        self.store(place, own);
        Ok(Answer::Done)
    }

    fn rejoin(&mut self, server: u8, slot: u8, ballot: u32) -> Outcome {
        let place = self.place(server, slot)?;
        self.check_ballot(place, ballot)?;
        let mut own = self.load(place);
        check(own.phase == 0, refusal::PHASE)?;
        let recalled = own.recalled(place.server, self.sizes.drives);
        check(is_majority(recalled, self.sizes.drives), refusal::NO_MAJORITY)?;
        check(ballot > own.top, refusal::NOT_ABOVE)?;
        (own.mbal, own.bal, own.inp) = (ballot, own.seenbal, own.seeninp);
        self.store(place, own.enter(1));
        Ok(Answer::Done)
    }

    fn bid(&mut self, server: u8, slot: u8, ballot: u32) -> Outcome {
        let place = self.place(server, slot)?;
        self.check_ballot(place, ballot)?;
        let mut own = self.load(place);
        check_running(&own)?;
        check(ballot > own.mbal, refusal::NOT_ABOVE)?;
        own.mbal = ballot;
        self.store(place, own.enter(1));
        Ok(Answer::Done)
    }

    fn write(&mut self, server: u8, slot: u8, drive: u8) -> Outcome {
        let place = self.place(server, slot)?;
        let drive = self.drive(drive)?;
        let mut own = self.load(place);
        check(matches!(own.phase, 1..=3), refusal::PHASE)?;
        self.check_on(drive)?;
        own.block().store(self.room, self.sizes.block_at(place.slot, drive, place.server));
        own.written |= 1 << drive;
        self.store(place, own);
        Ok(Answer::Done)
    }

    fn read(&mut self, server: u8, slot: u8, drive: u8, other: u8) -> Outcome {
        let place = self.place(server, slot)?;
        let drive = self.drive(drive)?;
        let other = other as usize;
        check(other < self.sizes.servers && other != place.server, refusal::BEYOND)?;
        let mut own = self.load(place);
        check_running(&own)?;
        self.check_on(drive)?;
        check(own.written >> drive & 1 == 1, refusal::NOT_WRITTEN)?;
        let found = self.block(place.slot, drive, other);
        if found.done != 0 {
            self.store(place, own.settled(found.done));
            return Ok(Answer::Committed(found.done));
        }
        if found.mbal >= own.mbal {
            return self.outbid(place, own, found.mbal);
        }
        own.read |= 1 << (4 * drive + other);
        own.meet(found);
        self.store(place, own);
        Ok(Answer::Done)
    }

    /// The rest of a Read that found a ballot not below the own one.
    fn outbid(&mut self, place: Place, mut own: Server, found: u32) -> Outcome {
        let servers = self.sizes.servers as u32;
        own.mbal =
            least_own_above(found, place.server as u32, servers).ok_or(refusal::NO_BALLOT_LEFT)?;
        self.store(place, own.enter(1));
        Ok(Answer::Outbid(found))
    }

    fn finish(&mut self, server: u8, slot: u8) -> Outcome {
        let place = self.place(server, slot)?;
        let mut own = self.load(place);
        check_running(&own)?;
        let Sizes { servers, drives, .. } = self.sizes;
        let completed = own.completed(place.server, servers, drives);
        check(is_majority(completed, drives), refusal::NO_MAJORITY)?;
        if own.phase == 2 {
            self.store(place, own.settled(own.inp));
            return Ok(Answer::Committed(own.inp));
        }
        let command = if own.seeninp != 0 { own.seeninp } else { own.offer };
        check(command != 0, refusal::NOTHING_OFFERED)?;
        own.bal = own.mbal;
        own.inp = command;
        self.store(place, own.enter(2));
        Ok(Answer::Chosen(command))
    }

    fn fail(&mut self, server: u8) -> Outcome {
        for slot in 0..self.sizes.slots as u8 {
            let place = self.place(server, slot)?;
            self.store(place, Server::default());
        }
        Ok(Answer::Done)
    }

    /// DriveOff and DriveOn.
    fn switch(&mut self, drive: u8, off: bool) -> Outcome {
        let mark = 1 << self.drive(drive)?;
        if off {
            self.room[OFF] |= mark;
        } else {
            self.room[OFF] &= !mark;
        }
        Ok(Answer::Done)
    }

    fn place(&self, server: u8, slot: u8) -> Result<Place, u32> {
        let (server, slot) = (server as usize, slot as usize);
        let within = server < self.sizes.servers && slot < self.sizes.slots;
        check(within, refusal::BEYOND)?;
        let at = self.sizes.server_at(slot, server);
        Ok(Place { server, slot, at })
    }

    fn drive(&self, drive: u8) -> Result<usize, u32> {
        let drive = drive as usize;
        check(drive < self.sizes.drives, refusal::BEYOND)?;
        Ok(drive)
    }

    fn check_on(&self, drive: usize) -> Result<(), u32> {
        check(self.room[OFF] >> drive & 1 == 0, refusal::DRIVE_OFF)
    }

    fn check_ballot(&self, place: Place, ballot: u32) -> Result<(), u32> {
        let owner = owner(ballot, self.sizes.servers as u32);
        check(owner == Some(place.server as u32), refusal::BALLOT)
    }

    fn load(&self, place: Place) -> Server {
        Server::load(self.room, place.at)
    }

    fn store(&mut self, place: Place, own: Server) {
        own.store(self.room, place.at);
    }

    fn block(&self, slot: usize, drive: usize, server: usize) -> Block {
        Block::load(self.room, self.sizes.block_at(slot, drive, server))
    }
}
