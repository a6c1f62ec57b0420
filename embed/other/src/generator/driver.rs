//! Steps of servers that follow the protocol. One server acts for a while in
//! one slot, then another; failures, switched drives and noise come between. A
//! server that knows what is settled may tell it: it writes that to the drives.

use super::chance::Chance;
use super::habits::Habits;
use super::noise::{any_step, good_command};
use crate::refusal;
use crate::room::{Sizes, OFF};
use crate::server::{is_majority, Server};
use crate::steps::{Answer, Step};
use crate::{least_own_above, BALLOT_LIMIT};

/// The servers of one run.
#[derive(Clone, Debug)]
pub struct Driver {
    sizes: Sizes,
    habits: Habits,
    pieces: Vec<u32>,
    /// The off marks that the next steps bring about.
    wanted: Option<u32>,
    /// The slots, as marks, that each server has given up.
    given_up: [u32; 4],
    /// The turn: the server that acts, its slot, the drive it begins with,
    /// whether it offers nothing, whether it tells what is settled, and how many
    /// steps are left.
    server: usize,
    slot: usize,
    first: usize,
    silent: bool,
    tells: bool,
    left: u32,
    /// Whether the last step was one of the turn.
    acted: bool,
}

impl Driver {
    /// The servers of a new run.
    pub fn new(chance: &mut Chance, sizes: Sizes, habits: Habits) -> Driver {
        // Few pieces, so that enter, move and strike meet one another.
        let count = chance.from_to(1, 4);
        let pieces = (0..count).map(|_| chance.below(64)).collect();
        let wanted = habits.half_off.then(|| half_of(chance, sizes.drives));
        Driver {
            sizes,
            habits,
            pieces,
            wanted,
            given_up: [0; 4],
            server: 0,
            slot: 0,
            first: 0,
            silent: false,
            tells: false,
            left: 0,
            acted: false,
        }
    }

    /// The pieces of most commands of the run.
    pub(super) fn pieces(&self) -> &[u32] {
        &self.pieces
    }

    /// The next step of the run, in the room as it stands.
    pub fn next_step(&mut self, chance: &mut Chance, room: &[u32]) -> Step {
        self.acted = false;
        if let Some(step) = self.towards_wanted(room) {
            return step;
        }
        if chance.per_mille(self.habits.noise) {
            return any_step(chance, room, self.sizes, self.slot, &self.pieces);
        }
        if chance.per_mille(self.habits.failures) {
            return Step::Fail { server: chance.place(self.sizes.servers) as u8 };
        }
        if chance.per_mille(self.habits.switches) {
            return self.switch(chance, room);
        }
        if self.left == 0 || !self.has_work(room, self.slot, self.server) {
            if let Some(step) = self.new_turn(chance, room) {
                return step;
            }
        }
        self.acted = true;
        self.left -= 1;
        self.act(chance, room)
    }

    /// Ends the turn where its step was refused. Where the server has no
    /// ballot left it gives the slot up.
    pub fn hear(&mut self, answer: Answer) {
        if let (true, Answer::Refused(number)) = (self.acted, answer) {
            self.left = 0;
            if number == refusal::NOT_ABOVE || number == refusal::NO_BALLOT_LEFT {
                self.given_up[self.server] |= 1 << self.slot;
            }
        }
    }

    /// Chooses the server and the slot of the next turn. Where no server has
    /// anything left to do, the step is the failure of one.
    fn new_turn(&mut self, chance: &mut Chance, room: &[u32]) -> Option<Step> {
        let offset = chance.place(self.sizes.servers);
        self.tells = chance.per_mille(self.habits.tells);
        for next in 0..self.sizes.servers {
            let server = (offset + next) % self.sizes.servers;
            let open: Vec<usize> =
                (0..self.sizes.slots).filter(|&slot| self.has_work(room, slot, server)).collect();
            if let Some(&lowest) = open.first() {
                self.server = server;
                self.slot = if chance.one_in(4) { chance.one_of(&open) } else { lowest };
                self.first = chance.place(self.sizes.drives);
                self.silent = chance.one_in(16);
                self.left = chance.from_to(1, 2 * self.habits.turn);
                return None;
            }
        }
        self.given_up = [0; 4];
        Some(Step::Fail { server: offset as u8 })
    }

    /// Whether there is something to do for a server in a slot: to put out a
    /// command, unless it has given the slot up, or in a turn that tells, to write
    /// it to a drive.
    fn has_work(&self, room: &[u32], slot: usize, server: usize) -> bool {
        let own = self.server(room, slot, server);
        match own.output() {
            Some(_) => self.tells && self.usable(room, own.written).is_some(),
            None => self.given_up[server] >> slot & 1 == 0,
        }
    }

    /// The step that helps the acting server in its slot.
    fn act(&self, chance: &mut Chance, room: &[u32]) -> Step {
        let own = self.own(room);
        let Sizes { servers, drives, .. } = self.sizes;
        let (server, slot) = (self.server as u8, self.slot as u8);
        if own.phase == 3 {
            let drive = self.usable(room, own.written).unwrap_or(0) as u8;
            return Step::Write { server, slot, drive };
        }
        if own.phase == 0 {
            let recalled = own.recalled(self.server, drives);
            let rejoin = Step::Rejoin { server, slot, number: self.ballot(chance, own.top) };
            if is_majority(recalled, drives) && !chance.one_in(16) {
                return rejoin;
            }
            return match self.usable(room, recalled) {
                Some(drive) => Step::Recall { server, slot, drive: drive as u8 },
                None => self.without_drive(chance, room, rejoin),
            };
        }
        if own.phase == 1 && own.seeninp == 0 && own.offer == 0 && !self.silent {
            let number = good_command(chance, room, &self.pieces);
            return Step::Offer { server, slot, number };
        }
        if chance.per_mille(self.habits.bids) {
            return Step::Bid { server, slot, number: self.ballot(chance, own.mbal) };
        }
        let completed = own.completed(self.server, servers, drives);
        let finish = Step::Finish { server, slot };
        if is_majority(completed, drives) {
            return finish;
        }
        match self.usable(room, completed) {
            Some(drive) => self.write_or_read(&own, drive),
            None => self.without_drive(chance, room, finish),
        }
    }

    /// Writes a drive, or reads the next block on it where it is written.
    fn write_or_read(&self, own: &Server, drive: usize) -> Step {
        let (server, slot) = (self.server as u8, self.slot as u8);
        let unread = (0..self.sizes.servers)
            .find(|&other| other != self.server && own.read >> (4 * drive + other) & 1 == 0);
        match unread {
            Some(other) if own.written >> drive & 1 == 1 => {
                Step::Read { server, slot, drive: drive as u8, other: other as u8 }
            }
            _ => Step::Write { server, slot, drive: drive as u8 },
        }
    }

    /// The step where no drive is left to use: `tried`, which asks for a
    /// majority, or one that switches a drive on.
    fn without_drive(&self, chance: &mut Chance, room: &[u32], tried: Step) -> Step {
        if chance.one_in(4) {
            self.switch_on(room)
        } else {
            tried
        }
    }

    /// The next drive that is on and not among `marks`.
    fn usable(&self, room: &[u32], marks: u32) -> Option<usize> {
        let passed = room[OFF] | marks;
        (0..self.sizes.drives)
            .map(|next| (self.first + next) % self.sizes.drives)
            .find(|drive| passed >> drive & 1 == 0)
    }

    /// Switches on the lowest drive that is off, drive 0 where none is.
    fn switch_on(&self, room: &[u32]) -> Step {
        let lowest = room[OFF].trailing_zeros() % 32;
        Step::DriveOn { drive: lowest as u8 }
    }

    /// Switches the lowest drive that is not as it is wanted.
    fn towards_wanted(&mut self, room: &[u32]) -> Option<Step> {
        let differ = self.wanted? ^ room[OFF];
        if differ == 0 {
            self.wanted = None;
            return None;
        }
        let drive = differ.trailing_zeros() as u8;
        let off = room[OFF] >> drive & 1 == 1;
        Some(if off { Step::DriveOn { drive } } else { Step::DriveOff { drive } })
    }

    /// Switches a drive. A drive that is off goes on three times in four. In a
    /// run where half of the drives are off, every other time another half goes.
    fn switch(&mut self, chance: &mut Chance, room: &[u32]) -> Step {
        if self.habits.half_off && chance.one_in(2) {
            self.wanted = Some(half_of(chance, self.sizes.drives));
            if let Some(step) = self.towards_wanted(room) {
                return step;
            }
        }
        if room[OFF] != 0 && !chance.one_in(4) {
            return self.switch_on(room);
        }
        Step::DriveOff { drive: chance.place(self.sizes.drives) as u8 }
    }

    /// An own ballot above `below`, in a high slot one near the limit.
    fn ballot(&self, chance: &mut Chance, below: u32) -> u32 {
        let servers = self.sizes.servers as u32;
        let high = self.habits.high >> self.slot & 1 == 1;
        let start = if high { below.max(BALLOT_LIMIT - chance.from_to(1, 8)) } else { below };
        let least = least_own_above(start, self.server as u32, servers)
            .or_else(|| least_own_above(below, self.server as u32, servers));
        let least = least.unwrap_or_else(|| self.last_ballot());
        let later = least + servers * chance.one_of(&[0, 0, 0, 0, 1, 1, 2, 5]);
        if later <= BALLOT_LIMIT {
            later
        } else {
            least
        }
    }

    /// The largest ballot of the acting server.
    fn last_ballot(&self) -> u32 {
        let servers = self.sizes.servers as u32;
        let above = BALLOT_LIMIT - servers;
        least_own_above(above, self.server as u32, servers).unwrap_or(BALLOT_LIMIT)
    }

    fn own(&self, room: &[u32]) -> Server {
        self.server(room, self.slot, self.server)
    }

    fn server(&self, room: &[u32], slot: usize, server: usize) -> Server {
        Server::load(room, self.sizes.server_at(slot, server))
    }
}

/// Half of the drives, rounded down, as marks.
fn half_of(chance: &mut Chance, drives: usize) -> u32 {
    let mut marks = 0_u32;
    while marks.count_ones() as usize != drives / 2 {
        marks |= 1 << chance.place(drives);
    }
    marks
}
