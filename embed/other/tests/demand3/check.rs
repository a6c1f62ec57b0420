//! The machines of a room, fed with a run, and held against its cells.

use other::generator::{Call, Reply, Taken};
use other::{catalogue, is_command, Answer, Block, Limits, Server, Sizes, Step, STRUCK};

use crate::machine::Machine;
use crate::seen::Seen;

/// One machine for each slot, and what has been seen.
pub struct Check {
    sizes: Sizes,
    limits: Limits,
    machines: Vec<Machine>,
    /// The slots with an accepted Offer, as marks.
    offered: u32,
    /// The server and the slot, where the last call was an Ask that named it.
    named: Option<(u32, u32)>,
    pub seen: Seen,
}

impl Check {
    /// The check of a new room. What is seen is added to `seen`.
    pub fn new(sizes: Sizes, limits: Limits, seen: Seen) -> Check {
        let machines = (0..sizes.slots).map(|_| Machine::default()).collect();
        Check { sizes, limits, machines, offered: 0, named: None, seen }
    }

    /// Feeds the machines with a call and its reply.
    pub fn feed(&mut self, call: Call, reply: Reply) {
        self.seen.calls += 1;
        self.seen.refused += u32::from(reply.refusal().is_some());
        let named = self.named.take();
        match (call, reply) {
            (Call::Step(next), Reply::Answer(answer)) => self.feed_step(next, answer),
            (Call::Step(next), Reply::Slot(_)) => panic!("{next:?} named a slot"),
            (Call::Ask { server }, _) => self.feed_ask(server, reply),
            (Call::Put { server, slot, command }, _) => {
                self.feed_put(server as usize, slot as usize, command, reply);
                if named == Some((server, slot)) {
                    self.put_as_named(command, reply);
                }
            }
        }
    }

    /// An Ask is no move. It names the lowest slot that is free by the machines.
    fn feed_ask(&mut self, server: u32, reply: Reply) {
        let inside = (server as usize) < self.sizes.servers;
        let free = |machine: &Machine| inside && machine.is_free(server as usize);
        let lowest = self.machines.iter().position(free);
        let none = if inside { 17 } else { 4 };
        let expected = lowest.map(|slot| slot as u32).ok_or(none);
        assert_eq!(reply, Reply::of_ask(expected), "ask {server}");
        self.named = expected.ok().map(|slot| (server, slot));
        match expected {
            Ok(_) => self.seen.asks.named += 1,
            Err(4) => self.seen.asks.beyond += 1,
            Err(_) => self.seen.asks.none_free += 1,
        }
    }

    /// A Put that is done makes the move of an Offer. It is done where the slot
    /// is free by the machine.
    fn feed_put(&mut self, server: usize, slot: usize, command: u32, reply: Reply) {
        let inside = server < self.sizes.servers && slot < self.sizes.slots;
        let expected = match (inside, is_command(command, &self.limits)) {
            (false, _) => Err(4),
            (true, false) => Err(5),
            (true, true) if !self.machines[slot].is_free(server) => Err(16),
            (true, true) => Ok(()),
        };
        assert_eq!(reply, Reply::of_put(expected), "put {server} {slot} {command}");
        let seen = &mut self.seen.puts;
        match expected {
            Ok(()) => {
                seen.done += 1;
                seen.late += u32::from(self.machines[slot].chosen.is_some());
                self.machines[slot].offer(server, command);
            }
            Err(4) => seen.beyond += 1,
            Err(5) => seen.no_command += 1,
            Err(_) => seen.not_free += 1,
        }
    }

    /// A Put straight after the same server's Ask that named its slot meets no
    /// refusal but 5.
    fn put_as_named(&mut self, command: u32, reply: Reply) {
        if is_command(command, &self.limits) {
            assert_eq!(reply, Reply::Answer(Answer::Done));
            self.seen.puts.straight += 1;
        } else {
            assert_eq!(reply, Reply::Answer(Answer::Refused(5)));
            self.seen.puts.straight_refused += 1;
        }
    }

    /// Feeds the machines with a step and its answer.
    fn feed_step(&mut self, next: Step, answer: Answer) {
        match (next, answer) {
            (_, Answer::Refused(_)) => {}
            (Step::Offer { server, slot, number }, _) => {
                self.offered |= 1 << slot;
                self.machines[slot as usize].offer(server as usize, number);
            }
            (Step::Fail { server }, _) => {
                self.seen.failed += 1;
                self.machines.iter_mut().for_each(|machine| machine.fail(server as usize));
            }
            (Step::Finish { server, slot }, Answer::Committed(command)) => {
                let again = self.committed(server, slot, command);
                self.seen.puts.settled += u32::from(!again && self.offered >> slot & 1 == 0);
            }
            // What a Read learns was committed before.
            (Step::Read { server, slot, .. }, Answer::Committed(command)) => {
                let again = self.committed(server, slot, command);
                assert!(again, "{command} was learned and not settled");
            }
            (_, Answer::Committed(_)) => panic!("{next:?} committed"),
            (_, Answer::Outbid(_)) => self.seen.outbid += 1,
            _ => {}
        }
    }

    /// A committed answer is a Choose. Whether another came before in the slot:
    /// then it was with the same command.
    fn committed(&mut self, server: u8, slot: u8, command: u32) -> bool {
        let machine = &mut self.machines[slot as usize];
        let again = machine.chosen.is_some();
        self.seen.committed += 1;
        self.seen.again += u32::from(again);
        machine.choose(server as usize, command);
        assert_eq!(machine.chosen, Some(command), "another command is settled");
        again
    }

    /// Counts what a step was decided by, in the room before it.
    pub fn count(&mut self, before: &[u32], call: Call, reply: Reply) {
        if let (Call::Step(step), Reply::Answer(answer)) = (call, reply) {
            let taken = Taken { sizes: self.sizes, before, step, answer };
            self.seen.halves.count(&taken);
            self.seen.learning.count(&taken);
        }
    }

    /// Compares the machines with the room.
    pub fn compare(&self, room: &[u32]) {
        for (slot, machine) in self.machines.iter().enumerate() {
            // Every agreed and every done is 0 or the one command of the slot.
            let known = |cell: u32| cell == 0 || machine.chosen == Some(cell);
            for server in 0..self.sizes.servers {
                let own = Server::load(room, self.sizes.server_at(slot, server));
                let offer = (own.offer != 0).then_some(own.offer);
                let output = (own.phase == 3 && own.agreed != 0).then_some(own.agreed);
                assert_eq!(machine.offer[server], offer);
                assert_eq!(machine.output[server], output);
                assert!(known(own.agreed), "agreed on {}", own.agreed);
                for drive in 0..self.sizes.drives {
                    let block = Block::load(room, self.sizes.block_at(slot, drive, server));
                    assert!(known(block.done), "{} is told", block.done);
                }
            }
        }
    }

    /// The commands of the run so far. Later answers only make it longer.
    fn list(&self) -> Vec<u32> {
        self.machines.iter().map_while(|machine| machine.chosen).collect()
    }

    /// Compares each catalogue with the first commands of the list.
    pub fn compare_catalogues(&mut self, room: &[u32]) {
        let list = self.list();
        self.seen.longest_list = self.seen.longest_list.max(list.len());
        for server in 0..self.sizes.servers as u32 {
            let mut out = [9; 64];
            let counts = catalogue(room, server, &mut out).expect("a room and a server");
            let taken = counts.0 as usize;
            assert!(taken <= list.len());
            let (cells, skipped) = fold(&list[..taken]);
            assert_eq!((out, counts.1), (cells, skipped));
            self.seen.struck += u32::from(cells.contains(&STRUCK));
        }
    }
}

/// What a list of commands makes of 64 empty cells, and how many it skips.
fn fold(commands: &[u32]) -> ([u32; 64], u32) {
    let mut cells = [0; 64];
    let mut skipped = 0;
    for command in commands {
        let (kind, piece, hoard) = (command / 65_536, command / 256 % 256, command % 256);
        let cell = &mut cells[piece as usize];
        match (kind, *cell) {
            (1, 0) | (2, 1..=255) => *cell = hoard,
            (3, 1..=255) => *cell = STRUCK,
            _ => skipped += 1,
        }
    }
    (cells, skipped)
}
